//! What a log on PostgreSQL with a synchronous standby costs beside a file: the tables of docs/SCALE.md.
//!
//! `DILLUVAS_REPLICATED_FOLDER=/var/tmp cargo run --release --example measure -- flushes rates` starts its own servers there, and prints the tables.

#[cfg(feature = "nbd")]
mod block;
mod group;
#[path = "../../tests/engine/proxy.rs"]
#[allow(dead_code)]
mod proxy;
mod rates;
#[path = "../../tests/engine/servers.rs"]
#[allow(dead_code)]
mod servers;
#[path = "../shards.rs"]
#[allow(dead_code)]
mod shards;
mod sizes;

use dilluvas::{Db, FileSettings};
use dilluvas_replicated::Place;
use proxy::Proxy;
use servers::Pair;
use std::path::Path;
use std::time::{Duration, Instant};
use std::{env, fs, thread};

const VALUE: usize = 100;
const RECORDS: u64 = 100_000;

// Keys in a mixed order.
fn key(number: u64) -> [u8; 8] {
    number.wrapping_mul(0x9e37_79b9_7f4a_7c15).to_be_bytes()
}

fn set(db: &Db, number: u64) {
    db.map("m").set(key(number), [7; VALUE]).unwrap();
}

/// A pair of servers with wires that count and wait: between the program and the primary, and between the two servers.
struct Wired {
    pair: Pair,
    program: Proxy,
    standby: Proxy,
}

impl Wired {
    /// Each round trip takes so long.
    fn start(name: &str, round_trip: Duration) -> Wired {
        let mut standby = None;
        let pair = Pair::start_through(name, |port| {
            standby.insert(Proxy::new(port, round_trip / 2)).port()
        });
        Wired {
            program: Proxy::new(pair.primary.port(), round_trip / 2),
            standby: standby.unwrap(),
            pair,
        }
    }

    fn open(&self, name: &str, piece: u32) -> Db {
        let place = Place::new(servers::conninfo(self.program.port()), name).piece(piece);
        // a page that isn't in memory is read over the wire
        let settings = FileSettings {
            cache_capacity: 1 << 30,
            ..FileSettings::default()
        };
        let db = Db::on_device(place.open_or_make().unwrap(), &settings).unwrap();
        db.set_compact_at(None).unwrap();
        db
    }

    // What went over the wires: to the primary, back, and to the standby.
    fn counts(&self) -> [u64; 3] {
        [
            &self.program.requests,
            &self.program.answers,
            &self.standby.answers,
        ]
        .map(|way| way.count())
    }
}

// Makes flushes of some changes each: how long they took, ascending.
fn flushes(db: &Db, changes: u64, count: u64, number: &mut u64) -> Vec<Duration> {
    let mut times: Vec<_> = (0..count)
        .map(|_| {
            for _ in 0..changes {
                *number += 1;
                set(db, *number);
            }
            let start = Instant::now();
            db.flush().unwrap();
            start.elapsed()
        })
        .collect();
    times.sort_unstable();
    times
}

fn percentiles(times: &[Duration]) -> String {
    let at = |part: usize| times[times.len() * part / 100].as_secs_f64() * 1000.0;
    format!("{:.1}, {:.1}", at(50), at(99))
}

fn flush_of_a_file(folder: &Path) {
    let db = Db::open(folder.join("file")).unwrap();
    let mut number = 0;
    for changes in [1, 10, 1000] {
        let times = flushes(&db, changes, 100, &mut number);
        println!("| a file | - | {changes} | {} | | | |", percentiles(&times));
    }
}

fn flush_of_a_table(wired: &Wired, name: &str, piece: u32, count: u64) {
    let db = wired.open(&format!("flushes {piece}"), piece);
    let mut number = 0;
    // so that it isn't of the first bytes of a log
    flushes(&db, 1000, 2, &mut number);
    for changes in [1, 10, 1000] {
        let before = wired.counts();
        let times = flushes(&db, changes, count, &mut number);
        thread::sleep(Duration::from_millis(300));
        let after = wired.counts();
        let per = |at: usize| (after[at] - before[at]) as f64 / count as f64;
        let of_value = (changes * VALUE as u64) as f64;
        println!(
            "| {name} | {} | {changes} | {} | {:.0}, {:.0} | {:.0} | {:.1}, {:.1} |",
            piece / 1024,
            percentiles(&times),
            per(0),
            per(1),
            per(2),
            (per(0) + per(1)) / of_value,
            per(2) / of_value
        );
    }
}

fn opening(wired: &Wired, round_trip: &str, piece: u32, records: u64) {
    let name = format!("opening {piece}");
    let db = wired.open(&name, piece);
    for number in 0..records {
        set(&db, number);
        if number % 10_000 == 9_999 {
            db.flush().unwrap();
        }
    }
    db.flush().unwrap();
    let size = db.size_on_disk().unwrap();
    drop(db);
    let before = wired.counts();
    let start = Instant::now();
    let db = wired.open(&name, piece);
    let opened = start.elapsed();
    let read = wired.counts()[1] - before[1];
    let got = Instant::now();
    for number in 0..100 {
        let key = key(number * (records / 100));
        assert!(db.map("m").contains_key(key).unwrap());
    }
    println!(
        "| {round_trip} | {} | {records} | {:.1} | {:.0} | {:.1} | {:.1} |",
        piece / 1024,
        size as f64 / 1e6,
        opened.as_secs_f64() * 1000.0,
        read as f64 / 1e6,
        got.elapsed().as_secs_f64() * 10.0,
    );
}

// Copies pairs in batches, and makes them durable.
fn copy(from: &Db, to: &Db) {
    let mut pairs = from.map("m").iter();
    loop {
        let some: Vec<_> = pairs.by_ref().take(1000).map(Result::unwrap).collect();
        if some.is_empty() {
            to.flush().unwrap();
            return;
        }
        let set = |batch: &dilluvas::DbBatch<'_>| {
            let map = batch.map("m");
            let mut some = some.iter();
            some.try_for_each(|(key, value)| map.set(key, value).map(drop))
        };
        to.batch(set).unwrap();
    }
}

// Rewrites a log onto another one of the engine, and into memory, from where its pairs are copied: how long each took.
fn moving(wired: &Wired, round_trip: &str, records: u64) {
    let name = format!("opening {}", 1 << 13);
    let place = Place::new(servers::conninfo(wired.program.port()), "rewritten");
    let from = wired.open(&name, 1 << 13);
    let start = Instant::now();
    from.compact_to(place.open_or_make().unwrap()).unwrap();
    let rewritten = start.elapsed().as_secs_f64();
    let size = from.size_on_disk().unwrap() as f64 / 1e6;
    let from = wired.open(&name, 1 << 13);
    let start = Instant::now();
    from.compact_to(shards::Memory::default()).unwrap();
    copy(&from, &wired.open("copied", 1 << 13));
    let copied = start.elapsed().as_secs_f64();
    println!("| {round_trip} | {records} | {rewritten:.1} | {size:.1} | {copied:.1} |");
}

fn start_all() -> Vec<(String, Wired)> {
    let delays = [0, 1, 10].map(|delay| (format!("{delay} ms"), Duration::from_millis(delay)));
    let start = |(name, delay): (String, Duration)| {
        let wired = Wired::start(&format!("wired-{}", delay.as_millis()), delay);
        // the tests have a small one, at which checkpoints follow one another
        wired
            .pair
            .primary
            .query("ALTER SYSTEM SET max_wal_size = '4GB'")
            .unwrap();
        wired.pair.primary.query("SELECT pg_reload_conf()").unwrap();
        (name, wired)
    };
    delays.into_iter().map(start).collect()
}

fn each_piece<'a>(
    wired: &'a [(String, Wired)],
    pieces: &'a [u32],
) -> impl Iterator<Item = (&'a (String, Wired), u32)> {
    wired
        .iter()
        .flat_map(|wired| pieces.iter().map(move |piece| (wired, *piece)))
}

const USAGE: &str = "usage: measure PART .., of memory, tables, flushes, rates, openings and moves";

fn print_flushes(folder: &Path, wired: &[(String, Wired)]) {
    println!(
        "\n| round trip | KiB of a piece | changes | ms: p50, p99 | bytes to and from the primary | to the standby | for a byte of value |"
    );
    flush_of_a_file(folder);
    #[cfg(feature = "nbd")]
    block::flush_of_a_block_device(folder);
    for ((name, wired), piece) in each_piece(wired, &[1 << 16, 1 << 13, 1 << 11]) {
        flush_of_a_table(wired, name, piece, 50);
    }
}

// Moves are of a log that openings make.
fn print_openings(wired: &[(String, Wired)], with_moves: bool) {
    println!(
        "\n| round trip | KiB of a piece | records | MB | opening, ms | MB read | a get from cold, ms |"
    );
    for ((name, wired), piece) in each_piece(wired, &[1 << 16, 1 << 13]) {
        opening(wired, name, piece, RECORDS);
    }
    if with_moves {
        println!(
            "\n| round trip | records | rewriting the log, s | its MB then | rewriting it into memory and copying the pairs, s |"
        );
        for (name, wired) in wired {
            moving(wired, name, RECORDS);
        }
    }
}

fn main() {
    let words: Vec<_> = env::args().skip(1).collect();
    match &words[..] {
        [word, path] if word == "memory-of" => return sizes::open_for_memory(path),
        [] => panic!("{USAGE}"),
        _ => {}
    }
    let wants = |part: &str| words.iter().any(|word| word == part);
    let _made = servers::template();
    let folder = servers::folder("measure");
    if wants("memory") {
        sizes::memory_of_a_file(&folder);
    }
    let wired = start_all();
    if wants("tables") {
        sizes::tables(&wired[0].1);
    }
    if wants("flushes") {
        print_flushes(&folder, &wired);
    }
    if wants("rates") {
        rates::all_rates(&folder, &wired);
    }
    if wants("openings") || wants("moves") {
        print_openings(&wired, wants("moves"));
    }
    drop(wired);
    fs::remove_dir_all(folder).unwrap();
}
