//! Kills the primary while a program works, promotes the standby, and opens the maps there.

use crate::seed::Seed;
use crate::servers::{Pair, template};
use crate::steps::{Step, is_permitted, make, read, some_step};
use dilluvas::{Db, FileSettings};
use dilluvas_replicated::{Place, Servers};
use std::collections::BTreeSet;
use std::fs::{self, File};
use std::io::Write;
use std::path::Path;
use std::process::{Child, Command, Stdio};
use std::time::{Duration, Instant};
use std::{env, mem, thread};

// The variable by which this program knows that it works until the primary is gone: the seed, the file of its log, and the connection.
const WORK: &str = "DILLUVAS_REPLICATED_WORK";

pub fn runs() -> u64 {
    env::var("DILLUVAS_REPLICATED_RUNS").map_or(4, |runs| runs.parse().unwrap())
}

// Batches have ten segments and more, or segments are longer than what is flushed at once.
fn settings_of(seed: u64) -> FileSettings {
    FileSettings {
        cache_capacity: 4096,
        idgen_persist_interval: 3,
        segment_size: 64 << (4 * (seed % 4)),
    }
}

fn place_of(conninfo: &str, seed: u64) -> Place {
    Place::new(conninfo, "maps").piece(1024 << (2 * (seed % 4)))
}

// Tells of each step in a file, until one fails.
fn work(words: &str) {
    let mut words = words.splitn(3, '|');
    let seed: u64 = words.next().unwrap().parse().unwrap();
    let log = words.next().unwrap();
    let place = place_of(words.next().unwrap(), seed);
    let db = Db::on_device(place.open_or_make().unwrap(), &settings_of(seed)).unwrap();
    let mut log = File::create(log).unwrap();
    let mut seed = Seed(seed);
    loop {
        let step = some_step(&mut seed);
        log.write_all(b"b").unwrap();
        match make(&db, &step) {
            Ok(answer) => log.write_all(&answer.to_le_bytes()).unwrap(),
            // the primary is gone
            Err(dilluvas::Error::Write(_) | dilluvas::Error::Read(_)) => return,
            Err(error) => panic!("{error}: {error:?}"),
        }
    }
}

fn start_work(seed: u64, log: &Path, conninfo: &str) -> Child {
    Command::new(env::current_exe().unwrap())
        .args([
            "killed::what_was_flushed_survives_a_failover",
            "--exact",
            "--nocapture",
        ])
        .env(WORK, format!("{seed}|{}|{conninfo}", log.display()))
        .stdout(Stdio::null())
        .spawn()
        .unwrap()
}

// The steps of which a log tells, each with what it was answered: the last one may have no answer.
fn history_of(seed: u64, mut log: &[u8]) -> Vec<(Step, Option<u64>)> {
    let mut seed = Seed(seed);
    let mut history = Vec::new();
    while let Some((b'b', rest)) = log.split_first() {
        let step = some_step(&mut seed);
        let Some((answer, rest)) = rest.split_first_chunk() else {
            history.push((step, None));
            return history;
        };
        history.push((step, Some(u64::from_le_bytes(*answer))));
        log = rest;
    }
    assert!(log.is_empty(), "the log has what it was given");
    history
}

// What came of failovers.
#[derive(Debug, Default)]
struct Outcomes {
    steps: usize,
    flushes: usize,
    // The primary was killed inside a flush, and of these how often the flush was durable all the same, with a change that no other flush had.
    in_a_flush: usize,
    durable: usize,
    // From the kill until the map was open on the standby.
    opened: Vec<Duration>,
}

fn fail_over(seed: u64, outcomes: &mut Outcomes) {
    let mut pair = Pair::start(&format!("killed-{seed}"));
    let log = pair.folder().join("steps");
    let mut child = start_work(seed, &log, &pair.primary.conninfo());
    while !log.exists() && child.try_wait().unwrap().is_none() {
        thread::sleep(Duration::from_millis(1));
    }
    thread::sleep(Duration::from_micros(Seed(seed).below(700_000) as u64));
    pair.primary.kill();
    let killed = Instant::now();
    pair.standby.promote();
    let place = place_of(&pair.standby.conninfo(), seed).servers(Servers::One);
    let db = Db::on_device(place.open().unwrap(), &settings_of(seed)).unwrap();
    outcomes.opened.push(killed.elapsed());
    let status = child.wait().unwrap();
    assert!(
        status.success(),
        "seed {seed}: it ended for the primary alone"
    );
    let history = history_of(seed, &fs::read(&log).unwrap());
    look(seed, &db, &history, outcomes);
}

// Looks at what the standby has.
fn look(seed: u64, db: &Db, history: &[(Step, Option<u64>)], outcomes: &mut Outcomes) {
    let told = format!("seed {seed}, {} steps", history.len());
    let found = read(db);
    assert!(
        is_permitted(history, &found),
        "{told}: no prefix of them left what is there"
    );
    let mut ids = BTreeSet::new();
    for (step, answer) in history {
        outcomes.steps += 1;
        match (step, answer) {
            (Step::Flush, Some(_)) => outcomes.flushes += 1,
            (Step::GenerateId, Some(id)) => assert!(ids.insert(*id), "{told}: id {id} came twice"),
            _ => {}
        }
    }
    for _ in 0..10 {
        let id = db.generate_id().unwrap();
        assert!(ids.insert(id), "{told}: id {id} came twice");
    }
    if let Some(((Step::Flush, None), before)) = history.split_last() {
        outcomes.in_a_flush += 1;
        let flushed = before
            .iter()
            .rposition(|(step, _)| matches!(step, Step::Flush));
        let without = &before[..flushed.map_or(0, |at| at + 1)];
        outcomes.durable += usize::from(!is_permitted(without, &found));
    }
    // it goes on there
    db.map("a").set("after", "the failover").unwrap();
    db.flush().unwrap();
}

#[test]
fn what_was_flushed_survives_a_failover() {
    if let Ok(words) = env::var(WORK) {
        return work(&words);
    }
    let _made = template();
    let first = env::var("DILLUVAS_REPLICATED_SEED").map_or(1, |seed| seed.parse().unwrap());
    let mut outcomes = Outcomes::default();
    for seed in first..first + runs() {
        fail_over(seed, &mut outcomes);
    }
    let mut opened = mem::take(&mut outcomes.opened);
    opened.sort_unstable();
    let (half, longest) = (opened[opened.len() / 2], opened[opened.len() - 1]);
    println!(
        "{} failovers, opened in {half:?}, {longest:?} at most: {outcomes:?}",
        opened.len()
    );
    assert!(outcomes.flushes > 0);
}
