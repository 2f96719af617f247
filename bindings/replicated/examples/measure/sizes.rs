//! What a log takes of memory and of the disk.

use crate::{RECORDS, Wired, set};
use dilluvas::Db;
use std::io::Write;
use std::path::Path;
use std::process::Command;
use std::time::Instant;
use std::{env, fs};

// How many bytes of memory this process has.
fn memory() -> u64 {
    let told = fs::read_to_string("/proc/self/statm").unwrap();
    let pages = told.split(' ').nth(1).unwrap();
    pages.parse::<u64>().unwrap() * 4096
}

// Opens a file in a process of its own, whose first argument is `memory-of`, and prints what that takes.
pub fn open_for_memory(path: &str) {
    let before = memory();
    let start = Instant::now();
    let db = Db::open(path).unwrap();
    let opened = start.elapsed().as_secs_f64() * 1000.0;
    let more = memory() - before;
    let size = db.size_on_disk().unwrap() as f64 / 1e6;
    println!("{size:.1} | {opened:.0} | {:.1} |", more as f64 / 1e6);
}

// What an open file of many records takes, of which next to no page is in memory.
pub fn memory_of_a_file(folder: &Path) {
    let records = 10 * RECORDS;
    println!("\n| a file | records | MB | opening, ms | MB of memory |");
    let path = folder.join("many");
    let db = Db::open(&path).unwrap();
    db.set_compact_at(None).unwrap();
    for number in 0..records {
        set(&db, number);
    }
    db.flush().unwrap();
    drop(db);
    for what in ["as it grew", "rewritten"] {
        if what == "rewritten" {
            Db::open(&path).unwrap().compact().unwrap();
        }
        print!("| {what} | {records} | ");
        std::io::stdout().flush().unwrap();
        let mut child = Command::new(env::current_exe().unwrap());
        assert!(
            child
                .arg("memory-of")
                .arg(&path)
                .status()
                .unwrap()
                .success()
        );
    }
}

// What the tables take on the disk for the log of many records.
pub fn tables(wired: &Wired) {
    let records = RECORDS;
    println!("\n| KiB of a piece | records | MB of the log | of the table | MB to the standby |");
    for piece in [1 << 16, 1 << 13, 1 << 11] {
        wired
            .pair
            .primary
            .query("TRUNCATE dilluvas_piece, dilluvas_log")
            .unwrap();
        let before = wired.counts()[2];
        let db = wired.open("tables", piece);
        for number in 0..records {
            set(&db, number);
            if number % 100 == 99 {
                db.flush().unwrap();
            }
        }
        db.flush().unwrap();
        let log = db.size_on_disk().unwrap() as f64 / 1e6;
        let size = "SELECT pg_total_relation_size('dilluvas_piece')";
        let table: f64 = wired.pair.primary.query(size).unwrap().parse().unwrap();
        let sent = (wired.counts()[2] - before) as f64 / 1e6;
        println!(
            "| {} | {records} | {log:.1} | {:.1} | {sent:.1} |",
            piece / 1024,
            table / 1e6
        );
    }
}
