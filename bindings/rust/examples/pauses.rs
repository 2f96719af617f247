//! Measures how long flushes take, of which some rewrite the file: `cargo run --release --example pauses -- FILE KEYS [REWRITINGS]`.
//!
//! It makes FILE with so many keys of 8 bytes and values of 8, in no order, and changes values then, with a flush behind each 1,000, until
//! the file was rewritten so many times, as the usual settings have it. `docs/SPACE.md` has what it told.

use dilluvas::{CompactAt, Db, Error, Map};
use std::path::Path;
use std::time::{Duration, Instant};
use std::{env, fs, process};

const CHANGES_A_FLUSH: u64 = 1000;

/// One flush that made the file shorter.
struct Rewriting {
    before: u64,
    after: u64,
    took: Duration,
}

fn main() -> Result<(), Error> {
    let words: Vec<String> = env::args().skip(1).collect();
    let (Some(path), Some(keys)) = (words.first(), number(&words, 1)) else {
        eprintln!("FILE KEYS [REWRITINGS]");
        process::exit(2);
    };
    let rewritings = number(&words, 2).unwrap_or(1);
    let db = Db::open(path)?;
    fill(&db, keys)?;
    db.set_compact_at(Some(CompactAt::default()))?;
    forget_peak();
    let usual = memory("VmRSS:");
    let (flushes, rewritten) = change(&db, Path::new(path), keys, rewritings)?;
    for Rewriting {
        before,
        after,
        took,
    } in rewritten
    {
        println!("{keys} keys: {before} bytes became {after} in {took:.1?}");
    }
    let at = |share: f64| flushes[((flushes.len() - 1) as f64 * share) as usize];
    println!(
        "{} flushes: p50 {:.1?}, p99 {:.1?}, p99.9 {:.1?}, the longest {:.1?}",
        flushes.len(),
        at(0.5),
        at(0.99),
        at(0.999),
        at(1.0)
    );
    println!("memory: {usual} kB before, {} kB at most", memory("VmHWM:"));
    Ok(())
}

fn number(words: &[String], at: usize) -> Option<u64> {
    words.get(at)?.parse().ok()
}

// Each key once, in an order that is none.
fn fill(db: &Db, keys: u64) -> Result<(), Error> {
    db.set_compact_at(None)?;
    let map = db.map("numbers");
    for number in 0..keys {
        map.set(key_of(number), number.to_be_bytes())?;
    }
    db.flush().map(drop)
}

// The times of all flushes in their order, and those that rewrote the file.
fn change(
    db: &Db,
    path: &Path,
    keys: u64,
    rewritings: u64,
) -> Result<(Vec<Duration>, Vec<Rewriting>), Error> {
    let map = db.map("numbers");
    let (mut flushes, mut rewritten) = (Vec::new(), Vec::new());
    let mut seed = 1;
    while (rewritten.len() as u64) < rewritings {
        change_some(&map, keys, &mut seed)?;
        let before = length(path);
        let start = Instant::now();
        db.flush()?;
        let took = start.elapsed();
        flushes.push(took);
        let after = length(path);
        if after < before {
            rewritten.push(Rewriting {
                before,
                after,
                took,
            });
        }
    }
    flushes.sort();
    Ok((flushes, rewritten))
}

fn change_some(map: &Map, keys: u64, seed: &mut u64) -> Result<(), Error> {
    for _ in 0..CHANGES_A_FLUSH {
        // Marsaglia's generator
        *seed ^= *seed << 13;
        *seed ^= *seed >> 7;
        *seed ^= *seed << 17;
        map.set(key_of(*seed % keys), seed.to_be_bytes())?;
    }
    Ok(())
}

fn key_of(number: u64) -> [u8; 8] {
    number.wrapping_mul(0x9E37_79B9_7F4A_7C15).to_be_bytes()
}

fn length(path: &Path) -> u64 {
    fs::metadata(path).map_or(0, |found| found.len())
}

// How many kilobytes the system says that the process has, on Linux.
fn memory(name: &str) -> u64 {
    let status = fs::read_to_string("/proc/self/status").unwrap_or_default();
    let line = status.lines().find_map(|line| line.strip_prefix(name));
    line.and_then(|line| line.split_whitespace().next()?.parse().ok())
        .unwrap_or(0)
}

fn forget_peak() {
    // it is only counted from the start else
    let _ = fs::write("/proc/self/clear_refs", "5");
}
