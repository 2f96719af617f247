//! How long it takes to rewrite a file, and how much that takes before and then, beside LMDB's copy with compaction.
//!
//! A line for each store, `STORE CAPACITY BEFORE BEHIND MILLISECONDS`: the cache's capacity in MiB, the bytes of its file before and behind
//! it, and the least time of the clock. Each time is one to a file that is durable by its name.

use crate::cache::Cached;
use crate::lmdb::Lmdb;
use crate::store::{FIRST, Store};
use dilluvas::{Cache, FileSettings};
use std::fs::{self, File};
use std::path::Path;
use std::time::Instant;

const PAGES: u64 = 1000;
const SETS: u64 = 1_000_000;
const RUNS: usize = 5;

// The pages, and so many sets of them in a mixed order, of which each thousand is flushed.
fn fill(store: &mut dyn Store) {
    let pairs = crate::KEYS.map(|key| (key, crate::VALUE));
    for _ in 0..PAGES {
        store.allocate(&pairs);
    }
    for set in 0..SETS {
        let page = FIRST + set.wrapping_mul(0x9e37_79b9_7f4a_7c15) % PAGES;
        store.set(page, crate::KEYS[(page % 4) as usize], crate::VALUE);
        if set % 1000 == 999 {
            store.flush();
        }
    }
    store.flush();
}

fn size_of(path: &Path) -> u64 {
    fs::metadata(path).expect("the file is there").len()
}

// What a rewriting took.
struct Run {
    before: u64,
    behind: u64,
    milliseconds: f64,
}

fn run_cache(folder: &Path, mebibytes: u64) -> Run {
    let path = folder.join("pages");
    let settings = FileSettings {
        cache_capacity: (mebibytes << 20).max(256),
        ..FileSettings::default()
    };
    let cache = Cache::open(&path, &settings).expect("a cache is opened");
    let mut store = Cached::over(cache);
    fill(&mut store);
    let before = size_of(&path);
    let start = Instant::now();
    store.compact();
    Run {
        before,
        milliseconds: start.elapsed().as_secs_f64() * 1e3,
        behind: size_of(&path),
    }
}

fn run_lmdb(folder: &Path) -> Run {
    let mut store = Lmdb::open(folder, true);
    fill(&mut store);
    let copied = folder.join("copy");
    fs::create_dir(&copied).expect("a folder is made");
    let start = Instant::now();
    store.copy(&copied);
    let file = copied.join("data.mdb");
    for path in [&file, &copied] {
        let synced = File::open(path).and_then(|file| file.sync_all());
        synced.expect("it is synced");
    }
    Run {
        before: size_of(&folder.join("data.mdb")),
        milliseconds: start.elapsed().as_secs_f64() * 1e3,
        behind: size_of(&file),
    }
}

fn print(store: &str, mebibytes: u64, run: impl Fn() -> Run) {
    let runs: Vec<_> = (0..RUNS).map(|_| run()).collect();
    let least = runs
        .iter()
        .map(|run| run.milliseconds)
        .fold(f64::MAX, f64::min);
    let Run { before, behind, .. } = runs[0];
    println!("{store} {mebibytes} {before} {behind} {least}");
}

/// Measures both, in files of a folder.
pub fn measure(folder: &Path) {
    // all pages are in memory, or next to none
    for mebibytes in [64, 0] {
        print("dilluvas", mebibytes, || {
            run_cache(crate::emptied(folder), mebibytes)
        });
    }
    print("lmdb", 0, || run_lmdb(crate::emptied(folder)));
}
