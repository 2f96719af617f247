//! What one batch takes, which is larger than memory may be, beside one transaction of LMDB with the same changes: a process for each, so that
//! its greatest memory is that of the batch.
//!
//! A line: milliseconds by the clock, from the first change to the flush or commit behind the last, and the greatest memory in kB.

use crate::lmdb::Lmdb;
use crate::store::{FIRST, Pages, Store};
use dilluvas::{Cache, FileSettings, Token};
use std::fs;
use std::path::Path;
use std::time::Instant;

const PAGES: u64 = 1000;
const KEY: &[u8] = b"key";
const VALUE: &[u8] = b"a value of some forty bytes, to be exact";

// The pages of so many changes, in a mixed order.
fn pages_of(changes: u64) -> impl Iterator<Item = u64> {
    (0..changes).map(|n| n.wrapping_mul(0x9e37_79b9_7f4a_7c15) % PAGES)
}

fn open(folder: &Path, segment_size: usize) -> Cache {
    let settings = FileSettings {
        segment_size,
        ..FileSettings::default()
    };
    Cache::open(folder.join("pages"), &settings).expect("a cache is opened")
}

// A batch in a new file.
fn run_cache(folder: &Path, segment_size: usize, changes: u64) -> f64 {
    let mut cache = open(crate::emptied(folder), segment_size);
    let allocated = (0..PAGES).map(|_| cache.allocate([(KEY, VALUE)]).expect("it is allocated"));
    let mut tokens: Vec<Token> = allocated.collect();
    cache.flush().expect("it is flushed");
    let start = Instant::now();
    let mut batch = cache.pin().expect("a batch is opened");
    for page in pages_of(changes) {
        let token = &mut tokens[page as usize];
        let swap = batch.set(*token, KEY, VALUE).expect("it is set");
        *token = swap.done().expect("nobody else changes the page");
    }
    batch.seal().expect("it is sealed");
    cache.flush().expect("it is flushed");
    start.elapsed().as_secs_f64() * 1e3
}

fn run_lmdb(folder: &Path, changes: u64) -> f64 {
    let mut store = Lmdb::open(crate::emptied(folder), true);
    for _ in 0..PAGES {
        store.allocate(&[(KEY, VALUE)]);
    }
    store.flush();
    let start = Instant::now();
    for page in pages_of(changes) {
        store.set(FIRST + page, KEY, VALUE);
    }
    store.flush();
    start.elapsed().as_secs_f64() * 1e3
}

// The greatest memory of this process so far, in kB.
fn peak() -> u64 {
    let status = fs::read_to_string("/proc/self/status").expect("Linux has that");
    let mut lines = status.lines();
    let found = lines.find_map(|line| line.strip_prefix("VmHWM:"));
    let number = found.and_then(|rest| rest.split_whitespace().next());
    number
        .and_then(|text| text.parse().ok())
        .expect("a number of kB")
}

/// Makes a batch of so many changes in a new file of a folder: with segments of so many bytes, or in LMDB where that is 0. Of no changes it
/// opens the file that is there.
pub fn measure(folder: &Path, segment_size: usize, changes: u64) {
    let milliseconds = match (segment_size, changes) {
        (0, _) => run_lmdb(folder, changes),
        (_, 0) => {
            let start = Instant::now();
            drop(open(folder, segment_size));
            start.elapsed().as_secs_f64() * 1e3
        }
        _ => run_cache(folder, segment_size, changes),
    };
    println!("{milliseconds} {}", peak());
}
