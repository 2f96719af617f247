//! How long calls of the library take from Rust, beside LMDB through its C interface: the same loops over both.
//!
//! `library MEMORY DISK`: a line for each row and store, `PLACE PAGES CAPACITY ROW STORE NANOSECONDS`: the least of the processor's times
//! for a call. MEMORY is a folder in memory, where nothing waits for a disk, and DISK one on a disk, to which each flush is synced.
//! CAPACITY is that of the cache, in MiB.
//!
//! `library --compact DISK`: how long it takes to rewrite a file, and how much that takes before and then (`compact`).
//!
//! `library --batch DISK SEGMENT CHANGES`: what one batch takes (`batches`).

use cache::Cached;
use dilluvas::{Cache, FileSettings, Settings};
use lmdb::Lmdb;
use plain_file::PlainFile;
use std::ffi::OsString;
use std::path::Path;
use std::{env, fs};
use store::{FIRST, Pages, Store};

mod batches;
mod cache;
mod compact;
mod lmdb;
mod plain_file;
mod store;

const CALLS: u64 = 200_000;
const RUNS: usize = 5;
const KEYS: [&[u8]; 4] = [b"key0", b"key1", b"key2", b"key3"];
const VALUE: &[u8] = b"a value of 24 bytes here";

#[repr(C)]
struct TimeSpec {
    seconds: i64,
    nanoseconds: i64,
}

unsafe extern "C" {
    fn clock_gettime(clock: i32, time: *mut TimeSpec) -> i32;
}

// The processor's time that this process took, in nanoseconds.
fn processor_time() -> u64 {
    const OF_PROCESS: i32 = 2;
    let mut time = TimeSpec {
        seconds: 0,
        nanoseconds: 0,
    };
    assert_eq!(unsafe { clock_gettime(OF_PROCESS, &mut time) }, 0);
    time.seconds as u64 * 1_000_000_000 + time.nanoseconds as u64
}

/// Loops over a store that has so many pages.
#[derive(Clone, Copy)]
struct Loops {
    pages: u64,
}

impl Loops {
    // The pages of so many calls, in a mixed order.
    fn mixed(self, calls: u64) -> impl Iterator<Item = u64> {
        (0..calls).map(move |n| FIRST + n.wrapping_mul(0x9e37_79b9_7f4a_7c15) % self.pages)
    }

    fn fill(self, store: &mut dyn Pages) {
        let pairs = KEYS.map(|key| (key, VALUE));
        for _ in 0..self.pages {
            store.allocate(&pairs);
        }
        store.flush();
    }

    fn values(self, store: &mut dyn Store) -> u64 {
        let mut value = Vec::new();
        let mut bytes = 0;
        for page in self.mixed(CALLS) {
            value.clear();
            store.value(page, KEYS[(page % 4) as usize], &mut value);
            bytes += value.len() as u64;
        }
        bytes
    }

    fn reads(self, store: &mut dyn Pages) -> u64 {
        self.mixed(CALLS).map(|page| store.read(page) as u64).sum()
    }

    fn sets(self, store: &mut dyn Store) -> u64 {
        for page in self.mixed(CALLS) {
            store.set(page, KEYS[(page % 4) as usize], VALUE);
        }
        CALLS
    }

    fn flushed_sets(self, store: &mut dyn Store) -> u64 {
        for (call, page) in (1..).zip(self.mixed(CALLS)) {
            store.set(page, KEYS[(page % 4) as usize], VALUE);
            if call % 1000 == 0 {
                store.flush();
            }
        }
        CALLS
    }

    // Each page gets two values and is read.
    fn rounds(self, store: &mut dyn Store) -> u64 {
        let mut bytes = 0;
        for page in self.mixed(CALLS / 3) {
            store.set(page, KEYS[(page % 4) as usize], VALUE);
            store.set(page, KEYS[(page / 4 % 4) as usize], VALUE);
            bytes += store.read(page) as u64;
        }
        bytes
    }

    fn replacements(self, store: &mut dyn Store) -> u64 {
        let pairs = KEYS.map(|key| (key, VALUE));
        for page in self.mixed(CALLS) {
            store.replace(page, &pairs);
        }
        CALLS
    }

    fn allocations(self, store: &mut dyn Store) -> u64 {
        let pairs = KEYS.map(|key| (key, VALUE));
        (0..CALLS).map(|_| store.allocate(&pairs)).sum()
    }
}

/// A row: a loop over so many pages, with a cache of so many MiB. The loop answers a number that all stores answer alike.
struct Row {
    name: &'static str,
    run: fn(Loops, &mut dyn Store) -> u64,
    pages: u64,
    capacity: u64,
}

// A row of 1,000 pages, which all stay in memory.
const fn few(name: &'static str, run: fn(Loops, &mut dyn Store) -> u64) -> Row {
    Row {
        name,
        run,
        pages: 1000,
        capacity: 64,
    }
}

// Two sets and a read, of so many pages.
const fn many(pages: u64, capacity: u64) -> Row {
    Row {
        name: "set-set-get_into",
        run: Loops::rounds,
        pages,
        capacity,
    }
}

const ROWS: [Row; 6] = [
    few("value", Loops::values),
    few("get_into", |loops, store| loops.reads(store)),
    few("set", Loops::sets),
    few("set-and-flush", Loops::flushed_sets),
    few("replace", Loops::replacements),
    few("allocate", Loops::allocations),
];

// In memory alone: the program's own capacity, and one that takes all pages.
const MANY: [Row; 6] = [
    many(10_000, 1),
    many(10_000, 64),
    many(100_000, 1),
    many(100_000, 512),
    many(1_000_000, 1),
    many(1_000_000, 4096),
];

// A cache in a new folder.
fn cached(folder: &Path, on_disk: bool, cache_capacity: u64) -> Box<dyn Store> {
    let cache = if on_disk {
        let settings = FileSettings {
            cache_capacity,
            ..FileSettings::default()
        };
        Cache::open(folder.join("pages"), &settings)
    } else {
        let settings = Settings {
            cache_capacity,
            ..Settings::default()
        };
        Cache::in_memory(&settings)
    };
    Box::new(Cached::over(cache.expect("a cache is opened")))
}

// A new folder.
fn emptied(folder: &Path) -> &Path {
    let _ = fs::remove_dir_all(folder);
    fs::create_dir_all(folder).expect("a folder is made");
    folder
}

// The processor's time of a loop over a store, and what it answered.
fn timed<S: ?Sized>(store: &mut S, run: impl FnOnce(&mut S) -> u64) -> (u64, u64) {
    let start = processor_time();
    let answer = run(store);
    (processor_time() - start, answer)
}

// The least times of so many stores, each of which `run` makes anew and runs. They answer alike.
fn least_times<const N: usize>(mut run: impl FnMut(usize) -> (u64, u64)) -> [u64; N] {
    let mut least = [u64::MAX; N];
    for _ in 0..RUNS {
        let mut answers = [0; N];
        for at in 0..N {
            let (time, answer) = run(at);
            answers[at] = answer;
            least[at] = least[at].min(time);
        }
        assert!(
            answers.iter().all(|answer| *answer == answers[0]),
            "the stores differ"
        );
    }
    least
}

fn print(place: &str, row: &str, pages: u64, capacity: u64, stores: &[&str], times: &[u64]) {
    for (store, time) in stores.iter().zip(times) {
        let nanoseconds = *time as f64 / CALLS as f64;
        println!("{place} {pages} {capacity} {row} {store} {nanoseconds}");
    }
}

// A row over the cache and LMDB.
fn measure(folder: &Path, on_disk: bool, row: &Row) {
    let loops = Loops { pages: row.pages };
    let times = least_times::<2>(|at| {
        let folder = emptied(folder);
        let mut store = match at {
            0 => cached(folder, on_disk, row.capacity << 20),
            _ => Box::new(Lmdb::open(folder, on_disk)),
        };
        loops.fill(&mut *store);
        timed(&mut *store, |store| (row.run)(loops, store))
    });
    let place = if on_disk { "disk" } else { "memory" };
    print(
        place,
        row.name,
        row.pages,
        row.capacity,
        &["dilluvas", "lmdb"],
        &times,
    );
}

// Reads of pages that left memory, over a file, beside LMDB and reads of the same bytes of a plain file.
fn measure_away(folder: &Path) {
    let (pages, capacity) = (100_000, 1);
    let loops = Loops { pages };
    let times = least_times::<3>(|at| {
        let folder = emptied(folder);
        let mut store: Box<dyn Pages> = match at {
            0 => cached(folder, true, capacity << 20),
            1 => Box::new(Lmdb::open(folder, true)),
            _ => Box::new(PlainFile::open(&folder.join("plain"))),
        };
        loops.fill(&mut *store);
        timed(&mut *store, |store| loops.reads(store))
    });
    print(
        "disk",
        "get_into",
        pages,
        capacity,
        &["dilluvas", "lmdb", "pread"],
        &times,
    );
}

fn number_of(word: &OsString) -> u64 {
    let text = word.to_str().expect("a number is text");
    text.parse().expect("it is a number")
}

fn main() {
    let folders: Vec<_> = env::args_os().skip(1).collect();
    if let [batch, disk, segment_size, changes] = &folders[..]
        && batch == "--batch"
    {
        let [segment_size, changes] = [segment_size, changes].map(number_of);
        return batches::measure(
            &Path::new(disk).join("library"),
            segment_size as usize,
            changes,
        );
    }
    let [memory, disk] = &folders[..] else {
        panic!("usage: library MEMORY DISK, or --compact DISK, or --batch DISK SEGMENT CHANGES");
    };
    if memory == "--compact" {
        return compact::measure(&Path::new(disk).join("library"));
    }
    let memory = Path::new(memory).join("library");
    let disk = Path::new(disk).join("library");
    for row in ROWS.iter().chain(&MANY) {
        measure(&memory, false, row);
    }
    for row in &ROWS {
        measure(&disk, true, row);
    }
    measure_away(&disk);
}
