//! Copies of files that others change meanwhile.

use crate::folder::Folder;
use crate::run::{Store, run};
use dilluvas::{Db, Error, FileSettings};
use std::fs;
use std::sync::atomic::{AtomicBool, AtomicU64, Ordering};
use std::thread;
use std::time::Duration;

#[test]
fn a_copy_has_what_was_flushed_and_nothing_behind() {
    let store = Store::new("copy");
    let (other, third) = (
        store.folder.path().join("other"),
        store.folder.path().join("third"),
    );
    let other = other.to_str().unwrap();
    let db = Db::open(store.folder.file()).unwrap();
    db.map("m").set("flushed", "1").unwrap();
    db.flush().unwrap();
    let len = fs::metadata(store.folder.file()).unwrap().len();
    db.map("m").set("pending", "1").unwrap();
    // the file is held, and is copied all the same
    store.run(&["copy", other]).done();
    assert_eq!(fs::metadata(other).unwrap().len(), len);
    assert_eq!(run(&[other, "scan", "m"]).done(), "flushed\t1\n");
    // what a crash left behind the end isn't copied
    drop(db);
    let bytes = fs::read(other).unwrap();
    fs::write(&third, [&bytes[..], b"left by a crash"].concat()).unwrap();
    fs::remove_file(other).unwrap();
    run(&[third.to_str().unwrap(), "copy", other]).done();
    assert_eq!(fs::read(other).unwrap(), bytes);
}

#[test]
fn a_copy_is_put_over_no_file() {
    let store = Store::new("copy-over");
    store.run(&["set", "m", "k", "v"]).done();
    let other = store.folder.path().join("other");
    fs::write(&other, b"mine").unwrap();
    let words = ["copy", other.to_str().unwrap()];
    let line = store.run(&words).refused(3);
    assert!(
        line.contains("it has bytes, and is no older copy of the file"),
        "{line}"
    );
    assert_eq!(fs::read(&other).unwrap(), b"mine");
    let path = store.path();
    store.run(&["copy", &path]).refused(3);
    store.run(&["copy", "/nowhere/at/all"]).refused(3);
    store
        .run(&["copy", store.folder.path().to_str().unwrap()])
        .refused(3);
    // an empty one has nothing to lose
    fs::write(&other, b"").unwrap();
    store.run(&words).done();
    assert_eq!(run(&[other.to_str().unwrap(), "get", "m", "k"]).done(), "v");
}

#[test]
fn what_is_cut_off_is_not_copied() {
    let store = Store::new("copy-cut");
    for value in ["one", "two", "three"] {
        store.run(&["set", "m", "k", value]).done();
    }
    let bytes = fs::read(store.folder.file()).unwrap();
    let other = store.folder.path().join("other");
    for len in 0..bytes.len() {
        fs::write(store.folder.file(), &bytes[..len]).unwrap();
        let copied = dilluvas::copy_file(store.folder.file(), &other);
        assert_eq!(copied, Err(Error::Corruption), "{len} bytes");
        assert!(!other.exists());
    }
    fs::write(store.folder.file(), &bytes).unwrap();
    assert_eq!(
        dilluvas::copy_file(store.folder.file(), &other),
        Ok(bytes.len() as u64)
    );
    assert_eq!(fs::read(&other).unwrap(), bytes);
}

#[test]
fn frames_that_are_longer_than_a_piece_are_copied() {
    let store = Store::new("copy-long");
    let other = store.folder.path().join("other");
    let db = Db::open(store.folder.file()).unwrap();
    for len in [0, 1, 1 << 20, (1 << 20) - 60, 3 << 20, 100] {
        db.map("m")
            .set(u32::to_be_bytes(len), vec![7; len as usize])
            .unwrap();
        db.flush().unwrap();
    }
    let bytes = fs::read(store.folder.file()).unwrap();
    dilluvas::copy_file(store.folder.file(), &other).unwrap();
    assert!(fs::read(&other).unwrap() == bytes);
}

const COPIES: usize = 200;

// The settings of a writer whose frames come one behind another.
pub const SMALL: FileSettings = FileSettings {
    cache_capacity: 1 << 20,
    idgen_persist_interval: 10,
    segment_size: 64,
};

// Meanwhile each copy the writer sets so many keys.
const KEYS_A_COPY: u64 = 20;

// How far a writer is: all keys below were begun, or flushed. Each key is set in two maps by one batch.
#[derive(Default)]
pub struct Writer {
    pub wanted: AtomicU64,
    pub begun: AtomicU64,
    pub flushed: AtomicU64,
    pub is_ended: AtomicBool,
}

impl Writer {
    pub fn write(&self, db: &Db) {
        for key in 0u64.. {
            while key >= self.wanted.load(Ordering::Relaxed) {
                if self.is_ended.load(Ordering::Relaxed) {
                    return;
                }
                thread::sleep(Duration::from_micros(50));
            }
            thread::sleep(Duration::from_micros(100));
            self.begun.store(key + 1, Ordering::SeqCst);
            let both = db.batch(|batch| {
                for name in ["one", "two"] {
                    batch
                        .map(name)
                        .set(key.to_be_bytes(), vec![key as u8; key as usize % 100])?;
                }
                Ok(())
            });
            both.unwrap();
            if key % 7 == 0 {
                db.flush().unwrap();
                self.flushed.store(key + 1, Ordering::SeqCst);
            }
            if key % 1000 == 999 {
                db.compact().unwrap();
                self.flushed.store(key + 1, Ordering::SeqCst);
            }
        }
    }
}

#[test]
fn copies_while_another_writes_hold_a_first_part() {
    let folder = Folder::in_memory("command-copies");
    let (path, other) = (folder.file(), folder.path().join("other"));
    let db = Db::open_with(&path, &SMALL).unwrap();
    let writer = Writer::default();
    let mut grown = 0;
    thread::scope(|scope| {
        scope.spawn(|| writer.write(&db));
        for copy in 0..COPIES {
            let flushed = writer.flushed.load(Ordering::SeqCst);
            writer.wanted.fetch_add(KEYS_A_COPY, Ordering::Relaxed);
            if copy % 2 == 0 {
                let words = [path.to_str().unwrap(), "copy", other.to_str().unwrap()];
                run(&words).done();
            } else {
                dilluvas::copy_file(&path, &other).unwrap();
            }
            let begun = writer.begun.load(Ordering::SeqCst);
            let found = keys_of(&other);
            assert!(
                (flushed..=begun).contains(&found),
                "{flushed} {found} {begun}"
            );
            grown += u64::from(found > flushed);
            fs::remove_file(&other).unwrap();
        }
        writer.is_ended.store(true, Ordering::Relaxed);
    });
    println!("{COPIES} copies, {grown} with more than what was flushed as they began");
    assert!(writer.flushed.load(Ordering::SeqCst) > 0);
}

// How many keys a copy has, which are the first ones, and in both maps.
pub fn keys_of(copy: &std::path::Path) -> u64 {
    let db = Db::open(copy).unwrap();
    let mut keys = 0u64;
    let mut pairs = db.map("two").iter();
    for pair in &db.map("one") {
        let (key, value) = pair.unwrap();
        assert_eq!(
            (&key[..], &value[..]),
            (
                &keys.to_be_bytes()[..],
                &vec![keys as u8; keys as usize % 100][..]
            )
        );
        assert_eq!(pairs.next().unwrap().unwrap(), (key, value));
        keys += 1;
    }
    assert!(pairs.next().is_none());
    keys
}
