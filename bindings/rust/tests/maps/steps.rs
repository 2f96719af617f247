//! Files that are rewritten step by step, while other things happen to them.

use crate::folder::Folder;
use crate::refused;
use dilluvas::{CompactAt, Db, Error, FileSettings};
use std::fs;
use std::os::unix::fs::{FileExt, MetadataExt, PermissionsExt};
use std::path::PathBuf;

const KEYS: u32 = 300;

// Pages leave memory.
const SETTINGS: FileSettings = FileSettings {
    cache_capacity: 4096,
    idgen_persist_interval: 10,
    segment_size: 4096,
};

// Some steps for each rewriting.
const STEPS: CompactAt = CompactAt {
    times: 2,
    least: 0,
    most: u64::MAX,
    step: 20_000,
};

fn open(folder: &Folder) -> Db {
    let db = Db::open_with(folder.file(), &SETTINGS).unwrap();
    db.set_compact_at(Some(STEPS)).unwrap();
    db
}

fn other(folder: &Folder) -> PathBuf {
    folder.path().join("pages.dilluvas-new")
}

fn value_of(key: u32, round: u32) -> Vec<u8> {
    [key, round].map(u32::to_le_bytes).concat().repeat(10)
}

fn overwrite(db: &Db, round: u32) {
    for key in 0..KEYS {
        let value = value_of(key, round);
        db.map("m").set(key.to_be_bytes(), value).unwrap();
    }
    db.flush().unwrap();
}

fn check(db: &Db, round: u32) {
    let pairs: Vec<_> = db.map("m").iter().map(Result::unwrap).collect();
    let wanted = (0..KEYS).map(|key| (key.to_be_bytes().to_vec(), value_of(key, round)));
    assert!(pairs.into_iter().eq(wanted));
}

// Overwrites all until a rewriting is on its way, and answers the round.
fn overwrite_until_it_begins(db: &Db, folder: &Folder, from: u32) -> u32 {
    let begun = |round: &u32| {
        overwrite(db, *round);
        other(folder).exists()
    };
    (from..from + 100).find(begun).expect("it begins")
}

// Flushes until no rewriting is on its way.
fn flush_until_it_ends(db: &Db, folder: &Folder) {
    let ended = (0..1000).any(|_| {
        db.flush().unwrap();
        !other(folder).exists()
    });
    assert!(ended);
}

#[test]
fn a_flush_that_writes_nothing_takes_a_step_too() {
    let folder = Folder::in_memory("steps-all");
    let db = open(&folder);
    fs::set_permissions(folder.file(), fs::Permissions::from_mode(0o640)).unwrap();
    let round = overwrite_until_it_begins(&db, &folder, 0);
    let before = fs::metadata(folder.file()).unwrap();
    flush_until_it_ends(&db, &folder);
    let after = fs::metadata(folder.file()).unwrap();
    assert_eq!(db.rewriting_failure(), Ok(None));
    assert!(after.len() <= before.len() / 2 && after.ino() != before.ino());
    assert_eq!(after.mode(), before.mode());
    check(&db, round);
    drop(db);
    check(&open(&folder), round);
}

#[test]
fn what_ends_a_rewriting_removes_its_file() {
    let folder = Folder::in_memory("steps-ended");
    let mut db = open(&folder);
    let mut round = 0;
    for way in 0..4 {
        round = overwrite_until_it_begins(&db, &folder, round + 1);
        match way {
            0 => db.compact().unwrap(),
            1 => db.set_compact_at(None).unwrap(),
            2 => {
                db.set_compact_at(Some(CompactAt { step: 0, ..STEPS }))
                    .unwrap();
            }
            _ => {
                drop(db);
                assert!(!other(&folder).exists());
                db = open(&folder);
            }
        }
        assert!(!other(&folder).exists());
        check(&db, round);
        db.set_compact_at(Some(STEPS)).unwrap();
    }
}

#[test]
fn an_opening_removes_what_a_killed_process_left() {
    let folder = Folder::in_memory("steps-left");
    drop(open(&folder));
    fs::write(other(&folder), b"left").unwrap();
    let db = open(&folder);
    assert!(!other(&folder).exists());
    drop(db);
    // one that is locked is another process's, and what is no file is a user's
    let left = fs::File::create(other(&folder)).unwrap();
    left.lock().unwrap();
    drop(open(&folder));
    assert!(other(&folder).exists());
    drop(left);
    fs::remove_file(other(&folder)).unwrap();
    fs::create_dir(other(&folder)).unwrap();
    drop(open(&folder));
    assert!(other(&folder).is_dir());
    fs::remove_dir(other(&folder)).unwrap();
    // a second name of the store itself
    fs::hard_link(folder.file(), other(&folder)).unwrap();
    drop(open(&folder));
    assert!(!other(&folder).exists() && folder.file().exists());
}

#[test]
fn a_new_file_that_loses_its_name_takes_no_place() {
    let folder = Folder::in_memory("steps-lost");
    let db = open(&folder);
    let round = overwrite_until_it_begins(&db, &folder, 0);
    let before = fs::metadata(folder.file()).unwrap();
    fs::remove_file(other(&folder)).unwrap();
    fs::write(other(&folder), b"another's").unwrap();
    for _ in 0..1000 {
        db.flush().unwrap();
    }
    let after = fs::metadata(folder.file()).unwrap();
    assert_eq!((after.ino(), after.len()), (before.ino(), before.len()));
    assert_eq!(fs::read(other(&folder)).unwrap(), b"another's");
    check(&db, round);
    assert_eq!(db.rewriting_failure(), Ok(Some(refused::no_access())));
    fs::remove_file(other(&folder)).unwrap();
    // it is tried again once the file has grown by half
    let round = overwrite_until_it_begins(&db, &folder, round + 1);
    assert_eq!(db.rewriting_failure(), Ok(Some(refused::no_access())));
    flush_until_it_ends(&db, &folder);
    assert_eq!(db.rewriting_failure(), Ok(None));
    check(&db, round);
}

// Makes the last link of the new file a content, which the library doesn't notice when it opens that: whether there is one by now.
fn damage_last_link(folder: &Folder) -> bool {
    let bytes = fs::read(other(folder)).unwrap();
    let number = |at| {
        let number: [u8; 8] = bytes[at..at + 8].try_into().unwrap();
        usize::try_from(u64::from_le_bytes(number)).unwrap()
    };
    // a frame has its gate and its length, and a record its kind, its page and its length
    let (mut gate, mut last) = (8, None);
    while bytes[gate] != 0 {
        let mut at = gate + 9;
        gate = at + number(gate + 1);
        while at < gate {
            if bytes[at] == 10 {
                last = Some(at);
            }
            at += 17 + number(at + 9);
        }
    }
    let file = fs::File::options().write(true).open(other(folder)).unwrap();
    last.is_some_and(|at| file.write_at(&[8], at as u64).unwrap() == 1)
}

// The pages of the new file take other bytes then than those of the old one.
#[test]
fn a_new_file_that_is_damaged_takes_no_place() {
    let folder = Folder::in_memory("steps-damaged");
    let db = open(&folder);
    let round = overwrite_until_it_begins(&db, &folder, 0);
    let before = fs::metadata(folder.file()).unwrap();
    let damaged = (0..1000).any(|_| {
        db.flush().unwrap();
        damage_last_link(&folder)
    });
    assert!(damaged);
    flush_until_it_ends(&db, &folder);
    let after = fs::metadata(folder.file()).unwrap();
    assert_eq!((after.ino(), after.len()), (before.ino(), before.len()));
    assert_eq!(db.rewriting_failure(), Ok(Some(Error::Corruption)));
    check(&db, round);
    // the next one takes its place
    let round = overwrite_until_it_begins(&db, &folder, round + 1);
    flush_until_it_ends(&db, &folder);
    assert_ne!(fs::metadata(folder.file()).unwrap().ino(), before.ino());
    assert_eq!(db.rewriting_failure(), Ok(None));
    check(&db, round);
}

#[test]
fn a_file_that_loses_its_path_stays_as_it_is() {
    let folder = Folder::in_memory("steps-moved");
    let db = open(&folder);
    let round = overwrite_until_it_begins(&db, &folder, 0);
    let away = folder.path().join("away");
    fs::rename(folder.file(), &away).unwrap();
    for _ in 0..1000 {
        db.flush().unwrap();
    }
    assert!(!folder.file().exists() && !other(&folder).exists());
    assert_eq!(db.rewriting_failure(), Ok(Some(refused::no_access())));
    check(&db, round);
    overwrite(&db, round + 1);
    drop(db);
    check(&Db::open_with(&away, &SETTINGS).unwrap(), round + 1);
}

// So much is changed of pages that were copied that the new file is longer than it may get.
#[test]
fn a_new_file_that_gets_too_long_takes_no_place() {
    let folder = Folder::in_memory("steps-long");
    let db = open(&folder);
    // each copies a page
    db.set_compact_at(Some(CompactAt { step: 1, ..STEPS }))
        .unwrap();
    let round = overwrite_until_it_begins(&db, &folder, 0);
    let before = fs::metadata(folder.file()).unwrap().ino();
    while fs::metadata(other(&folder)).unwrap().blocks() < 16 {
        db.flush().unwrap();
    }
    for key in 0..100 {
        let value = vec![7; 100_000];
        db.map("m").set(0u32.to_be_bytes(), value).unwrap();
        db.map("n").set([key], "v").unwrap();
    }
    flush_until_it_ends(&db, &folder);
    assert_eq!(fs::metadata(folder.file()).unwrap().ino(), before);
    assert_eq!(db.rewriting_failure(), Ok(Some(Error::LogFull)));
    db.map("m")
        .set(0u32.to_be_bytes(), value_of(0, round))
        .unwrap();
    check(&db, round);
}

// A walk over a map goes on over the new file.
#[test]
fn a_walk_goes_on_over_the_new_file() {
    let folder = Folder::in_memory("steps-walked");
    let db = open(&folder);
    let round = overwrite_until_it_begins(&db, &folder, 0);
    let map = db.map("m");
    let mut found = 0;
    for pair in &map {
        let (key, value) = pair.unwrap();
        assert_eq!(key, u32::to_be_bytes(found));
        assert_eq!(value, value_of(found, round));
        found += 1;
        db.flush().unwrap();
    }
    assert_eq!(found, KEYS);
    assert!(!other(&folder).exists());
}
