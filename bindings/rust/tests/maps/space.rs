//! Files that are rewritten by flushes.

use crate::folder::Folder;
use dilluvas::{CompactAt, Db, Error};
use std::fs;

const KEYS: u32 = 1000;
const VALUE: usize = 1000;

// Sets each of the keys to a new value, and flushes.
fn overwrite(db: &Db, round: u32) {
    for key in 0..KEYS {
        let mut value = vec![7; VALUE];
        value[..4].copy_from_slice(&round.to_le_bytes());
        db.map("m").set(key.to_be_bytes(), value).unwrap();
        if key % 250 == 249 {
            db.flush().unwrap();
        }
    }
}

fn check(db: &Db, round: u32) {
    let mut keys = 0u32;
    for pair in &db.map("m") {
        let (key, value) = pair.unwrap();
        assert_eq!(key, keys.to_be_bytes());
        assert_eq!(
            (value.len(), &value[..4]),
            (VALUE, &round.to_le_bytes()[..])
        );
        keys += 1;
    }
    assert_eq!(keys, KEYS);
}

fn len_of(folder: &Folder) -> u64 {
    fs::metadata(folder.file()).unwrap().len()
}

#[test]
fn a_file_stays_short_however_often_it_is_changed() {
    let folder = Folder::in_memory("maps-space");
    let db = Db::open(folder.file()).unwrap();
    // what is written until all steps are taken comes on top
    let most = CompactAt::default().least + (16 << 20);
    let mut longest = 0;
    for round in 0..100 {
        overwrite(&db, round);
        longest = longest.max(len_of(&folder));
        check(&db, round);
    }
    assert!(longest < most, "{longest} bytes");
    drop(db);
    let db = Db::open(folder.file()).unwrap();
    check(&db, 99);
    assert_eq!(fs::read_dir(folder.path()).unwrap().count(), 1);
}

// At once, and in steps, which leave the changes of pages as they are: those of a byte work only for what was written.
#[test]
fn a_file_is_rewritten_at_so_many_times_its_pages() {
    for (step, most) in [(0, 5), (1, 16), (100_000, 16), (u64::MAX, 16)] {
        stays_below(step, most);
    }
}

fn stays_below(step: u64, most: u64) {
    let folder = Folder::in_memory(&format!("maps-space-times-{step}"));
    let db = Db::open(folder.file()).unwrap();
    let compact_at = CompactAt {
        times: 3,
        least: 0,
        most: u64::MAX,
        step,
    };
    db.set_compact_at(Some(compact_at)).unwrap();
    overwrite(&db, 0);
    db.compact().unwrap();
    let live = len_of(&folder);
    for round in 1..30 {
        overwrite(&db, round);
        // it is looked at by the eighth, and some is written between two flushes
        assert!(
            len_of(&folder) < most * live,
            "{} of {live}, step {step}",
            len_of(&folder)
        );
        check(&db, round);
    }
}

#[test]
fn what_is_turned_off_or_out_of_bounds_rewrites_nothing() {
    let at = |times, least, most| {
        Some(CompactAt {
            times,
            least,
            most,
            ..CompactAt::default()
        })
    };
    for (name, compact_at) in [
        ("none", None),
        ("least", at(2, u64::MAX, u64::MAX)),
        ("most", at(2, 0, 1)),
        ("times", at(u64::MAX, 0, u64::MAX)),
    ] {
        let folder = Folder::in_memory(&format!("maps-space-off-{name}"));
        let db = Db::open(folder.file()).unwrap();
        db.set_compact_at(compact_at).unwrap();
        let mut before = 0;
        for round in 0..12 {
            overwrite(&db, round);
            let len = len_of(&folder);
            assert!(len > before, "{name}");
            before = len;
        }
        // each value was written anew
        assert!(before > 12 * u64::from(KEYS) * VALUE as u64, "{name}");
        check(&db, 11);
    }
}

#[test]
fn a_rewriting_that_fails_leaves_the_flush_and_is_tried_again() {
    fails_and_is_tried_again(0);
    fails_and_is_tried_again(10_000);
}

fn fails_and_is_tried_again(step: u64) {
    let folder = Folder::in_memory(&format!("maps-space-failing-{step}"));
    let db = Db::open(folder.file()).unwrap();
    let compact_at = CompactAt {
        times: 2,
        least: 0,
        most: u64::MAX,
        step,
    };
    db.set_compact_at(Some(compact_at)).unwrap();
    // no file can be made by the other name
    let other = folder.path().join("pages.dilluvas-new");
    fs::create_dir(&other).unwrap();
    for round in 0..6 {
        overwrite(&db, round);
        check(&db, round);
    }
    let long = len_of(&folder);
    assert!(long > 6 * u64::from(KEYS) * VALUE as u64);
    assert_eq!(db.rewriting_failure(), Ok(Some(Error::NoFile)));
    fs::remove_dir(&other).unwrap();
    for round in 6..15 {
        overwrite(&db, round);
        check(&db, round);
    }
    assert_eq!(db.rewriting_failure(), Ok(None));
    // steps leave the changes of pages as they are
    let most = if step == 0 { long / 2 } else { long };
    assert!(len_of(&folder) < most);
    drop(db);
    check(&Db::open(folder.file()).unwrap(), 14);
}
