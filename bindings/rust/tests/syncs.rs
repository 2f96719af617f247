//! When files are synced that take a path: once, before they do, and the folder behind that.

mod folder;
mod hooks;

use dilluvas::{Db, Error, copy_file};
use folder::Folder;
use hooks::{Call, hooked};
use std::fs;
use std::sync::{Arc, Mutex};

const NO_DEVICE: i32 = 5;

// The calls that something makes, of which one may fail: the so many-th of its name.
fn calls_of<T>(
    fails: Option<(&'static str, usize)>,
    body: impl FnOnce() -> T,
) -> (T, Vec<&'static str>) {
    let told = Arc::new(Mutex::new(Vec::new()));
    let calls = told.clone();
    let hook = move |name| {
        let mut calls = calls.lock().unwrap();
        calls.push(name);
        let count = calls.iter().filter(|call| **call == name).count();
        match fails == Some((name, count)) {
            true => Call::Fails(NO_DEVICE),
            false => Call::IsMade,
        }
    };
    let done = hooked(hook, body);
    let calls = told.lock().unwrap().clone();
    (done, calls)
}

// That all which was written is synced once before the file has its name, and the name behind that.
fn check_order(calls: &[&str], naming: &str) {
    let named = calls.iter().position(|call| *call == naming);
    let (before, behind) = calls.split_at(named.expect("it is given its name"));
    let last_write = before.iter().rposition(|call| *call == "pwrite64");
    let syncs: Vec<_> = (0..before.len())
        .filter(|at| before[*at] == "fdatasync")
        .collect();
    assert!(
        syncs.len() == 1 && syncs[0] > last_write.unwrap(),
        "{calls:?}"
    );
    assert!(behind.contains(&"fsync"), "{calls:?}");
}

fn filled(folder: &Folder) -> Db {
    let db = Db::open(folder.file()).unwrap();
    for key in 0..5000u32 {
        db.map("m").set(key.to_be_bytes(), [7; 100]).unwrap();
    }
    db.flush().unwrap();
    db
}

fn check(db: &Db) {
    assert_eq!(db.map("m").len(), Ok(5000));
    assert_eq!(db.map("m").get([0, 0, 0x13, 0x87]), Ok(Some(vec![7; 100])));
}

#[test]
fn a_new_file_is_durable_before_it_has_its_name() {
    let folder = Folder::new("syncs");
    let (db, calls) = calls_of(None, || Db::open(folder.file()).unwrap());
    check_order(&calls, "linkat");
    drop(db);
    let db = filled(&folder);
    let (compacted, calls) = calls_of(None, || db.compact());
    compacted.unwrap();
    check_order(&calls, "rename");
    check(&db);
    let other = folder.path().join("other");
    let (copied, calls) = calls_of(None, || copy_file(folder.file(), &other));
    copied.unwrap();
    check_order(&calls, "linkat");
    // from there on each sync is one
    db.map("m").set("k", "v").unwrap();
    let (flushed, calls) = calls_of(None, || db.flush());
    flushed.unwrap();
    assert_eq!(calls, ["pwrite64", "fdatasync", "pwrite64", "fdatasync"]);
}

#[test]
fn one_that_can_not_be_made_durable_has_no_name() {
    let folder = Folder::new("syncs-fail");
    let fails = Some(("fdatasync", 1));
    let (opened, _) = calls_of(fails, || Db::open(folder.file()));
    assert!(matches!(opened, Err(Error::Write(_))));
    assert_eq!(fs::read_dir(folder.path()).unwrap().count(), 0);

    let db = filled(&folder);
    let bytes = fs::read(folder.file()).unwrap();
    let (compacted, _) = calls_of(fails, || db.compact());
    assert!(matches!(compacted, Err(Error::Write(_))));
    let (copied, _) = calls_of(fails, || {
        copy_file(folder.file(), folder.path().join("other"))
    });
    assert!(matches!(copied, Err(Error::Write(_))));
    assert!(fs::read(folder.file()).unwrap() == bytes);
    assert_eq!(fs::read_dir(folder.path()).unwrap().count(), 1);
    // the store goes on
    db.map("m").set("k", "v").unwrap();
    db.flush().unwrap();
    db.compact().unwrap();
    drop(db);
    let db = Db::open(folder.file()).unwrap();
    assert_eq!(db.map("m").len(), Ok(5001));
}

#[test]
fn the_old_file_is_unlocked_as_its_rewriting_ends() {
    let folder = Folder::new("syncs-unlocked");
    let second = folder.path().join("second");
    let db = filled(&folder);
    for _ in 0..10 {
        fs::hard_link(folder.file(), &second).unwrap();
        db.compact().unwrap();
        check(&Db::open(&second).unwrap());
        fs::remove_file(&second).unwrap();
    }
    check(&db);
}
