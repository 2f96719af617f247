//! What a store tells of a rewriting by a flush that failed, and until when. The system refuses it; the flush succeeds.

mod folder;
mod hooks;
mod refused;

use dilluvas::{CompactAt, Db, Error};
use folder::Folder;
use hooks::{Call, forked, hooked};
use std::error::Error as _;
use std::fs;
use std::io::{self, ErrorKind};
use std::path::PathBuf;

// Why the system refuses a call.
const NO_DEVICE: i32 = 5;
const NO_PERMISSION: i32 = 13;
const NO_ROOM: i32 = 28;

// In some steps, and at once.
const STEPS: CompactAt = CompactAt {
    times: 2,
    least: 0,
    most: u64::MAX,
    step: 1,
};
const AT_ONCE: CompactAt = CompactAt { step: 0, ..STEPS };

fn other(folder: &Folder) -> PathBuf {
    folder.path().join("pages.dilluvas-new")
}

// One whose next flush begins a rewriting.
fn due(folder: &Folder) -> Db {
    let db = Db::open(folder.file()).unwrap();
    db.set_compact_at(None).unwrap();
    for round in 0..4u32 {
        for key in 0..100u32 {
            let value = round.to_le_bytes().repeat(25);
            db.map("m").set(key.to_be_bytes(), value).unwrap();
        }
        db.flush().unwrap();
    }
    db
}

// Flushes while each call of a name fails until a rewriting does: why.
fn failing(db: &Db, compact_at: CompactAt, name: &'static str, error: i32) -> Error {
    db.set_compact_at(Some(compact_at)).unwrap();
    let hook = move |call| match call == name {
        true => Call::Fails(error),
        false => Call::IsMade,
    };
    hooked(hook, || {
        let mut told = (0..1000).map(|_| {
            assert_eq!(db.flush(), Ok(0));
            db.rewriting_failure().unwrap()
        });
        told.find_map(|told| told).expect("it fails")
    })
}

fn kind_of_cause(error: &Error) -> ErrorKind {
    let source = error.source().expect("the system caused it");
    source.downcast_ref::<io::Error>().unwrap().kind()
}

// Flushes until a rewriting has replaced the file.
fn rewrite(db: &Db, compact_at: CompactAt) {
    db.set_compact_at(Some(compact_at)).unwrap();
    let before = db.size_on_disk().unwrap();
    while db.size_on_disk().unwrap() >= before {
        db.flush().unwrap();
    }
}

#[test]
fn the_error_has_that_of_the_system() {
    let full = || Error::DiskFull(io::Error::other("any").into());
    let rows = [
        (
            "open64",
            NO_PERMISSION,
            refused::no_access(),
            ErrorKind::PermissionDenied,
        ),
        (
            "rename",
            NO_PERMISSION,
            refused::no_access(),
            ErrorKind::PermissionDenied,
        ),
        ("fdatasync", NO_ROOM, full(), ErrorKind::StorageFull),
        (
            "ftruncate64",
            NO_PERMISSION,
            refused::write(),
            ErrorKind::PermissionDenied,
        ),
    ];
    for (name, error, wanted, kind) in rows {
        for compact_at in [STEPS, AT_ONCE] {
            if name == "ftruncate64" && compact_at == AT_ONCE {
                // its new file isn't given a length
                continue;
            }
            let folder = Folder::in_memory(&format!("given-up-{name}-{}", compact_at.step));
            let db = due(&folder);
            assert_eq!(db.rewriting_failure(), Ok(None));
            let told = failing(&db, compact_at, name, error);
            assert_eq!((&told, kind_of_cause(&told)), (&wanted, kind), "{name}");
            assert!(!other(&folder).exists() && db.map("m").len() == Ok(100));
            rewrite(&db, compact_at);
            assert_eq!(db.rewriting_failure(), Ok(None));
        }
    }
}

#[test]
fn it_is_told_until_the_file_is_replaced_or_opened() {
    let folder = Folder::in_memory("given-up-until");
    let db = due(&folder);
    let fail = || {
        assert_eq!(
            failing(&db, STEPS, "rename", NO_PERMISSION),
            refused::no_access()
        )
    };
    let is_told = || db.rewriting_failure() == Ok(Some(refused::no_access()));
    fail();
    // neither another rule nor one that is begun and ended, nor what fails otherwise
    db.set_compact_at(None).unwrap();
    assert!(is_told() && db.clone().rewriting_failure() == db.rewriting_failure());
    db.set_compact_at(Some(STEPS)).unwrap();
    db.flush().unwrap();
    assert!(other(&folder).exists() && is_told());
    db.set_compact_at(Some(STEPS)).unwrap();
    assert!(!other(&folder).exists() && is_told());
    fs::create_dir(other(&folder)).unwrap();
    assert_eq!(db.compact(), Err(Error::NoFile));
    assert!(is_told());
    // a later one is
    db.set_compact_at(Some(STEPS)).unwrap();
    db.flush().unwrap();
    assert_eq!(db.rewriting_failure(), Ok(Some(Error::NoFile)));
    assert!(db.rewriting_failure().unwrap().unwrap().source().is_none());
    fs::remove_dir(other(&folder)).unwrap();
    db.compact().unwrap();
    assert_eq!(db.rewriting_failure(), Ok(None));
    drop(db);

    let db = due(&folder);
    failing(&db, AT_ONCE, "rename", NO_PERMISSION);
    drop(db);
    assert_eq!(
        Db::open(folder.file()).unwrap().rewriting_failure(),
        Ok(None)
    );
}

// Later calls fail with what is told then.
#[test]
fn a_folder_that_cannot_be_synced_is_told() {
    for compact_at in [STEPS, AT_ONCE] {
        let folder = Folder::in_memory(&format!("given-up-folder-{}", compact_at.step));
        let db = due(&folder);
        let told = failing(&db, compact_at, "fsync", NO_DEVICE);
        assert!(told == refused::write() && told.source().is_some());
        assert_eq!(db.map("m").len(), Err(refused::write()));
        assert_eq!(db.rewriting_failure(), Ok(Some(refused::write())));
        drop(db);
        let db = Db::open(folder.file()).unwrap();
        assert_eq!(
            (db.rewriting_failure(), db.map("m").len()),
            (Ok(None), Ok(100))
        );
    }
}

#[test]
fn a_store_without_a_file_has_none() {
    let db = Db::in_memory().unwrap();
    db.set_compact_at(Some(AT_ONCE)).unwrap();
    db.map("m").set("k", "v").unwrap();
    db.flush().unwrap();
    assert_eq!(db.rewriting_failure(), Ok(None));
    let told = db.batch(|_| Ok(db.rewriting_failure())).unwrap();
    assert_eq!(told, Err(Error::Reentrant));
}

// It takes no step, which is no failure.
#[test]
fn a_forked_child_keeps_what_is_told() {
    for is_told in [false, true] {
        let folder = Folder::in_memory(&format!("given-up-forked-{is_told}"));
        let db = due(&folder);
        if is_told {
            failing(&db, STEPS, "rename", NO_PERMISSION);
        }
        let wanted = Ok(is_told.then(refused::no_access));
        for compact_at in [STEPS, AT_ONCE] {
            db.set_compact_at(Some(compact_at)).unwrap();
            let child = forked(|| {
                assert_eq!(db.flush(), Ok(0));
                i32::from(db.rewriting_failure() == wanted)
            });
            assert_eq!(child, 1);
        }
        // one that is on its way
        db.set_compact_at(Some(STEPS)).unwrap();
        db.flush().unwrap();
        assert!(other(&folder).exists());
        let child = forked(|| {
            assert_eq!(db.flush(), Ok(0));
            i32::from(db.rewriting_failure() == wanted)
        });
        assert_eq!(child, 1);
        rewrite(&db, STEPS);
    }
}
