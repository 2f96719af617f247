//! What errors have of the system.

use crate::SMALL;
use crate::disk::{Call, Disk, Fault};
use crate::folder::Folder;
use dilluvas::{Cache, Db, Error, NO_PAIRS};
use std::error::Error as _;
use std::fs;
use std::io::{self, ErrorKind};
use std::os::unix::fs::symlink;
use std::panic::catch_unwind;

// What the system said, as the source of the error tells it.
fn cause_of(error: &Error) -> &io::Error {
    let source = error.source().expect("the system caused it");
    source.downcast_ref().expect("it is the system's")
}

fn text_of(error: &Error) -> String {
    cause_of(error).to_string()
}

#[test]
fn a_failed_write_is_told_by_each_later_call() {
    for call in [Call::Write, Call::Sync] {
        let disk = Disk::default();
        let db = Db::on_device(disk.clone(), &SMALL).unwrap();
        db.map("m").set("k", "v").unwrap();
        disk.set_fault(Some((call, Fault::Fails("the disk is full"))));
        let error = db.flush().unwrap_err();
        assert!(matches!(error, Error::Write(_)), "{error:?}");
        assert_eq!(text_of(&error), "the disk is full");
        disk.set_fault(None);
        let later = [
            db.map("m").get("k").unwrap_err(),
            db.flush().unwrap_err(),
            db.size_on_disk().unwrap_err(),
            db.compact_to(Disk::default()).unwrap_err(),
        ];
        for error in later {
            assert!(matches!(error, Error::Write(_)), "{error:?}");
            assert_eq!(text_of(&error), "the disk is full");
        }
    }
}

#[test]
fn a_device_that_panicked_is_told() {
    let disk = Disk::default();
    let db = Db::on_device(disk.clone(), &SMALL).unwrap();
    db.map("m").set("k", "v").unwrap();
    disk.set_fault(Some((Call::Sync, Fault::Panics)));
    assert!(catch_unwind(|| db.flush()).is_err());
    let error = db.flush().unwrap_err();
    assert!(matches!(error, Error::Write(_)));
    assert!(text_of(&error).contains("panicked"), "{error:?}");
}

#[test]
fn a_failed_read_is_told_once() {
    let disk = Disk::default();
    let db = Db::on_device(disk.clone(), &SMALL).unwrap();
    (0..100u8).for_each(|key| drop(db.map("m").set([key], [key; 50])));
    db.flush().unwrap();
    drop(db);
    let db = Db::on_device(disk.clone(), &SMALL).unwrap();
    disk.set_fault(Some((Call::Read, Fault::Fails("no light"))));
    let error = db.map("m").get([7]).unwrap_err();
    assert!(matches!(error, Error::Read(_)));
    assert_eq!(text_of(&error), "no light");
    disk.set_fault(None);
    assert_eq!(db.map("m").get([7]), Ok(Some(vec![7; 50])));
    // an opening reads too
    disk.set_fault(Some((Call::Read, Fault::Fails("no light"))));
    let error = Db::on_device(disk, &SMALL).unwrap_err();
    assert_eq!(text_of(&error), "no light");
}

#[test]
fn why_a_file_is_not_opened_is_told() {
    let folder = Folder::new("causes");
    let error = Db::open(folder.path().join("absent/file")).unwrap_err();
    assert!(matches!(error, Error::NoAccess(_)), "{error:?}");
    assert_eq!(cause_of(&error).kind(), ErrorKind::NotFound);
    let error = Db::open("").unwrap_err();
    assert!(text_of(&error).contains("empty"), "{error:?}");
    symlink("absent", folder.path().join("link")).unwrap();
    let error = Db::open(folder.path().join("link")).unwrap_err();
    assert!(text_of(&error).contains("link"), "{error:?}");
    // a name that no file may have
    let error = Db::open(folder.path().join("n".repeat(300))).unwrap_err();
    assert_eq!(cause_of(&error).kind(), ErrorKind::InvalidFilename);
    // errors that aren't the system's have no source
    fs::write(folder.file(), "no cache wrote this").unwrap();
    let error = Db::open(folder.file()).unwrap_err();
    assert_eq!(
        (&error, error.source().is_none()),
        (&Error::Corruption, true)
    );
    let error = Db::open(folder.path()).unwrap_err();
    assert_eq!((&error, error.source().is_none()), (&Error::NoFile, true));
}

#[test]
fn a_file_that_was_moved_away_is_told() {
    let folder = Folder::new("moved");
    let db = Db::open(folder.file()).unwrap();
    fs::rename(folder.file(), folder.path().join("other")).unwrap();
    let error = db.compact().unwrap_err();
    assert!(text_of(&error).contains("lead"), "{error:?}");
    // a cache tells the same
    let mut cache = Cache::open(folder.file(), &SMALL).unwrap();
    fs::remove_file(folder.file()).unwrap();
    let error = cache.compact().unwrap_err();
    assert!(text_of(&error).contains("lead"), "{error:?}");
    assert!(cache.allocate(NO_PAIRS).is_ok());
}

#[test]
fn errors_are_compared_by_their_kinds() {
    let of = |text: &'static str| Error::Write(io::Error::other(text).into());
    assert_eq!(of("one"), of("other"));
    assert_ne!(of("one"), Error::Read(io::Error::other("one").into()));
    assert_ne!(Error::Unknown(18), of("one"));
    assert_ne!(Error::Unknown(1), Error::Unknown(2));
    assert_ne!(Error::Held, Error::NoFile);
}

#[test]
fn an_error_becomes_one_of_the_system() {
    let full = io::Error::from(ErrorKind::StorageFull);
    let error = io::Error::from(Error::Write(full.into()));
    assert_eq!(error.kind(), ErrorKind::StorageFull);
    let inner = error.get_ref().and_then(|inner| inner.downcast_ref());
    assert!(matches!(inner, Some(Error::Write(_))));
    assert_eq!(io::Error::from(Error::Held).kind(), ErrorKind::ResourceBusy);
    assert_eq!(io::Error::from(Error::LogFull).kind(), ErrorKind::Other);
}
