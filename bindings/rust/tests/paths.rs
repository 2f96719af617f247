//! What stands at the path of a file, and beside it, and what comes there while a file is made: nothing of it is lost that isn't a new file
//! that was never opened.
#![cfg(all(target_os = "linux", target_env = "gnu"))]

mod folder;
mod hooks;
mod refused;

use dilluvas::{Cache, Db, Error, FileSettings};
use folder::Folder;
use hooks::{Call, hooked};
use std::cell::Cell;
use std::fs::{self, File, Permissions};
use std::os::unix::fs::{PermissionsExt, symlink};
use std::path::{Path, PathBuf};
use std::rc::Rc;

const EPERM: i32 = 1;
const EIO: i32 = 5;
const EACCES: i32 = 13;
const EINVAL: i32 = 22;
const EMFILE: i32 = 24;
const EMLINK: i32 = 31;
const ENOSYS: i32 = 38;
const EOPNOTSUPP: i32 = 95;

fn open(path: &Path) -> Result<Cache, Error> {
    Cache::open(path, &FileSettings::default())
}

fn opened(path: &Path) -> Result<(), Error> {
    open(path).map(drop)
}

// Makes a file with a root of a name.
fn make(path: &Path, name: &str) {
    let mut cache = open(path).unwrap();
    let token = cache.allocate([(name, "value")]).unwrap();
    let named = cache.cas_root(name, None, Some(token.page)).unwrap();
    assert_eq!(named, Ok(()));
    cache.flush().unwrap();
}

fn has(path: &Path, name: &str) -> bool {
    open(path).unwrap().root(name).unwrap().is_some()
}

fn beside(path: &Path) -> PathBuf {
    path.with_file_name("pages.dilluvas-new")
}

fn files_in(folder: &Folder) -> usize {
    fs::read_dir(folder.path()).unwrap().count()
}

// Does something once before the first call of a name, which is made then, or fails.
fn at_first(
    name: &'static str,
    becomes: Call,
    done: impl FnOnce() + 'static,
) -> impl FnMut(&'static str) -> Call + 'static {
    let mut done = Some(done);
    move |call| match done.take_if(|_| call == name) {
        Some(done) => {
            done();
            becomes
        }
        None => Call::IsMade,
    }
}

fn all_fail(name: &'static str, error: i32) -> impl FnMut(&'static str) -> Call + 'static {
    move |call| match call == name {
        true => Call::Fails(error),
        false => Call::IsMade,
    }
}

#[test]
fn a_second_name_that_a_killed_process_left_is_only_taken_away() {
    let folder = Folder::new("second-name");
    let path = folder.file();

    // it was killed as it had made the file: this is opened, and rewritten
    make(&path, "kept");
    fs::hard_link(&path, beside(&path)).unwrap();
    let mut cache = open(&path).unwrap();
    cache.compact().unwrap();
    assert_eq!(opened(&path), Err(Error::Held));
    drop(cache);
    assert!(has(&path, "kept"));
    assert_eq!(files_in(&folder), 1);

    // a user moved the file since, and another one is made
    fs::hard_link(&path, beside(&path)).unwrap();
    let moved = folder.path().join("moved");
    fs::rename(&path, &moved).unwrap();
    make(&path, "new");
    assert!(has(&moved, "kept") && has(&path, "new"));
    assert_eq!(files_in(&folder), 2);

    // an empty file
    fs::write(&path, b"").unwrap();
    fs::hard_link(&path, beside(&path)).unwrap();
    make(&path, "new");
    assert!(has(&path, "new"));
    assert_eq!(files_in(&folder), 2);
}

#[test]
fn a_file_that_a_killed_process_left_is_made_anew() {
    let folder = Folder::new("made-anew");
    let path = folder.file();
    fs::write(beside(&path), b"").unwrap();
    let mode = |path: &Path| fs::metadata(path).unwrap().permissions().mode();
    let usual = mode(&beside(&path));
    fs::set_permissions(beside(&path), Permissions::from_mode(0o640)).unwrap();
    assert_eq!(opened(&path), Ok(()));
    assert_eq!(mode(&path), usual);
    fs::remove_file(&path).unwrap();
    fs::write(beside(&path), b"half a file").unwrap();
    make(&path, "kept");
    fs::write(beside(&path), b"half a file").unwrap();
    open(&path).unwrap().compact().unwrap();
    assert!(has(&path, "kept"));
    assert_eq!(files_in(&folder), 1);

    // one that made its file of ours, before that was locked
    fs::remove_file(&path).unwrap();
    let half = beside(&path);
    let hook = at_first("flock", Call::IsMade, move || {
        fs::write(half, b"half a file").unwrap();
    });
    hooked(hook, || make(&path, "kept"));
    assert!(has(&path, "kept"));
    let moved = folder.path().join("moved");
    fs::rename(&path, &moved).unwrap();
    let (bytes, whole, made) = (fs::read(&moved).unwrap(), beside(&path), path.clone());
    let hook = at_first("flock", Call::IsMade, move || {
        fs::write(&whole, bytes).unwrap();
        fs::hard_link(whole, made).unwrap();
    });
    assert_eq!(hooked(hook, || opened(&path)), Ok(()));
    assert!(has(&path, "kept"));
    assert_eq!(files_in(&folder), 2);

    // one that a process is making isn't
    let making = File::create(beside(&path)).unwrap();
    making.try_lock().unwrap();
    assert_eq!(open(&path).unwrap().compact(), Err(Error::Held));
    assert!(beside(&path).exists());
    fs::remove_file(&path).unwrap();
    assert_eq!(opened(&path), Err(Error::Held));
    assert!(!path.exists());
}

#[test]
fn what_has_the_other_name_and_is_no_file_is_told() {
    let folder = Folder::new("no-other-file");
    let path = folder.file();
    let rewritten = folder.path().join("rewritten");
    let mut cache = open(&rewritten).unwrap();
    let mut told = |error: Error| {
        assert_eq!(opened(&path), Err(error.clone()));
        assert_eq!(cache.compact(), Err(error));
    };
    let others = [
        beside(&path),
        rewritten.with_file_name("rewritten.dilluvas-new"),
    ];
    for other in &others {
        fs::create_dir(other).unwrap();
    }
    told(Error::NoFile);
    for other in &others {
        fs::remove_dir(other).unwrap();
        symlink(&rewritten, other).unwrap();
    }
    told(refused::no_access());
    assert_eq!(files_in(&folder), 3);
}

#[test]
fn the_other_name_is_let_go_where_it_is_anothers() {
    let folder = Folder::new("other-name");
    let path = folder.file();
    let another_comes = |path: &Path| {
        let other = beside(path);
        move || {
            fs::remove_file(&other).unwrap();
            fs::write(&other, b"another's").unwrap();
        }
    };
    let hook = at_first("pwrite64", Call::Fails(EIO), another_comes(&path));
    assert_eq!(hooked(hook, || opened(&path)), Err(refused::write()));
    assert_eq!(fs::read(beside(&path)).unwrap(), b"another's");
    fs::remove_file(beside(&path)).unwrap();

    let mut cache = open(&path).unwrap();
    let hook = at_first("pwrite64", Call::Fails(EIO), another_comes(&path));
    assert_eq!(hooked(hook, || cache.compact()), Err(refused::write()));
    assert_eq!(fs::read(beside(&path)).unwrap(), b"another's");

    // nor does it get the path
    let hook = at_first("pwrite64", Call::IsMade, another_comes(&path));
    fs::remove_file(beside(&path)).unwrap();
    assert_eq!(hooked(hook, || cache.compact()), Err(refused::no_access()));
    assert_eq!(fs::read(beside(&path)).unwrap(), b"another's");
}

#[test]
fn what_came_to_the_path_meanwhile_stays() {
    let folder = Folder::new("came");
    let path = folder.file();
    let comes = |path: &Path| {
        let path = path.to_path_buf();
        move || {
            let _ = fs::rename(&path, path.with_file_name("moved"));
            fs::write(path, b"another's").unwrap();
        }
    };
    let is_left = |found: Result<(), Error>, told: Error, files: usize| {
        assert_eq!(found, Err(told));
        assert_eq!(fs::read(&path).unwrap(), b"another's");
        assert_eq!(files_in(&folder), files);
        fs::remove_file(&path).unwrap();
    };

    // where it was absent, right before it is put there
    let hook = at_first("linkat", Call::IsMade, comes(&path));
    is_left(hooked(hook, || opened(&path)), Error::Corruption, 1);

    // where it was empty, and where that was written to
    fs::write(&path, b"").unwrap();
    let hook = at_first("pwrite64", Call::IsMade, comes(&path));
    is_left(hooked(hook, || opened(&path)), Error::Corruption, 2);
    fs::write(&path, b"").unwrap();
    let written = path.clone();
    let hook = at_first("pwrite64", Call::IsMade, move || {
        fs::write(written, b"another's").unwrap();
    });
    is_left(hooked(hook, || opened(&path)), Error::Corruption, 2);

    // where it was rewritten
    let mut cache = open(&path).unwrap();
    let hook = at_first("pwrite64", Call::IsMade, comes(&path));
    is_left(hooked(hook, || cache.compact()), refused::no_access(), 2);

    // where it has the other name alone by now
    let moved = folder.path().join("moved");
    fs::rename(&moved, beside(&path)).unwrap();
    assert_eq!(cache.compact(), Err(refused::no_access()));
    fs::rename(beside(&path), &moved).unwrap();

    // a link to the file that was moved is no file that can be replaced
    symlink(&moved, &path).unwrap();
    assert_eq!(cache.compact(), Err(refused::no_access()));
    assert!(fs::symlink_metadata(&path).unwrap().is_symlink());
}

#[test]
fn a_file_is_made_where_none_has_a_second_name() {
    let folder = Folder::new("no-second-name");
    let path = folder.file();
    for error in [EPERM, ENOSYS, EOPNOTSUPP, EMLINK] {
        hooked(all_fail("linkat", error), || make(&path, "kept"));
        assert!(has(&path, "kept"));
        assert_eq!(files_in(&folder), 1);
        fs::remove_file(&path).unwrap();
    }
    assert_eq!(
        hooked(all_fail("linkat", EIO), || opened(&path)),
        Err(refused::no_access())
    );
    assert_eq!(files_in(&folder), 0);

    // what came there meanwhile stays
    let came = path.clone();
    let hook = at_first("linkat", Call::Fails(EPERM), move || {
        fs::write(came, b"another's").unwrap();
    });
    assert_eq!(hooked(hook, || opened(&path)), Err(Error::Corruption));
    assert_eq!(fs::read(&path).unwrap(), b"another's");
}

#[test]
fn a_name_that_may_not_be_durable_is_told() {
    let folder = Folder::new("durable");
    let path = folder.file();
    let synced = |error| hooked(all_fail("fsync", error), || opened(&path));

    // what a crash leaves of the other name is settled too
    let (other, was_there) = (beside(&path), Rc::new(Cell::new(true)));
    let is_there = was_there.clone();
    let hook = at_first("fsync", Call::IsMade, move || is_there.set(other.exists()));
    assert_eq!(hooked(hook, || opened(&path)), Ok(()));
    assert!(!was_there.get());
    fs::remove_file(&path).unwrap();

    assert_eq!(synced(EIO), Err(refused::write()));
    // it was made, and another process would find it
    assert!(fs::metadata(&path).unwrap().len() > 0);
    assert_eq!(synced(EIO), Err(refused::write()));
    // there are systems that sync no folder
    assert_eq!(synced(EINVAL), Ok(()));

    // the folder is opened behind the file
    let folder_fails = |error| {
        let mut files = 0;
        let hook = move |call| {
            files += u32::from(call == "open64");
            match call {
                "open64" if files == 2 => Call::Fails(error),
                _ => Call::IsMade,
            }
        };
        hooked(hook, || opened(&path))
    };
    assert_eq!(folder_fails(EMFILE), Err(refused::write()));
    assert_eq!(folder_fails(EACCES), Ok(()));
}

#[test]
fn nothing_is_written_to_a_new_file_that_a_crash_may_take_away() {
    let folder = Folder::new("rewritten-name");
    let db = Db::open(folder.file()).unwrap();
    let map = db.map("m");
    map.set("k", "v").unwrap();
    db.flush().unwrap();
    let told = |error: Error| {
        let Error::Write(cause) = error else {
            panic!("{error:?}");
        };
        assert_eq!(cause.raw_os_error(), Some(EIO));
    };
    told(hooked(all_fail("fsync", EIO), || db.compact()).unwrap_err());
    let rewritten = fs::read(folder.file()).unwrap();
    told(map.set("l", "w").unwrap_err());
    told(map.get("k").unwrap_err());
    told(db.flush().unwrap_err());
    told(db.compact().unwrap_err());
    drop((db, map));
    assert!(fs::read(folder.file()).unwrap() == rewritten);
    let map = Db::open(folder.file()).unwrap().map("m");
    assert_eq!(map.len().unwrap(), 1);
    assert_eq!(files_in(&folder), 1);
}

#[test]
fn a_file_of_the_system_is_no_file() {
    let is_synced = |call| match call {
        "fdatasync" => Call::IsPassed,
        _ => Call::IsMade,
    };
    for path in ["/proc/self/oom_score_adj", "/proc/self/comm"] {
        let before = fs::read(path).unwrap();
        let path = Path::new(path);
        assert_eq!(opened(path), Err(Error::NoFile));
        assert_eq!(hooked(is_synced, || opened(path)), Err(Error::NoFile));
        assert_eq!(fs::read(path).unwrap(), before);
    }

    // an empty file of another kind, which can't be looked at
    let folder = Folder::new("system");
    let path = folder.file();
    fs::write(&path, b"").unwrap();
    let failed = |call, error| {
        let hook = at_first(call, Call::Fails(error), || ());
        hooked(hook, || opened(&path))
    };
    assert_eq!(failed("fdatasync", EINVAL), Err(Error::NoFile));
    assert_eq!(failed("fdatasync", EIO), Err(refused::write()));
    assert_eq!(failed("pread64", EIO), Err(refused::read()));
    assert_eq!(fs::metadata(&path).unwrap().len(), 0);
    assert_eq!(files_in(&folder), 1);
    assert_eq!(opened(&path), Ok(()));
}
