//! What is of a process beside its memory: a child that was forked has the parent's file too, and a limit may say how long a file gets.
#![cfg(all(target_os = "linux", target_env = "gnu"))]

mod folder;
mod hooks;
mod refused;

use dilluvas::{Cache, CompactAt, Db, Error, FileSettings};
use folder::Folder;
use hooks::forked;
use std::fs;
use std::path::Path;
use std::sync::mpsc;
use std::thread;

fn open(path: &Path) -> Result<Cache, Error> {
    Cache::open(path, &FileSettings::default())
}

// Allocates some pages, and answers the last one.
fn fill(cache: &mut Cache) -> u64 {
    let pages = (0..50).map(|_| cache.allocate([("key", [7; 100])]).unwrap().page);
    pages.last().unwrap()
}

#[test]
fn a_forked_child_leaves_the_lock_to_its_parent() {
    let folder = Folder::new("forked-lock");
    let mut cache = open(&folder.file()).unwrap();
    let child_drops = |cache: &mut Option<Cache>| {
        forked(|| {
            let mut cache = cache.take().unwrap();
            // which it could without a read of the old file
            assert_eq!(cache.compact(), Err(refused::write()));
            drop(cache);
            0
        })
    };
    fill(&mut cache);
    let mut kept = Some(cache);
    assert_eq!(child_drops(&mut kept), 0);
    assert_eq!(open(&folder.file()).unwrap_err(), Error::Held);
    let mut cache = kept.take().unwrap();

    // so it is with the file of a cache that was rewritten
    cache.compact().unwrap();
    kept = Some(cache);
    assert_eq!(child_drops(&mut kept), 0);
    assert_eq!(open(&folder.file()).unwrap_err(), Error::Held);
    let mut cache = kept.take().unwrap();
    let last = fill(&mut cache);
    cache.flush().unwrap();
    drop(cache);
    assert!(open(&folder.file()).unwrap().get(last).unwrap().is_some());
}

#[test]
fn a_forked_child_does_nothing_to_the_file() {
    let folder = Folder::new("forked-file");
    let mut cache = open(&folder.file()).unwrap();
    fill(&mut cache);
    cache.flush().unwrap();
    drop(cache);
    let flushed = fs::read(folder.file()).unwrap();
    // no page that was there before is in memory
    let mut cache = open(&folder.file()).unwrap();
    let last = fill(&mut cache);
    let status = forked(|| {
        // what wants no byte of the file goes on, and what would read it or write to it doesn't
        assert!(cache.get(last).unwrap().is_some());
        assert_eq!(cache.get(2).map(drop), Err(refused::read()));
        assert!(cache.allocate([("key", "value")]).is_ok());
        assert_eq!(cache.compact(), Err(refused::write()));
        assert!(cache.size().is_ok());
        assert_eq!(open(&folder.file()).map(drop), Err(Error::Held));
        assert_eq!(cache.flush(), Err(refused::write()));
        assert_eq!(cache.get(last).map(drop), Err(refused::write()));
        // another file is the child's own
        let own = folder.path().join("own");
        let mut other = open(&own).unwrap();
        fill(&mut other);
        other.compact().unwrap();
        drop(other);
        open(&own).map(drop).unwrap();
        fs::remove_file(own).unwrap();
        77
    });
    assert_eq!(status, 77);
    assert!(fs::read(folder.file()).unwrap() == flushed);
    assert_eq!(fs::read_dir(folder.path()).unwrap().count(), 1);
    assert!(cache.get(2).unwrap().is_some());
    cache.flush().unwrap();
    drop(cache);
    assert!(open(&folder.file()).unwrap().get(last).unwrap().is_some());
}

#[test]
fn a_forked_child_leaves_the_lock_of_a_db_to_its_parent() {
    let folder = Folder::new("forked-db");
    let held = || Db::open(folder.file()).map(drop) == Err(Error::Held);
    let db = Db::open(folder.file()).unwrap();
    let map = db.map("m");
    map.set("k", "v").unwrap();
    let mut kept = Some((db, map));
    for _ in 0..2 {
        let child = forked(|| {
            let (db, map) = kept.take().unwrap();
            assert_eq!(db.compact(), Err(refused::write()));
            drop(map.iter());
            drop((db, map));
            0
        });
        assert_eq!(child, 0);
        assert!(held());
        // so it is with the file of one that was rewritten
        kept.as_ref().unwrap().0.compact().unwrap();
    }
    let (db, map) = kept.take().unwrap();
    map.set("l", "w").unwrap();
    db.flush().unwrap();
    drop((db, map));
    assert_eq!(Db::open(folder.file()).unwrap().map("m").len(), Ok(2));
}

#[test]
fn a_forked_child_does_nothing_to_the_file_of_a_db() {
    let folder = Folder::new("forked-db-file");
    let db = Db::open(folder.file()).unwrap();
    db.map("m").set("k", "v").unwrap();
    db.flush().unwrap();
    drop(db);
    let flushed = fs::read(folder.file()).unwrap();
    // no pair that was there before is in memory
    let db = Db::open(folder.file()).unwrap();
    let child = forked(|| {
        let told = |error: Error| {
            let cause = std::error::Error::source(&error).unwrap();
            assert!(cause.to_string().contains("parent"), "{cause}");
            error
        };
        assert_eq!(told(db.map("m").get("k").unwrap_err()), refused::read());
        assert!(db.map("other").set("k", "v").is_ok());
        assert_eq!(told(db.flush().unwrap_err()), refused::write());
        assert_eq!(told(db.map_names().unwrap_err()), refused::write());
        77
    });
    assert_eq!(child, 77);
    assert!(fs::read(folder.file()).unwrap() == flushed);
    assert_eq!(db.map("m").get("k"), Ok(Some(b"v".to_vec())));
    assert_eq!(db.map_names(), Ok(vec![b"m".to_vec()]));
}

// A rewriting is the parent's too.
#[test]
fn a_forked_child_takes_no_step_of_a_rewriting() {
    let folder = Folder::new("forked-steps");
    let other = folder.path().join("pages.dilluvas-new");
    let db = Db::open(folder.file()).unwrap();
    let steps = CompactAt {
        times: 2,
        least: 0,
        most: u64::MAX,
        step: 1,
    };
    db.set_compact_at(Some(steps)).unwrap();
    let mut count = 0u32;
    while !other.exists() {
        db.map("m").set("k", count.to_le_bytes()).unwrap();
        db.flush().unwrap();
        count += 1;
    }
    let present = || fs::metadata(&other).map(|found| (found.len(), found.modified().unwrap()));
    let before = present().unwrap();
    let mut kept = Some(db);
    let child = forked(|| {
        let db = kept.take().unwrap();
        // nothing is pending
        for _ in 0..100 {
            let _ = db.flush();
        }
        drop(db);
        55
    });
    assert_eq!(child, 55);
    assert_eq!(present().unwrap(), before);
    let db = kept.take().unwrap();
    while other.exists() {
        db.map("n").set("k", count.to_le_bytes()).unwrap();
        db.flush().unwrap();
        count += 1;
    }
    assert_eq!(Db::open(folder.file()).map(drop), Err(Error::Held));
    drop(db);
    assert_eq!(
        Db::open(folder.file()).unwrap().map_names().unwrap().len(),
        2
    );
}

// The thread that has the lock isn't there in the child, and never lets it go.
#[test]
fn a_forked_child_waits_for_no_thread_of_its_parent() {
    let db = Db::in_memory().unwrap();
    let (begun, has_begun) = mpsc::channel();
    let (end, ended) = mpsc::channel::<()>();
    thread::scope(|scope| {
        let db = &db;
        scope.spawn(move || {
            db.batch(|_| {
                begun.send(()).unwrap();
                ended.recv().unwrap();
                Ok(())
            })
        });
        has_begun.recv().unwrap();
        let child = forked(|| {
            assert_eq!(db.map("m").get("k"), Err(Error::Held));
            assert_eq!(db.flush(), Err(Error::Held));
            0
        });
        end.send(()).unwrap();
        assert_eq!(child, 0);
    });
    assert_eq!(db.map("m").get("k"), Ok(None));
    assert_eq!(forked(|| i32::from(db.map("m").get("k").is_err())), 0);
}

#[repr(C)]
struct Limit {
    soft: u64,
    hard: u64,
}

unsafe extern "C" {
    fn setrlimit(resource: i32, limit: *const Limit) -> i32;
}

fn let_files_have(bytes: u64) {
    let limit = Limit {
        soft: bytes,
        hard: u64::MAX,
    };
    // SAFETY: it is the structure that the system reads.
    assert_eq!(unsafe { setrlimit(1, &limit) }, 0);
}

// The bytes of a file that was just made.
const LEAST: u64 = 53;

#[test]
fn a_file_that_gets_too_long_ends_no_process() {
    let folder = Folder::new("limit");
    let pages = forked(|| {
        let_files_have(4000);
        let mut cache = open(&folder.file()).unwrap();
        for pages in 0.. {
            let token = cache.allocate([("key", "value")]).unwrap();
            assert_eq!(token.page, 2 + pages as u64);
            if let Err(error) = cache.flush() {
                assert_eq!(error, refused::write());
                assert_eq!(cache.compact(), Err(refused::write()));
                return pages;
            }
        }
        unreachable!()
    });
    assert!(pages > 50, "{pages} pages");
    let length = fs::metadata(folder.file()).unwrap().len();
    assert!((3900..4000).contains(&length), "{length} bytes");
    let mut cache = open(&folder.file()).unwrap();
    for page in 2..2 + pages as u64 {
        assert!(cache.get(page).unwrap().is_some());
    }
    assert_eq!(fs::read_dir(folder.path()).unwrap().count(), 1);
}

#[test]
fn the_limit_is_the_last_byte_that_a_file_may_have() {
    let folder = Folder::new("limit-last");
    let made = |bytes: u64| {
        forked(|| {
            let_files_have(bytes);
            match open(&folder.file()) {
                Ok(_) => 0,
                Err(error) => error.status() as i32,
            }
        })
    };
    for bytes in 0..LEAST {
        assert_eq!(
            made(bytes),
            refused::write().status() as i32,
            "{bytes} bytes"
        );
        assert_eq!(fs::read_dir(folder.path()).unwrap().count(), 0);
    }
    assert_eq!(made(LEAST), 0);
    assert_eq!(fs::metadata(folder.file()).unwrap().len(), LEAST);
}
