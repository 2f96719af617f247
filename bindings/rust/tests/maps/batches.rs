//! Batches: what stands behind an error and a panic, what a crash leaves, and calls that would wait for themselves.

use crate::disk::{Call, Disk, Fault};
use crate::folder::Folder;
use crate::{SMALL, contents, pair, refused};
use dilluvas::{Cache, Db, Error, NotSealed};
use std::panic::{catch_unwind, panic_any};
use std::sync::mpsc;
use std::thread;
use std::time::Duration;

fn count(db: &Db) -> u64 {
    db.map("m").len().unwrap()
}

#[test]
fn one_that_is_sealed_stands() -> Result<(), Error> {
    let folder = Folder::new("sealed");
    let db = Db::open_with(folder.file(), &SMALL)?;
    let answer = db.batch(|batch| {
        let (one, other) = (batch.map("one"), batch.map("other"));
        assert_eq!(one.insert("k", "1")?, None);
        assert_eq!(other.insert("k", "2")?, None);
        assert_eq!(one.insert("k", "3")?, Some(b"1".to_vec()));
        assert_eq!(batch.map_names()?, [b"one".to_vec(), b"other".to_vec()]);
        one.len()
    })?;
    assert_eq!(answer, 1);
    assert_eq!(contents(&db.map("one")), [pair(b"k", b"3")].into());
    assert_eq!(contents(&db.map("other")), [pair(b"k", b"2")].into());
    assert_eq!(db.batch(|_| Ok(7))?, 7);
    db.flush()?;
    Ok(())
}

#[test]
fn what_came_before_an_error_stands() -> Result<(), Error> {
    let db = Db::in_memory()?;
    let refused = db.batch(|batch| {
        batch.map("m").set("k", "v")?;
        Err::<(), _>(Error::LogFull)
    });
    let told = refused.unwrap_err();
    assert_eq!(
        told,
        NotSealed {
            error: Error::LogFull
        }
    );
    let source = std::error::Error::source(&told).unwrap();
    assert_eq!(source.downcast_ref(), Some(&Error::LogFull));
    assert_eq!(Error::from(told), Error::LogFull);
    assert_eq!(count(&db), 1);
    // no batch is open
    db.flush()?;
    db.batch(|batch| batch.map("m").set("l", "w"))?;
    assert_eq!(count(&db), 2);
    Ok(())
}

#[test]
fn a_panic_leaves_the_store_to_all() {
    let db = Db::in_memory().unwrap();
    let panicked = catch_unwind(|| {
        db.batch(|batch| {
            batch.map("m").set("k", "v")?;
            panic_any("the program's own");
            #[allow(unreachable_code)]
            Ok(())
        })
    });
    assert_eq!(
        panicked.unwrap_err().downcast_ref(),
        Some(&"the program's own")
    );
    assert_eq!(count(&db), 1);
    db.flush().unwrap();
    thread::scope(|scope| {
        let other = scope.spawn(|| db.batch(|batch| batch.map("m").set("l", "w")));
        assert_eq!(other.join().unwrap(), Ok(false));
    });
    assert_eq!(count(&db), 2);
    db.compact().unwrap();
}

// Each call that would wait for the end of the batch that it is made in.
#[test]
fn a_call_that_would_wait_for_itself_is_told() -> Result<(), Error> {
    let db = Db::in_memory()?;
    let map = db.map("m");
    map.set("k", "v")?;
    let told = |error: Option<Error>| assert_eq!(error, Some(Error::Reentrant));
    db.batch(|batch| {
        told(map.get("k").err());
        told(map.get_into("k", &mut Vec::new()).err());
        told(map.contains_key("k").err());
        told(map.insert("k", "w").err());
        told(map.set("k", "w").err());
        told(map.remove("k").err());
        told(map.delete("k").err());
        told(map.compare_and_swap("k", None, None).err());
        told(map.first().err());
        told(map.last().err());
        told(map.pop_first().err());
        told(map.pop_last().err());
        told(map.len().err());
        told(map.is_empty().err());
        told(map.iter().next().and_then(Result::err));
        told(map.iter().next_back().and_then(Result::err));
        told(db.map_names().err());
        told(db.drop_map("m").err());
        told(db.generate_id().err());
        told(db.flush().err());
        told(db.compact().err());
        told(db.compact_to(Disk::default()).err());
        told(db.size_on_disk().err());
        let inner = db
            .clone()
            .batch(|_| -> Result<(), Error> { unreachable!("it isn't begun") });
        told(inner.err().map(Error::from));
        batch.map("m").set("l", "w").map(drop)
    })?;
    assert_eq!(contents(&map), [pair(b"k", b"v"), pair(b"l", b"w")].into());
    // another store isn't waited for
    let other = Db::in_memory()?;
    db.batch(|_| other.map("m").set("k", "v"))?;
    let text = Error::Reentrant.to_string();
    assert!(text.contains("use the maps of the batch") && Error::Reentrant.status() == 0);
    Ok(())
}

#[test]
fn other_threads_wait_for_the_whole_batch() {
    let db = Db::in_memory().unwrap();
    let (begun, has_begun) = mpsc::channel();
    thread::scope(|scope| {
        let db = &db;
        let other = scope.spawn(move || {
            has_begun.recv().unwrap();
            (count(db), db.map("m").iter().count())
        });
        let done = db.batch(|batch| {
            batch.map("m").set("k", "v")?;
            begun.send(()).unwrap();
            // the other thread calls meanwhile, as good as surely
            thread::sleep(Duration::from_millis(50));
            batch.map("m").set("l", "w")
        });
        assert_eq!(done, Ok(false));
        assert_eq!(other.join().unwrap(), (2, 2));
    });
}

// What a cache leaves on a device by a batch of no change, which is sealed or not.
fn left_by_a_cache(is_sealed: bool) -> Result<Vec<u8>, Error> {
    let disk = Disk::default();
    let mut cache = Cache::on_device(disk.clone(), &SMALL)?;
    let batch = cache.pin()?;
    if is_sealed {
        batch.seal()?;
    } else {
        drop(batch);
    }
    cache.flush()?;
    Ok(disk.bytes())
}

#[test]
fn one_is_sealed_where_the_closure_answers_ok_alone() -> Result<(), Error> {
    let left_by = |answer: Result<(), Error>| {
        let disk = Disk::default();
        let db = Db::on_device(disk.clone(), &SMALL)?;
        let is_ok = answer.is_ok();
        assert_eq!(db.batch(|_| answer).is_ok(), is_ok);
        db.flush()?;
        Ok::<_, Error>(disk.bytes())
    };
    let (sealed, cancelled) = (left_by_a_cache(true)?, left_by_a_cache(false)?);
    assert!(sealed != cancelled);
    assert!(left_by(Ok(()))? == sealed);
    assert!(left_by(Err(Error::Corruption))? == cancelled);
    Ok(())
}

// How many keys of a batch the bytes of a device have.
fn kept(bytes: Vec<u8>) -> u64 {
    let db = Db::on_device(Disk::of(bytes), &SMALL).unwrap();
    assert_eq!(db.map("before").len().unwrap(), 1);
    let (one, other) = (db.map("m").len().unwrap(), db.map("other").len().unwrap());
    assert_eq!(one, other);
    one
}

#[test]
fn a_crash_leaves_all_or_nothing() -> Result<(), Error> {
    let disk = Disk::default();
    let db = Db::on_device(disk.clone(), &SMALL)?;
    db.map("before").set("k", "v")?;
    db.flush()?;
    // ten segments and more
    let (moments, done) = disk.moments_of(|| {
        db.batch(|batch| {
            for key in 0..60u8 {
                batch.map("m").set([key], [key; 50])?;
                batch.map("other").set([key], "")?;
            }
            Ok(())
        })?;
        db.flush()
    });
    done?;
    assert!(moments.len() > 20, "{} moments", moments.len());
    let found: Vec<_> = moments.into_iter().map(kept).collect();
    assert!(
        found.iter().all(|keys| *keys == 0 || *keys == 60),
        "{found:?}"
    );
    assert!(found.is_sorted());
    assert_eq!((found.first(), found.last()), (Some(&0), Some(&60)));
    Ok(())
}

#[test]
fn a_crash_may_leave_a_part_of_one_that_is_not_sealed() -> Result<(), Error> {
    let disk = Disk::default();
    let db = Db::on_device(disk.clone(), &SMALL)?;
    let refused = db.batch(|batch| {
        for key in 0..60u8 {
            batch.map("m").set([key], [key; 50])?;
        }
        Err::<(), _>(Error::Corruption)
    });
    assert!(refused.is_err());
    assert_eq!(count(&db), 60, "in this run all stand");
    let left = Db::on_device(Disk::of(disk.bytes()), &SMALL)?;
    assert!(count(&left) <= 60);
    db.flush()?;
    let left = Db::on_device(Disk::of(disk.bytes()), &SMALL)?;
    assert_eq!(count(&left), 60, "once it is flushed all are kept");
    Ok(())
}

#[test]
fn a_device_that_fails_in_a_batch_is_told() {
    for fault in [Fault::Fails("no space"), Fault::Panics] {
        let disk = Disk::default();
        let db = Db::on_device(disk.clone(), &SMALL).unwrap();
        db.map("before").set("k", "v").unwrap();
        db.flush().unwrap();
        disk.set_fault(Some((Call::Write, fault)));
        let ran = catch_unwind(|| {
            db.batch(|batch| {
                (0..60u8).try_for_each(|key| batch.map("m").set([key], [key; 50]).map(drop))
            })
        });
        match fault {
            Fault::Panics => assert!(ran.is_err()),
            Fault::Fails(_) => assert_eq!(ran.unwrap().unwrap_err().error, refused::write()),
        }
        disk.set_fault(None);
        assert_eq!(db.map("before").get("k"), Err(refused::write()));
        assert_eq!(db.flush(), Err(refused::write()));
        let again = db.batch(|_| -> Result<(), Error> { unreachable!("it isn't begun") });
        assert_eq!(again.unwrap_err().error, refused::write());
        drop(db);
        assert_eq!(kept_of_failed(disk.bytes()), 0);
    }
}

fn kept_of_failed(bytes: Vec<u8>) -> u64 {
    let db = Db::on_device(Disk::of(bytes), &SMALL).unwrap();
    assert_eq!(db.map("before").len().unwrap(), 1);
    count(&db)
}
