//! Eight threads that share a `Db`.

use crate::folder::Folder;
use crate::{SMALL, contents};
use dilluvas::{CompareAndSwapError, Db, Error, Map};
use std::collections::BTreeSet;
use std::sync::atomic::{AtomicBool, Ordering};
use std::thread;

const THREADS: u8 = 8;

// Lets each thread do something with a number of its own, and gathers what they answer.
fn all_do<T: Send>(of: impl Fn(u8) -> Result<T, Error> + Sync) -> Vec<T> {
    thread::scope(|scope| {
        let threads: Vec<_> = (0..THREADS).map(|number| (number, &of)).collect();
        let begun = threads
            .into_iter()
            .map(|(number, of)| scope.spawn(move || of(number)));
        let begun: Vec<_> = begun.collect();
        let answers = begun.into_iter().map(|thread| thread.join().unwrap());
        answers.collect::<Result<_, _>>().unwrap()
    })
}

fn stores(name: &str) -> (Folder, [Db; 2]) {
    let folder = Folder::in_memory(name);
    let file = Db::open_with(folder.file(), &SMALL).unwrap();
    (folder, [file, Db::in_memory().unwrap()])
}

#[test]
fn what_each_puts_in_is_there() {
    let (folder, stores) = stores("threads-own");
    for db in &stores {
        all_do(|number| {
            let map = db.clone().map("m");
            for key in 0..100u8 {
                map.set([key, number], [number])?;
                assert_eq!(map.get([key, number])?, Some(vec![number]));
            }
            db.flush().map(drop)
        });
        assert_eq!(db.map("m").len().unwrap(), 800);
        let pairs = contents(&db.map("m"));
        assert!(pairs.iter().all(|(key, value)| key[1..] == value[..]));
    }
    drop(stores);
    let db = Db::open_with(folder.file(), &SMALL).unwrap();
    assert_eq!(db.map("m").len().unwrap(), 800);
}

fn count_of(bytes: Option<&[u8]>) -> u32 {
    bytes.map_or(0, |bytes| u32::from_le_bytes(bytes.try_into().unwrap()))
}

// Adds one by a swap, which is made again where another thread was faster.
fn count_up(counts: &Map, key: &str) -> Result<(), Error> {
    let mut old = counts.get(key)?;
    loop {
        let new = (count_of(old.as_deref()) + 1).to_le_bytes();
        match counts.compare_and_swap(key, old.as_deref(), Some(&new))? {
            Ok(()) => return Ok(()),
            Err(CompareAndSwapError { current }) => old = current,
        }
    }
}

#[test]
fn no_count_is_lost() {
    let (_folder, stores) = stores("threads-counts");
    for db in stores {
        let counts = db.map("counts");
        all_do(|_| (0..100).try_for_each(|_| count_up(&counts, "by swaps")));
        all_do(|_| {
            let count_up = || {
                db.batch(|batch| {
                    let counts = batch.map("counts");
                    let new = count_of(counts.get("by batches")?.as_deref()) + 1;
                    counts.set("by batches", new.to_le_bytes()).map(drop)
                })
            };
            (0..100).try_for_each(|_| count_up()).map_err(Error::from)
        });
        for key in ["by swaps", "by batches"] {
            assert_eq!(count_of(counts.get(key).unwrap().as_deref()), 800);
        }
    }
}

#[test]
fn each_job_is_done_once() {
    let (_folder, stores) = stores("threads-jobs");
    for db in stores {
        let jobs = db.map("jobs");
        let taken = all_do(|number| {
            let mut taken = Vec::new();
            for job in 0..50u8 {
                let id = db.generate_id()?;
                jobs.set(id.to_be_bytes(), [number, job])?;
                let job = if number % 2 == 0 {
                    jobs.pop_first()?
                } else {
                    jobs.pop_last()?
                };
                taken.extend(job.map(|(_, job)| job));
            }
            Ok(taken)
        });
        let mut taken = taken.concat();
        let rest = jobs.iter().map(|pair| pair.unwrap().1);
        taken.extend(rest);
        assert_eq!(taken.len(), 400);
        assert_eq!(taken.into_iter().collect::<BTreeSet<_>>().len(), 400);
    }
}

// Half of them changes the map, and the others go through it, count it, rewrite it and drop another one.
#[test]
fn iterators_stay_in_order() {
    let (_folder, stores) = stores("threads-iterators");
    for db in stores {
        let map = db.map("m");
        (0..200u8).for_each(|key| drop(map.set([key, 0], "stays")));
        let is_over = AtomicBool::new(false);
        all_do(|number| {
            if number < 4 {
                for round in 0..300u32 {
                    let key = [(round * 7) as u8, number + 1];
                    map.set(key, "comes")?;
                    map.delete(key)?;
                }
                is_over.store(true, Ordering::Relaxed);
                return Ok(());
            }
            while !is_over.load(Ordering::Relaxed) {
                let mut keys = map
                    .iter()
                    .map(|pair| Ok(pair?.0))
                    .collect::<Result<Vec<_>, Error>>()?;
                assert!(keys.is_sorted_by(|one, next| one < next));
                keys.retain(|key| key[1] == 0);
                assert_eq!(keys.len(), 200);
                let backward = map.iter().rev().take(50).map(|pair| pair.unwrap().0);
                assert!(backward.is_sorted_by(|one, next| one > next));
                assert!((200..=204).contains(&map.len()?));
                if number == 4 {
                    db.compact()?;
                }
                db.map([number]).set("k", "v")?;
                assert!(db.drop_map([number])?);
            }
            Ok(())
        });
        assert_eq!(map.len().unwrap(), 200);
    }
}
