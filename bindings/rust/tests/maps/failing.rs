//! Devices that fail in the calls of maps: behind a read that failed all is as it was, and behind a write a first part of the changes is there.

use crate::disk::{Call, Disk, Fault};
use crate::seed::Seed;
use crate::{Pairs, SMALL, contents, refused};
use dilluvas::{Db, Error, Map};

// A map, its model and its device, of which reads fail now and then.
struct Failing {
    disk: Disk,
    map: Map,
    pairs: Pairs,
    seed: Seed,
    failed: u32,
}

impl Failing {
    // Makes a call. Where a read fails in it the map is as it was, and the call is made again.
    fn made<T>(&mut self, call: impl Fn(&Map) -> Result<T, Error>) -> T {
        let fault = (Call::Read, Fault::Fails("no light"));
        let begins = self.seed.below(3) as u64;
        let is_failing = self.seed.below(2) == 0;
        self.disk
            .set_fault_behind(begins, is_failing.then_some(fault));
        let answer = call(&self.map);
        self.disk.set_fault(None);
        match answer {
            Err(error) => {
                assert_eq!(error, refused::read());
                self.failed += 1;
                assert_eq!(contents(&self.map), self.pairs);
                // they are read into memory by that, and go again
                call(&self.map).unwrap()
            }
            answer => answer.unwrap(),
        }
    }

    fn step(&mut self) {
        let (key, value) = (self.seed.key(), self.seed.value());
        match self.seed.below(8) {
            0..2 => {
                let before = self.made(|map| map.insert(&key, &value));
                assert_eq!(before, self.pairs.insert(key, value));
            }
            2 => {
                let had = self.made(|map| map.set(&key, &value));
                assert_eq!(had, self.pairs.insert(key, value).is_some());
            }
            3 => {
                let before = self.made(|map| map.remove(&key));
                assert_eq!(before, self.pairs.remove(&key));
            }
            4 => {
                let had = self.made(|map| map.delete(&key));
                assert_eq!(had, self.pairs.remove(&key).is_some());
            }
            5 => {
                let old = self.pairs.get(&key).cloned();
                let swapped = self.made(|map| map.compare_and_swap(&key, old.as_deref(), None));
                assert_eq!(swapped, Ok(()));
                self.pairs.remove(&key);
            }
            6 => assert_eq!(self.made(Map::pop_first), self.pairs.pop_first()),
            _ => {
                assert_eq!(self.made(Map::len), self.pairs.len() as u64);
                let found = self.made(|map| map.iter().collect::<Result<Pairs, _>>());
                assert_eq!(found, self.pairs);
            }
        }
    }
}

#[test]
fn behind_a_failed_read_all_is_as_it_was() {
    let disk = Disk::default();
    let opened = || Db::on_device(disk.clone(), &SMALL).unwrap().map("m");
    let mut failing = Failing {
        disk: disk.clone(),
        map: opened(),
        pairs: Pairs::new(),
        seed: Seed(1),
        failed: 0,
    };
    for _ in 0..300 {
        for _ in 0..10 {
            failing.step();
        }
        // no page is in memory then
        failing.map = Db::in_memory().unwrap().map("m");
        failing.map = opened();
    }
    assert!(failing.failed > 100, "{} failed", failing.failed);
}

// Changes a map up to a write or a sync that fails: what it was behind the last flush, and behind each change since.
fn states_up_to_a_failure(map: &Map, db: &Db, seed: &mut Seed) -> Option<Vec<Pairs>> {
    let mut states = vec![Pairs::new()];
    for _ in 0..60 {
        let (key, value) = (seed.key(), seed.value());
        let mut next = states.last().unwrap().clone();
        let answer = match seed.below(10) {
            0 => {
                if db.flush().is_err() {
                    return Some(states);
                }
                states = vec![next];
                continue;
            }
            1..4 => {
                next.remove(&key);
                map.delete(&key)
            }
            _ => {
                next.insert(key.clone(), value.clone());
                map.set(&key, &value)
            }
        };
        states.push(next);
        if let Err(error) = answer {
            assert_eq!(error, refused::write());
            return Some(states);
        }
    }
    None
}

#[test]
fn behind_a_failed_write_a_first_part_is_there() {
    let mut failures = 0;
    for (call, round) in [Call::Write, Call::Sync]
        .into_iter()
        .flat_map(|call| (0..4).map(move |round| (call, round)))
    {
        for calls in 0.. {
            let disk = Disk::default();
            let db = Db::on_device(disk.clone(), &SMALL).unwrap();
            let map = db.map("m");
            disk.set_fault_behind(calls, Some((call, Fault::Fails("no power"))));
            let Some(states) = states_up_to_a_failure(&map, &db, &mut Seed(round)) else {
                break;
            };
            assert_eq!(map.get("k"), Err(refused::write()));
            drop((map, db));
            let found = contents(
                &Db::on_device(Disk::of(disk.bytes()), &SMALL)
                    .unwrap()
                    .map("m"),
            );
            assert!(
                states.contains(&found),
                "{call:?} {calls} of {round}: {found:?}"
            );
            failures += 1;
        }
    }
    assert!(failures > 100, "{failures} failures");
}
