//! Random calls of maps and of `BTreeMap`s, which answer the same, while the file is opened again, rewritten and flushed.

use crate::folder::Folder;
use crate::seed::Seed;
use crate::{Pairs, contents};
use dilluvas::{Access, CompactAt, Db, Error, FileSettings, Map, Settings};
use std::collections::BTreeMap;
use std::ops::Bound;

const NAMES: [&[u8]; 4] = [b"", b"a", b"fruit", &[255; 40]];

type Model = BTreeMap<Vec<u8>, Pairs>;

fn all_of(db: &Db) -> Model {
    let names = db.map_names().unwrap();
    let pairs_of = |name: Vec<u8>| (name.clone(), contents(&db.map(name)));
    names.into_iter().map(pairs_of).collect()
}

fn some_bound(seed: &mut Seed) -> Bound<Vec<u8>> {
    match seed.below(5) {
        0 => Bound::Unbounded,
        1..3 => Bound::Included(seed.key()),
        _ => Bound::Excluded(seed.key()),
    }
}

// What a map has within two bounds.
fn within(pairs: &Pairs, from: &Bound<Vec<u8>>, to: &Bound<Vec<u8>>) -> Vec<(Vec<u8>, Vec<u8>)> {
    let is_in = |key: &Vec<u8>| {
        let is_behind = match from {
            Bound::Included(from) => key >= from,
            Bound::Excluded(from) => key > from,
            Bound::Unbounded => true,
        };
        is_behind
            && match to {
                Bound::Included(to) => key <= to,
                Bound::Excluded(to) => key < to,
                Bound::Unbounded => true,
            }
    };
    let owned = pairs.iter().filter(|(key, _)| is_in(key));
    owned
        .map(|(key, value)| (key.clone(), value.clone()))
        .collect()
}

// The pairs of a range from one end, or from both by turns as it comes.
fn read_range<A: Access>(map: &Map<A>, pairs: &Pairs, seed: &mut Seed) {
    let (from, to) = (some_bound(seed), some_bound(seed));
    let mut left = within(pairs, &from, &to);
    let mut read = map.range((from, to));
    let kind = seed.below(3);
    let mut is_left = |seed: &mut Seed| {
        let from_back = kind == 1 || kind == 2 && seed.below(2) == 0;
        let (found, wanted) = match from_back {
            true => (read.next_back(), left.pop()),
            false if left.is_empty() => (read.next(), None),
            false => (read.next(), Some(left.remove(0))),
        };
        assert_eq!(found.transpose().unwrap(), wanted);
        wanted.is_some()
    };
    while is_left(seed) {}
    assert!(read.next().is_none() && read.next_back().is_none());
}

fn swap<A: Access>(map: &Map<A>, pairs: &mut Pairs, seed: &mut Seed) -> bool {
    let key = seed.key();
    let old = match seed.below(3) {
        0 => Some(seed.value()),
        _ => pairs.get(&key).cloned(),
    };
    let new = (seed.below(3) > 0).then(|| seed.value());
    let answer = map.compare_and_swap(&key, old.as_deref(), new.as_deref());
    let current = pairs.get(&key).cloned();
    if current != old {
        assert_eq!(answer.unwrap().unwrap_err().current, current);
        return false;
    }
    assert_eq!(answer, Ok(Ok(())));
    match &new {
        Some(value) => pairs.insert(key, value.clone()),
        None => pairs.remove(&key),
    };
    new.is_some()
}

fn pop<A: Access>(map: &Map<A>, pairs: &mut Pairs, seed: &mut Seed) {
    match seed.below(2) {
        0 => assert_eq!(map.pop_first().unwrap(), pairs.pop_first()),
        _ => assert_eq!(map.pop_last().unwrap(), pairs.pop_last()),
    }
}

fn look<A: Access>(map: &Map<A>, pairs: &Pairs, seed: &mut Seed) {
    let key = seed.key();
    let mut read = vec![1];
    assert_eq!(map.get(&key).unwrap().as_ref(), pairs.get(&key));
    let found = map.get_into(&key, &mut read).unwrap();
    assert_eq!(found.then_some(&read), pairs.get(&key));
    assert_eq!(map.contains_key(&key).unwrap(), pairs.contains_key(&key));
    assert_eq!(map.len().unwrap(), pairs.len() as u64);
    assert_eq!(map.is_empty().unwrap(), pairs.is_empty());
    let owned = |(key, value): (&Vec<u8>, &Vec<u8>)| (key.clone(), value.clone());
    assert_eq!(map.first().unwrap(), pairs.first_key_value().map(owned));
    assert_eq!(map.last().unwrap(), pairs.last_key_value().map(owned));
}

// Makes a call of a map and of its model, which have to answer the same: whether something was put in.
fn call<A: Access>(map: &Map<A>, pairs: &mut Pairs, seed: &mut Seed) -> bool {
    let (key, value) = (seed.key(), seed.value());
    match seed.below(16) {
        0..4 => {
            let before = map.insert(&key, &value).unwrap();
            assert_eq!(before, pairs.insert(key, value));
            return true;
        }
        4..6 => {
            let had = map.set(&key, &value).unwrap();
            assert_eq!(had, pairs.insert(key, value).is_some());
            return true;
        }
        6..8 => assert_eq!(map.remove(&key).unwrap(), pairs.remove(&key)),
        8 => assert_eq!(map.delete(&key).unwrap(), pairs.remove(&key).is_some()),
        9..11 => return swap(map, pairs, seed),
        11 => pop(map, pairs, seed),
        12 => look(map, pairs, seed),
        _ => read_range(map, pairs, seed),
    }
    false
}

// Makes a call of one of the maps, which is there once something was put in.
fn call_some<A: Access>(of: impl Fn(&[u8]) -> Map<A>, model: &mut Model, seed: &mut Seed) {
    let name = NAMES[seed.below(NAMES.len())];
    let present = model.remove(name);
    let (was_there, mut pairs) = (present.is_some(), present.unwrap_or_default());
    if call(&of(name), &mut pairs, seed) || was_there {
        model.insert(name.to_vec(), pairs);
    }
}

// Some calls in a batch, which is sealed or not: they stand.
fn call_in_batch(db: &Db, model: &mut Model, seed: &mut Seed) {
    let is_refused = seed.below(3) == 0;
    let answer = db.batch(|batch| {
        for _ in 0..seed.below(20) {
            call_some(|name| batch.map(name), model, seed);
        }
        let name = NAMES[seed.below(NAMES.len())];
        if seed.below(8) == 0 {
            assert_eq!(batch.drop_map(name)?, model.remove(name).is_some());
        }
        assert!(batch.map_names()?.iter().eq(model.keys()));
        match is_refused {
            true => Err(Error::Corruption),
            false => Ok(()),
        }
    });
    assert_eq!(answer.is_err(), is_refused);
}

fn run(db: Db, open: impl Fn(Db) -> Db, seed: &mut Seed, calls: u32) {
    run_with(db, open, seed, calls, false);
}

// The same with a flush each few calls, and seldom another opening.
fn run_flushing(db: Db, open: impl Fn(Db) -> Db, seed: &mut Seed, calls: u32) {
    run_with(db, open, seed, calls, true);
}

fn run_with(mut db: Db, open: impl Fn(Db) -> Db, seed: &mut Seed, calls: u32, often_flushed: bool) {
    let mut model = Model::new();
    for call in 0..calls {
        if often_flushed && call % 3 == 0 {
            db.flush().unwrap();
        }
        let kind = seed.below(100);
        if often_flushed && kind > 97 && seed.below(5) > 0 {
            continue;
        }
        match kind {
            0..90 => call_some(|name| db.map(name), &mut model, seed),
            90..95 => call_in_batch(&db, &mut model, seed),
            95 => {
                let name = NAMES[seed.below(NAMES.len())];
                assert_eq!(db.drop_map(name).unwrap(), model.remove(name).is_some());
            }
            96 => assert!(db.generate_id().is_ok()),
            97 => assert!(db.flush().is_ok()),
            98 => db.compact().unwrap(),
            _ => {
                db.flush().unwrap();
                db = open(db);
                assert_eq!(all_of(&db), model);
            }
        }
    }
    assert_eq!(all_of(&db), model);
}

#[test]
fn files_answer_as_sorted_maps_do() {
    for store in 0..6u64 {
        let folder = Folder::in_memory(&format!("lists-{store}"));
        let settings = FileSettings {
            cache_capacity: [256, 4096, 1 << 20][store as usize % 3],
            idgen_persist_interval: 3,
            segment_size: 16 << (2 * store),
        };
        let open = || Db::open_with(folder.file(), &settings).unwrap();
        let again = |db| {
            drop(db);
            open()
        };
        run(open(), again, &mut Seed(store), 2_000);
    }
}

// Flushes rewrite them, at once or step by step.
#[test]
fn files_that_are_rewritten_answer_as_sorted_maps_do() {
    for (store, step) in [0, 1, 3000, 20_000, u64::MAX].into_iter().enumerate() {
        let folder = Folder::in_memory(&format!("lists-rewritten-{store}"));
        let settings = FileSettings {
            cache_capacity: [256, 4096][store % 2],
            idgen_persist_interval: 3,
            segment_size: 256,
        };
        let compact_at = CompactAt {
            times: 2,
            least: 0,
            most: u64::MAX,
            step,
        };
        let open = || {
            let db = Db::open_with(folder.file(), &settings).unwrap();
            db.set_compact_at(Some(compact_at)).unwrap();
            db
        };
        let again = |db| {
            drop(db);
            open()
        };
        run_flushing(open(), again, &mut Seed(store as u64), 4_000);
    }
}

#[test]
fn memory_answers_as_sorted_maps_do() {
    for store in 0..4u64 {
        let settings = Settings {
            cache_capacity: [256, 1 << 20][store as usize % 2],
            segment_size: 64 << (3 * store),
            ..Settings::default()
        };
        let db = Db::in_memory_with(&settings).unwrap();
        run(db, |db| db, &mut Seed(100 + store), 3_000);
    }
}

// So many that an index is split.
#[test]
fn ten_thousand_keys_come_and_go() {
    let folder = Folder::in_memory("many");
    let open = || Db::open(folder.file()).unwrap();
    let mut keys: Vec<[u8; 4]> = (0..10_000u32).map(u32::to_be_bytes).collect();
    let mut seed = Seed(7);
    let mut shuffle = |keys: &mut Vec<_>| {
        for at in (1..keys.len()).rev() {
            keys.swap(at, seed.below(at + 1));
        }
    };
    shuffle(&mut keys);
    let db = open();
    let map = db.map("m");
    for key in &keys {
        assert!(!map.set(key, key).unwrap());
    }
    assert_eq!(map.len().unwrap(), 10_000);
    db.flush().unwrap();
    drop((db, map));

    let db = open();
    let map = db.map("m");
    let found = map.iter().map(|pair| pair.unwrap().0);
    assert!(found.eq((0..10_000u32).map(|key| key.to_be_bytes().to_vec())));
    let found = map.iter().rev().map(|pair| pair.unwrap().1);
    assert!(found.eq((0..10_000u32).rev().map(|key| key.to_be_bytes().to_vec())));
    shuffle(&mut keys);
    for (left, key) in keys.iter().enumerate().rev() {
        assert_eq!(map.remove(key).unwrap(), Some(key.to_vec()));
        if left % 1000 == 0 {
            assert_eq!(map.len().unwrap(), left as u64);
        }
    }
    assert!(map.is_empty().unwrap());
}
