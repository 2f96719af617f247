//! Iterators over maps that are changed between two of their pairs.

use crate::contents;
use crate::seed::Seed;
use dilluvas::{Db, Iter, Map};
use std::collections::{BTreeMap, BTreeSet};

// Which values keys had at some time since a moment: none stands for none.
type Values = BTreeMap<Vec<u8>, BTreeSet<Option<Vec<u8>>>>;

// An iterator, and what came of it.
struct Read {
    pairs: Iter,
    front: Vec<Vec<u8>>,
    back: Vec<Vec<u8>>,
    values: Values,
}

impl Read {
    fn of(map: &Map) -> Read {
        let present = contents(map).into_iter();
        Read {
            pairs: map.iter(),
            front: Vec::new(),
            back: Vec::new(),
            values: present
                .map(|(key, value)| (key, [Some(value)].into()))
                .collect(),
        }
    }

    fn is_changed(&mut self, key: &[u8], value: Option<&[u8]>) {
        let values = self.values.entry(key.to_vec());
        let values = values.or_insert_with(|| [None].into());
        values.insert(value.map(<[u8]>::to_vec));
    }

    // The next pair from one end comes in its order, and its key had that value. Whether there was one.
    fn step(&mut self, from_back: bool) -> bool {
        let found = match from_back {
            true => self.pairs.next_back(),
            false => self.pairs.next(),
        };
        let Some((key, value)) = found.transpose().unwrap() else {
            return false;
        };
        let had = self
            .values
            .get(&key)
            .is_some_and(|values| values.contains(&Some(value)));
        assert!(had, "{key:?} never had that value");
        assert!(
            self.front.last().is_none_or(|last| *last < key),
            "{key:?} comes behind a greater one"
        );
        assert!(
            self.back.last().is_none_or(|last| *last > key),
            "{key:?} comes behind a smaller one"
        );
        if from_back {
            self.back.push(key)
        } else {
            self.front.push(key)
        }
        true
    }

    // All that were there all along came.
    fn is_complete(&self) {
        let found: BTreeSet<_> = self.front.iter().chain(&self.back).collect();
        assert_eq!(found.len(), self.front.len() + self.back.len());
        for (key, values) in &self.values {
            assert!(
                values.contains(&None) || found.contains(key),
                "{key:?} is missing"
            );
        }
    }
}

fn key_of(number: usize) -> [u8; 2] {
    (number as u16).to_be_bytes()
}

// Changes a key near to where the iterator is, or anywhere; or many of them.
fn change(db: &Db, map: &Map, read: &mut Read, seed: &mut Seed) {
    if seed.below(200) == 0 {
        let keys: Vec<_> = read.values.keys().cloned().collect();
        keys.iter().for_each(|key| read.is_changed(key, None));
        db.drop_map(map.name()).unwrap();
        return;
    }
    let near = |keys: &Vec<Vec<u8>>| {
        keys.last()
            .map_or(0, |key| u16::from_be_bytes([key[0], key[1]]).into())
    };
    let number = match seed.below(4) {
        0 => near(&read.front) + seed.below(5),
        1 => (near(&read.back) + 2).saturating_sub(seed.below(5)),
        _ => seed.below(1000),
    };
    let key = key_of(number);
    if seed.below(2) == 0 {
        let value = [seed.below(256) as u8];
        read.is_changed(&key, Some(&value));
        map.set(key, value).unwrap();
    } else {
        read.is_changed(&key, None);
        map.delete(key).unwrap();
    }
}

#[test]
fn each_key_comes_once_and_in_its_order() {
    for round in 0..150 {
        let mut seed = Seed(round);
        let db = Db::in_memory().unwrap();
        let map = db.map("m");
        for _ in 0..seed.below(600) {
            map.set(key_of(seed.below(1000)), [0]).unwrap();
        }
        let mut read = Read::of(&map);
        let (changes, from_back) = (seed.below(8), seed.below(3));
        loop {
            for _ in 0..changes {
                change(&db, &map, &mut read, &mut seed);
            }
            let from_back = match from_back {
                2 => seed.below(2) == 0,
                only => only == 1,
            };
            if !read.step(from_back) {
                break;
            }
        }
        read.is_complete();
        assert!(!read.step(true) && !read.step(false), "it is over");
    }
}

#[test]
fn all_may_be_taken_out_as_they_come() {
    for from_back in [false, true] {
        let map = Db::in_memory().unwrap().map("m");
        (0..300).for_each(|number| drop(map.set(key_of(number), "")));
        let mut pairs = map.iter();
        let mut next = || {
            if from_back {
                pairs.next_back()
            } else {
                pairs.next()
            }
        };
        for count in 0..300 {
            let (key, _) = next().unwrap().unwrap();
            assert_eq!(key, key_of(if from_back { 299 - count } else { count }));
            assert!(map.delete(key).unwrap());
        }
        assert!(next().is_none() && map.is_empty().unwrap());
    }
}

#[test]
fn what_is_put_behind_the_ends_does_not_come() {
    let map = Db::in_memory().unwrap().map("m");
    (100..200).for_each(|number| drop(map.set(key_of(number), "")));
    let mut pairs = map.iter();
    for count in 0..50 {
        assert_eq!(pairs.next().unwrap().unwrap().0, key_of(100 + count));
        assert_eq!(pairs.next_back().unwrap().unwrap().0, key_of(199 - count));
        map.set(key_of(99 - count), "").unwrap();
        map.set(key_of(200 + count), "").unwrap();
    }
    assert!(pairs.next().is_none() && pairs.next_back().is_none());
    assert_eq!(map.len().unwrap(), 200);
}

// A map that is dropped and made again has other pages.
#[test]
fn a_map_may_be_made_again_meanwhile() {
    let db = Db::in_memory().unwrap();
    let map = db.map("m");
    (0..500).for_each(|number| drop(map.set(key_of(number), "old")));
    let mut pairs = map.iter();
    assert_eq!(pairs.next().unwrap().unwrap().0, key_of(0));
    assert_eq!(pairs.next_back().unwrap().unwrap().0, key_of(499));
    db.drop_map("m").unwrap();
    (200..300).for_each(|number| drop(map.set(key_of(number), "new")));
    let found: Vec<_> = pairs.map(Result::unwrap).collect();
    assert!(found.is_sorted());
    let new = found.iter().filter(|(_, value)| value == b"new");
    assert!(
        new.map(|(key, _)| key.clone())
            .eq((200..300).map(|number| key_of(number).to_vec()))
    );
}
