//! Iterators over maps that nobody changes: their bounds, their ends and their errors.

use crate::disk::{Call, Disk, Fault};
use crate::{SMALL, pair, refused};
use dilluvas::{Db, Error, Iter, Map};
use std::ops::Bound;

// The even numbers below 200, each as a key of one byte.
fn evens(db: &Db) -> Map {
    let map = db.map("evens");
    for key in (0..200u8).step_by(2) {
        map.set([key], [key, key]).unwrap();
    }
    map
}

fn keys_of(pairs: Iter) -> Vec<u8> {
    let key_of = |found: Result<(Vec<u8>, Vec<u8>), Error>| {
        let (key, value) = found.unwrap();
        assert_eq!(value, [key[0]; 2]);
        key[0]
    };
    pairs.map(key_of).collect()
}

#[test]
fn each_two_bounds_hold() {
    let map = evens(&Db::in_memory().unwrap());
    let kinds = |key: u8| {
        [
            Bound::Included([key]),
            Bound::Excluded([key]),
            Bound::Unbounded,
        ]
    };
    let some = [0, 1, 2, 63, 64, 65, 100, 101, 198, 199, 255];
    for (from, to) in some
        .iter()
        .flat_map(|from| some.iter().map(move |to| (*from, *to)))
    {
        for start in kinds(from) {
            for end in kinds(to) {
                let is_in = |key: &u8| match start {
                    Bound::Included(from) => [*key] >= from,
                    Bound::Excluded(from) => [*key] > from,
                    Bound::Unbounded => true,
                } && match end {
                    Bound::Included(to) => [*key] <= to,
                    Bound::Excluded(to) => [*key] < to,
                    Bound::Unbounded => true,
                };
                let mut wanted: Vec<u8> = (0..200).step_by(2).filter(is_in).collect();
                assert_eq!(
                    keys_of(map.range((start, end))),
                    wanted,
                    "{start:?} {end:?}"
                );
                let mut backward = map.range((start, end));
                let mut found = Vec::new();
                while let Some(pair) = backward.next_back() {
                    found.push(pair.unwrap().0[0]);
                }
                wanted.reverse();
                assert_eq!(found, wanted, "{start:?} {end:?}");
            }
        }
    }
}

#[test]
fn ranges_are_said_in_each_way() {
    let db = Db::in_memory().unwrap();
    let map = evens(&db);
    assert_eq!(keys_of(map.range([2u8]..[6])), [2, 4]);
    assert_eq!(keys_of(map.range([2u8]..=[6])), [2, 4, 6]);
    assert_eq!(keys_of(map.range(..[4u8])), [0, 2]);
    assert_eq!(keys_of(map.range(..=[4u8])), [0, 2, 4]);
    assert_eq!(keys_of(map.range([196u8]..)), [196, 198]);
    assert_eq!(keys_of(map.range(vec![196u8]..)), [196, 198]);
    assert_eq!(keys_of(map.range(&[196u8][..]..)), [196, 198]);
    assert_eq!(keys_of(map.range::<&[u8]>(..)).len(), 100);
    assert_eq!(keys_of(map.iter()).len(), 100);
    assert_eq!((&map).into_iter().count(), 100);
    assert_eq!(keys_of(db.map("absent").iter()), []);
}

#[test]
fn prefixes_end_where_no_key_begins_so() {
    let map = Db::in_memory().unwrap().map("m");
    let keys: [&[u8]; 9] = [
        b"",
        b"\0",
        b"a",
        b"a\0",
        b"a\xff",
        b"a\xff\xff",
        b"b",
        b"\xff",
        b"\xff\xff\xff",
    ];
    for key in keys {
        map.set(key, "").unwrap();
    }
    let prefixes: [&[u8]; 9] = [
        b"",
        b"\0",
        b"a",
        b"a\xff",
        b"a\xff\xff",
        b"\xff",
        b"\xff\xff",
        b"c",
        b"\xfe",
    ];
    for prefix in prefixes {
        let mut wanted: Vec<_> = keys.iter().filter(|key| key.starts_with(prefix)).collect();
        wanted.sort();
        let found: Vec<_> = map
            .scan_prefix(prefix)
            .map(|pair| pair.unwrap().0)
            .collect();
        assert_eq!(found.iter().collect::<Vec<_>>(), wanted, "{prefix:?}");
    }
}

// Each way in which both ends may be taken by turns, for a few pairs.
#[test]
fn both_ends_meet() {
    for count in 0..9u8 {
        let map = Db::in_memory().unwrap().map("m");
        (0..count).for_each(|key| drop(map.set([key], [key; 2])));
        for turns in 0..1u32 << count {
            let (mut low, mut high) = (0, count);
            let mut pairs = map.iter();
            for turn in 0..count {
                let from_back = turns >> turn & 1 == 1;
                let found = if from_back {
                    pairs.next_back()
                } else {
                    pairs.next()
                };
                let (key, _) = found.unwrap().unwrap();
                if from_back {
                    high -= 1;
                }
                assert_eq!(key, [if from_back { high } else { low }]);
                low += u8::from(!from_back);
            }
            for _ in 0..2 {
                assert!(pairs.next().is_none() && pairs.next_back().is_none());
            }
        }
    }
}

#[test]
fn one_goes_on_where_the_map_and_the_store_are_let_go() {
    let db = Db::in_memory().unwrap();
    let mut pairs = evens(&db).iter();
    drop(db);
    assert_eq!(pairs.next().unwrap(), Ok(pair(&[0], &[0, 0])));
    assert_eq!(keys_of(pairs).len(), 99);
}

#[test]
fn in_a_batch_it_sees_what_the_batch_changes() {
    let db = Db::in_memory().unwrap();
    evens(&db);
    let done = db.batch(|batch| {
        let map = batch.map("evens");
        let mut pairs = map.iter();
        assert_eq!(pairs.next_back().unwrap()?.0, [198]);
        map.set([197], [197, 197])?;
        map.delete([196])?;
        assert_eq!(pairs.next_back().unwrap()?.0, [197]);
        assert_eq!(pairs.next_back().unwrap()?.0, [194]);
        assert_eq!(map.range(..[2u8]).count(), 1);
        Ok(pairs.count())
    });
    assert_eq!(done, Ok(97));
}

#[test]
fn an_error_comes_once() {
    let disk = Disk::default();
    let db = Db::on_device(disk.clone(), &SMALL).unwrap();
    evens(&db);
    db.flush().unwrap();
    drop(db);
    // no page is in memory
    let open = || Db::on_device(Disk::of(disk.bytes()), &SMALL).unwrap();
    drop(open());
    for is_from_back in [false, true] {
        let disk = Disk::of(disk.bytes());
        let map = Db::on_device(disk.clone(), &SMALL).unwrap().map("evens");
        let mut pairs = map.iter();
        let mut next = || {
            if is_from_back {
                pairs.next_back()
            } else {
                pairs.next()
            }
        };
        assert!(next().unwrap().is_ok());
        disk.set_fault(Some((Call::Read, Fault::Fails("no light"))));
        let told = std::iter::from_fn(&mut next).find_map(Result::err);
        assert_eq!(told, Some(refused::read()));
        disk.set_fault(None);
        assert!((0..5).all(|_| next().is_none()), "it is over");
        assert!(pairs.next().is_none() && pairs.next_back().is_none());
        assert_eq!(keys_of(map.iter()).len(), 100, "another one goes through");
    }
}
