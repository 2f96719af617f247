//! Each call of a map once, and what it is given at the edges.

use crate::disk::{Call, Disk, Fault};
use crate::folder::Folder;
use crate::{SMALL, contents, pair};
use dilluvas::{CompareAndSwapError, Db, Error, FileSettings, Iter, Map, Settings};
use std::panic::catch_unwind;

#[test]
fn a_map_is_made_where_something_is_put_in() -> Result<(), Error> {
    let db = Db::in_memory()?;
    let fruit = db.map("fruit");
    assert_eq!(fruit.name(), b"fruit");
    assert_eq!(fruit.get("lime")?, None);
    assert_eq!(fruit.remove("lime")?, None);
    assert_eq!((fruit.first()?, fruit.last()?), (None, None));
    assert_eq!((fruit.pop_first()?, fruit.pop_last()?), (None, None));
    assert!(!fruit.contains_key("lime")? && !fruit.delete("lime")? && fruit.is_empty()?);
    assert_eq!((fruit.len()?, fruit.iter().count()), (0, 0));
    assert_eq!(fruit.compare_and_swap("lime", None, None)?, Ok(()));
    assert!(db.map_names()?.is_empty() && !db.drop_map("fruit")?);

    assert!(!fruit.set("lime", "green")?);
    assert_eq!(db.map_names()?, [b"fruit"]);
    assert!(fruit.delete("lime")?);
    assert_eq!(db.map_names()?, [b"fruit"], "it stays until it is dropped");
    assert!(db.drop_map("fruit")?);
    assert!(db.map_names()?.is_empty());
    Ok(())
}

#[test]
fn a_change_answers_what_was_there() -> Result<(), Error> {
    let db = Db::in_memory()?;
    let map = db.map("m");
    assert_eq!(map.insert("k", "1")?, None);
    assert_eq!(map.insert("k", "2")?, Some(b"1".to_vec()));
    assert!(map.set("k", "3")?);
    assert_eq!(map.get("k")?, Some(b"3".to_vec()));
    assert_eq!(map.remove("k")?, Some(b"3".to_vec()));
    assert_eq!(map.remove("k")?, None);
    assert!(!map.set("k", "4")? && map.delete("k")? && !map.delete("k")?);
    for key in ["b", "a", "c"] {
        map.set(key, key)?;
    }
    assert_eq!(map.first()?, Some(pair(b"a", b"a")));
    assert_eq!(map.last()?, Some(pair(b"c", b"c")));
    assert_eq!(map.pop_first()?, Some(pair(b"a", b"a")));
    assert_eq!(map.pop_last()?, Some(pair(b"c", b"c")));
    assert_eq!(contents(&map), [pair(b"b", b"b")].into());
    Ok(())
}

#[test]
fn a_swap_is_made_where_the_value_is_the_old_one() -> Result<(), Error> {
    let options: [Option<&[u8]>; 3] = [None, Some(b""), Some(b"v")];
    for present in options {
        for old in options {
            for new in options {
                let map = Db::in_memory()?.map("m");
                if let Some(value) = present {
                    map.set("k", value)?;
                }
                let current = present.map(<[u8]>::to_vec);
                let (answer, left) = match present == old {
                    true => (Ok(()), new),
                    false => (Err(CompareAndSwapError { current }), present),
                };
                assert_eq!(map.compare_and_swap("k", old, new)?, answer);
                assert_eq!(map.get("k")?.as_deref(), left);
            }
        }
    }
    Ok(())
}

#[test]
fn keys_and_values_may_be_empty() -> Result<(), Error> {
    let db = Db::in_memory()?;
    let map = db.map("");
    assert_eq!(map.get("")?, None);
    assert!(!map.contains_key("")?);
    map.set("", "")?;
    assert_eq!(map.get("")?, Some(Vec::new()));
    assert!(map.contains_key("")? && !map.is_empty()?);
    assert_eq!(map.first()?, Some(pair(b"", b"")));
    assert_eq!(map.insert("", "v")?, Some(Vec::new()));
    map.set([0], "")?;
    assert_eq!(contents(&map), [pair(b"", b"v"), pair(&[0], b"")].into());
    assert_eq!(db.map_names()?, [b""]);
    assert_eq!(map.remove("")?, Some(b"v".to_vec()));
    assert!(db.drop_map("")?);
    Ok(())
}

#[test]
fn what_is_long_comes_back_whole() -> Result<(), Error> {
    let folder = Folder::new("long");
    for db in [Db::in_memory()?, Db::open_with(folder.file(), &SMALL)?] {
        let map = db.map([7; 1000]);
        let mut read = b"what was there".to_vec();
        let lengths = [0, 1, 63, 64, 65, 4095, 4096, 4097, 70_000, 3 << 20];
        for (at, len) in lengths.into_iter().enumerate() {
            let (key, value) = (vec![b'k'; at + len / 8], vec![len as u8; len]);
            assert_eq!(map.insert(&key, &value)?, None);
            assert_eq!(map.get(&key)?.as_ref(), Some(&value));
            assert!(map.get_into(&key, &mut read)? && read == value);
            assert_eq!(map.last()?, Some((key.clone(), value.clone())));
            assert_eq!(map.iter().next_back().transpose()?, Some((key, value)));
        }
        assert_eq!(map.len()?, 10);
        assert_eq!(contents(&map).len(), 10);
        assert!(!map.get_into("absent", &mut read)? && read.is_empty());
        assert_eq!(db.map_names()?, [vec![7; 1000]]);
    }
    Ok(())
}

// It takes no memory of the system that nobody writes to.
fn too_long() -> Vec<u8> {
    vec![0; 1 << 31]
}

#[test]
fn what_is_too_long_is_told_by_name() -> Result<(), Error> {
    let (db, long) = (Db::in_memory()?, too_long());
    let map = db.map("m");
    map.set("k", "v")?;
    assert_eq!(map.get(&long)?, None);
    assert_eq!(map.set(&long, "v"), Err(Error::KeyTooLong));
    assert_eq!(map.insert(&long, "v"), Err(Error::KeyTooLong));
    assert_eq!(map.delete(&long), Err(Error::KeyTooLong));
    let swapped = map.compare_and_swap(&long, None, Some(b"v"));
    assert_eq!(swapped, Err(Error::KeyTooLong));
    assert_eq!(map.set("k", &long), Err(Error::ValueTooLong));
    let swapped = map.compare_and_swap("k", Some(b"v"), Some(&long));
    assert_eq!(swapped, Err(Error::ValueTooLong));
    assert_eq!(db.drop_map(&long), Ok(false));
    assert_eq!(contents(&map), [pair(b"k", b"v")].into());
    assert_eq!(db.map_names()?, [b"m"]);
    let texts = [Error::KeyTooLong, Error::ValueTooLong].map(|error| error.to_string());
    assert!(texts[0] != texts[1], "{texts:?}");
    assert_eq!(Error::KeyTooLong.status(), 11);
    assert_eq!(Error::ValueTooLong.status(), 12);
    Ok(())
}

#[test]
fn maps_of_one_name_are_one() -> Result<(), Error> {
    let db = Db::in_memory()?;
    let (one, other) = (db.map("m"), db.clone().map(b"m"));
    one.set("k", "v")?;
    assert_eq!(other.get("k")?, Some(b"v".to_vec()));
    assert_eq!(db.map("M").get("k")?, None);
    assert!(db.drop_map("m")?);
    assert!(one.is_empty()? && other.is_empty()?);
    other.clone().set("k", "w")?;
    drop(db);
    assert_eq!(one.get("k")?, Some(b"w".to_vec()));
    Ok(())
}

#[test]
fn names_stand_in_their_order() -> Result<(), Error> {
    let db = Db::in_memory()?;
    let mut names = vec![b"b".to_vec(), Vec::new(), b"a\0".to_vec(), b"a".to_vec()];
    names.push(vec![255; 300]);
    for name in &names {
        db.map(name).set("k", name)?;
    }
    names.sort();
    assert_eq!(db.map_names()?, names);
    assert!(db.drop_map("a")?);
    names.remove(1);
    assert_eq!(db.map_names()?, names);
    for name in &names {
        assert_eq!(db.map(name).get("k")?.as_ref(), Some(name));
    }
    Ok(())
}

#[test]
fn settings_are_looked_at() {
    let settings = Settings {
        cache_capacity: 255,
        ..Settings::default()
    };
    let told = Db::in_memory_with(&settings).unwrap_err();
    assert_eq!(told, Error::CapacityTooSmall);
    let folder = Folder::new("settings");
    for (settings, told) in [
        (
            FileSettings {
                cache_capacity: 0,
                ..SMALL
            },
            Error::CapacityTooSmall,
        ),
        (
            FileSettings {
                idgen_persist_interval: 0,
                ..SMALL
            },
            Error::IntervalZero,
        ),
        (
            FileSettings {
                segment_size: 0,
                ..SMALL
            },
            Error::SegmentZero,
        ),
    ] {
        assert_eq!(Db::open_with(folder.file(), &settings).unwrap_err(), told);
        assert!(!folder.file().exists());
    }
}

#[test]
fn a_file_is_held_as_long_as_something_is_of_it() -> Result<(), Error> {
    let folder = Folder::new("held");
    let held = || Db::open(folder.file()).map(drop) == Err(Error::Held);
    let db = Db::open(folder.file())?;
    let map = db.map("m");
    map.set("k", "v")?;
    db.flush()?;
    drop(db);
    assert!(held());
    let pairs = map.iter();
    drop(map);
    assert!(held());
    assert_eq!(pairs.count(), 1);
    assert!(!held());
    Ok(())
}

#[test]
fn what_is_dropped_is_flushed() -> Result<(), Error> {
    let folder = Folder::new("dropped");
    let found = || Db::open(folder.file())?.map("m").len();
    let db = Db::open(folder.file())?;
    let map = db.map("m");
    map.set("k", "v")?;
    drop(db);
    map.set("l", "w")?;
    drop(map);
    assert_eq!(found()?, 2);
    // where a thread panics, it is as behind a crash
    let panicked = catch_unwind(|| {
        let db = Db::open(folder.file()).unwrap();
        db.map("m").set("m", "x").unwrap();
        panic!("the program's own");
    });
    assert!(panicked.is_err());
    assert_eq!(found()?, 2);
    Ok(())
}

#[test]
fn a_device_that_fails_as_it_is_dropped_ends_nothing() -> Result<(), Error> {
    let disk = Disk::default();
    let db = Db::on_device(disk.clone(), &SMALL)?;
    db.map("m").set("k", "v")?;
    disk.set_fault(Some((Call::Write, Fault::Fails("no power"))));
    drop(db);
    disk.set_fault(None);
    assert_eq!(Db::on_device(disk, &SMALL)?.map("m").len()?, 0);
    Ok(())
}

#[test]
fn ids_come_once() -> Result<(), Error> {
    let folder = Folder::new("ids");
    let mut last = None;
    for _ in 0..5 {
        let db = Db::open_with(folder.file(), &SMALL)?;
        for _ in 0..9 {
            let id = db.generate_id()?;
            assert!(last.is_none_or(|last| id > last));
            last = Some(id);
        }
    }
    Ok(())
}

#[test]
fn a_file_is_rewritten() -> Result<(), Error> {
    let folder = Folder::new("rewritten");
    let db = Db::open_with(folder.file(), &SMALL)?;
    let map = db.map("m");
    for round in 0..20u8 {
        for key in 0..50u8 {
            map.set([key], [round; 20])?;
        }
    }
    db.flush()?;
    let (before, id) = (db.size_on_disk()?, db.generate_id()?);
    db.compact()?;
    assert!(db.size_on_disk()? * 5 < before);
    let all = (0..50u8).map(|key| pair(&[key], &[19; 20])).collect();
    assert_eq!(contents(&map), all);
    map.set("behind", "")?;
    db.flush()?;
    drop((db, map));
    let db = Db::open_with(folder.file(), &SMALL)?;
    assert_eq!(db.map("m").len()?, 51);
    assert!(db.generate_id()? > id);
    Ok(())
}

#[test]
fn what_is_shared_goes_to_any_thread() {
    fn is_shared<T: Send + Sync + Clone + 'static>() {}
    fn is_sent<T: Send + Sync + 'static>() {}
    is_shared::<Db>();
    is_shared::<Map>();
    is_sent::<Iter>();
    is_sent::<Error>();
}
