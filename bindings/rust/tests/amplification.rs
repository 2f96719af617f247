//! How much the pages of a cache take: over a file as in memory, where the same was done.

mod folder;

use dilluvas::{Cache, Db, Error, FileSettings, Settings, Swap, Token};
use folder::Folder;
use std::fs;

const FEW: u64 = 4096;
const ALL: u64 = 1 << 40;

fn open(folder: &Folder, cache_capacity: u64) -> Cache {
    let settings = FileSettings {
        cache_capacity,
        idgen_persist_interval: 10,
        segment_size: Settings::default().segment_size,
    };
    Cache::open(folder.file(), &settings).unwrap()
}

fn pages_of(cache: &mut Cache) -> u64 {
    let takes = cache.amplification().unwrap();
    assert_eq!(takes.log, cache.size().unwrap());
    takes.pages
}

fn swapped(swap: Swap) -> Token {
    swap.done().expect("the token is the page's")
}

// A leaf of one pair, whose value has more or fewer bytes.
fn allocate(cache: &mut Cache, number: u32) -> Token {
    let value = vec![0; number as usize * 7 % 300];
    cache.allocate([(number.to_be_bytes(), value)]).unwrap()
}

#[test]
fn so_many_pages_take_what_they_take_in_memory() {
    for count in [0, 1, 2, 3, 16, 17, 1000, 100_000] {
        for capacity in [FEW, ALL] {
            let folder = Folder::in_memory("many");
            let mut memory = Cache::in_memory(&Settings::default()).unwrap();
            let mut cache = open(&folder, capacity);
            let mut tokens = Vec::new();
            for number in 0..count {
                tokens.push(allocate(&mut memory, number));
                assert_eq!(allocate(&mut cache, number), tokens[number as usize]);
            }
            let wanted = pages_of(&mut memory);
            assert_eq!(pages_of(&mut cache), wanted);
            cache.flush().unwrap();
            drop(cache);
            let mut cache = open(&folder, capacity);
            // none of them is in memory, and then some or all are
            assert_eq!(pages_of(&mut cache), wanted);
            assert_eq!(pages_of(&mut cache), wanted);
            for token in tokens.into_iter().step_by(3) {
                swapped(memory.free(token).unwrap());
                let reopened = Token { stamp: 0, ..token };
                swapped(cache.free(reopened).unwrap());
            }
            assert_eq!(pages_of(&mut cache), pages_of(&mut memory));
        }
    }
}

// Links, some of which are written whole, a batch, names, trees and ids.
fn change(cache: &mut Cache) -> Result<(), Error> {
    for number in 0..60u32 {
        let mut token = allocate(cache, number);
        for link in 0..number {
            token = swapped(cache.set(token, [link as u8], vec![1; number as usize])?);
        }
        if number % 4 == 0 {
            token = swapped(cache.del(token, [0])?);
        }
        if number % 5 == 0 {
            token = swapped(cache.replace(token, [("key", "value")])?);
        }
        if number % 7 == 0 {
            swapped(cache.free(token)?);
        }
    }
    for name in ["", "one", "another name"] {
        cache.open_tree(name)?;
    }
    cache.generate_id()?;
    let mut batch = cache.pin()?;
    batch.allocate([("in", "a batch")])?;
    // within the batch too
    pages_of(&mut batch);
    batch.seal()
}

#[test]
fn changed_pages_take_what_they_take_in_memory() -> Result<(), Error> {
    for capacity in [FEW, ALL] {
        let folder = Folder::in_memory("changed");
        let mut memory = Cache::in_memory(&Settings::default())?;
        let mut cache = open(&folder, capacity);
        change(&mut memory)?;
        change(&mut cache)?;
        let wanted = pages_of(&mut memory);
        assert_eq!(pages_of(&mut cache), wanted);
        cache.compact()?;
        assert_eq!(pages_of(&mut cache), wanted);
        drop(cache);
        assert_eq!(pages_of(&mut open(&folder, capacity)), wanted);
    }
    Ok(())
}

#[test]
fn maps_take_what_they_take_after_a_rewriting() -> Result<(), Error> {
    let folder = Folder::in_memory("maps");
    let db = Db::open(folder.file())?;
    for number in 0..5000u32 {
        let map = db.map((number % 3).to_be_bytes());
        map.set(number.to_be_bytes(), vec![2; number as usize % 50])?;
    }
    db.drop_map(1u32.to_be_bytes())?;
    db.flush()?;
    drop(db);
    let mut cache = open(&folder, FEW);
    let wanted = pages_of(&mut cache);
    // what its pairs take is among it
    assert!(wanted > 3333 * (4 + 24));
    cache.compact()?;
    assert_eq!(pages_of(&mut cache), wanted);
    drop(cache);
    assert_eq!(pages_of(&mut open(&folder, ALL)), wanted);
    Ok(())
}

#[test]
fn a_damaged_page_is_told() {
    let folder = Folder::in_memory("damaged");
    let mut cache = open(&folder, FEW);
    let value = [b'v'; 40];
    let token = cache.allocate([(b"key", value)]).unwrap();
    cache.flush().unwrap();
    let wanted = pages_of(&mut cache);
    drop(cache);
    let whole = fs::read(folder.file()).unwrap();
    let mut damaged = whole.clone();
    let at = whole.windows(40).position(|bytes| bytes == value).unwrap();
    // the length of the value is before it
    damaged[at - 1] ^= 0x40;
    fs::write(folder.file(), damaged).unwrap();
    let mut cache = open(&folder, FEW);
    assert_eq!(cache.get(token.page).unwrap_err(), Error::Corruption);
    assert_eq!(cache.amplification(), Err(Error::Corruption));
    drop(cache);
    fs::write(folder.file(), whole).unwrap();
    assert_eq!(pages_of(&mut open(&folder, FEW)), wanted);
}
