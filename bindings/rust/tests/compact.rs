//! Caches that are rewritten: what they hold then, and what holds where a call of one of the two devices fails.

mod folder;
mod refused;

use dilluvas::{Cache, Device, Error, FileSettings, NO_PAIRS, Settings, Swap, Token};
use folder::Folder;
use std::fs;
use std::io;
use std::os::unix::fs::MetadataExt;
use std::sync::{Arc, Mutex};

// Pages leave memory.
const SETTINGS: FileSettings = FileSettings {
    cache_capacity: 256,
    idgen_persist_interval: 10,
    segment_size: 1000,
};

const PAGES: u64 = 300;

fn set(cache: &mut Cache, token: Token, value: u8) -> Token {
    match cache.set(token, "key", [value; 50]) {
        Ok(Swap::Done(token)) => token,
        other => panic!("{other:?}"),
    }
}

// Pages of some messages, of which one is free, named roots and ids: the ids come from a number on.
fn fill(cache: &mut Cache, ids: u64) {
    for page in 2..PAGES {
        let mut token = cache.allocate(NO_PAIRS).unwrap();
        assert_eq!(token.page, page);
        for value in 0..page % 12 {
            token = set(cache, token, value as u8);
        }
    }
    let freed = cache.free(Token { page: 9, stamp: 10 }).unwrap();
    assert!(freed.done().is_some());
    assert_eq!(cache.cas_root("name", None, Some(7)).unwrap(), Ok(()));
    for id in ids..ids + 25 {
        assert_eq!(cache.generate_id().unwrap(), id);
    }
}

// Each page is at a stamp, where that is given.
fn has_pages(cache: &mut Cache, stamp: Option<u64>) {
    for number in 2..PAGES {
        let Some(page) = cache.get(number).unwrap() else {
            assert_eq!(number, 9);
            continue;
        };
        let last = (number % 12).checked_sub(1);
        assert_eq!(
            page.get("key"),
            last.map(|value| vec![value as u8; 50]).as_deref()
        );
        assert_eq!(page.token().stamp, stamp.unwrap_or(page.token().stamp));
    }
    assert_eq!(cache.root("name").unwrap(), Some(7));
}

fn file_cache(folder: &Folder) -> Cache {
    Cache::open(folder.file(), &SETTINGS).unwrap()
}

#[test]
fn a_file_is_rewritten() {
    let folder = Folder::new("compact");
    let mut cache = file_cache(&folder);
    fill(&mut cache, 0);
    cache.flush().unwrap();
    let before = fs::metadata(folder.file()).unwrap();
    cache.compact().unwrap();
    let after = fs::metadata(folder.file()).unwrap();
    assert!(before.ino() != after.ino() && after.len() * 2 < before.len());
    assert_eq!(before.mode(), after.mode());
    assert_eq!(fs::read_dir(folder.path()).unwrap().count(), 1);
    assert_eq!(
        Cache::open(folder.file(), &SETTINGS).unwrap_err(),
        Error::Held
    );
    has_pages(&mut cache, Some(0));

    // twice gives the same bytes
    let bytes = fs::read(folder.file()).unwrap();
    cache.compact().unwrap();
    assert_eq!(fs::read(folder.file()).unwrap(), bytes);
    has_pages(&mut cache, Some(0));

    // it goes on: the free page is used again, and no id comes twice
    assert_eq!(
        cache.allocate(NO_PAIRS).unwrap(),
        Token { page: 9, stamp: 1 }
    );
    assert_eq!(cache.generate_id().unwrap(), 40);
    cache.flush().unwrap();
    drop(cache);
    let mut cache = file_cache(&folder);
    assert!(cache.get(9).unwrap().is_some());
    assert!(cache.generate_id().unwrap() > 40);
}

#[test]
fn an_empty_file_is_rewritten() {
    let folder = Folder::new("compact-empty");
    let mut cache = file_cache(&folder);
    for _ in 0..3 {
        cache.compact().unwrap();
        assert_eq!(fs::metadata(folder.file()).unwrap().len(), 53);
    }
    assert_eq!(
        cache.allocate(NO_PAIRS).unwrap(),
        Token { page: 2, stamp: 1 }
    );
}

#[test]
fn a_cache_in_memory_is_rewritten() {
    let settings = Settings {
        cache_capacity: 256,
        ..Settings::default()
    };
    let mut cache = Cache::in_memory(&settings).unwrap();
    fill(&mut cache, 0);
    let before = cache.size().unwrap();
    cache.compact().unwrap();
    let after = cache.size().unwrap();
    assert!(after * 2 < before);
    cache.compact().unwrap();
    assert_eq!(cache.size().unwrap(), after);
    has_pages(&mut cache, Some(0));
    assert_eq!(cache.generate_id().unwrap(), 40);

    // onto a device, over which it goes on
    let disk = Disk::default();
    cache.compact_to(disk.clone()).unwrap();
    has_pages(&mut cache, Some(0));
    assert_eq!(cache.compact(), Err(Error::NoFile));
    assert_eq!(cache.attempt_gc(), Err(Error::NotOverFile));
    cache.generate_id().unwrap();
    drop(cache);
    has_pages(&mut Cache::on_device(disk, &SETTINGS).unwrap(), Some(0));
}

#[test]
fn an_open_batch_is_told() {
    let folder = Folder::new("compact-batch");
    let caches = [
        file_cache(&folder),
        Cache::in_memory(&Settings::default()).unwrap(),
        Cache::on_device(Disk::default(), &SETTINGS).unwrap(),
    ];
    for mut cache in caches {
        let mut batch = cache.pin().unwrap();
        let token = batch.allocate([("key", "value")]).unwrap();
        assert_eq!(batch.compact_to(Disk::default()), Err(Error::BatchOpen));
        assert!(matches!(
            batch.compact(),
            Err(Error::BatchOpen | Error::NoFile)
        ));
        assert!(batch.get(token.page).unwrap().is_some());
        batch.seal().unwrap();
        cache.compact_to(Disk::default()).unwrap();
        assert!(cache.get(token.page).unwrap().is_some());
    }
    assert_eq!(fs::read_dir(folder.path()).unwrap().count(), 1);
}

#[test]
fn a_device_with_bytes_is_refused() {
    let disk = Disk::default();
    drop(Cache::on_device(disk.clone(), &SETTINGS).unwrap());
    let mut cache = Cache::in_memory(&Settings::default()).unwrap();
    assert_eq!(cache.compact_to(disk), Err(Error::Arguments));
}

// ---- Where a call fails.

// Bytes in memory, of which a call with a number fails, and all behind it where that is lasting.
#[derive(Default)]
struct Bytes {
    bytes: Vec<u8>,
    calls: u64,
    fails: Option<u64>,
    is_lasting: bool,
}

#[derive(Clone, Default)]
struct Disk(Arc<Mutex<Bytes>>);

impl Disk {
    fn fail_at(&self, call: Option<u64>, is_lasting: bool) {
        let mut disk = self.0.lock().unwrap();
        (disk.calls, disk.fails, disk.is_lasting) = (0, call, is_lasting);
    }

    fn call<T>(&self, make: impl FnOnce(&mut Vec<u8>) -> T) -> io::Result<T> {
        let mut disk = self.0.lock().unwrap();
        disk.calls += 1;
        let fails = disk
            .fails
            .is_some_and(|call| disk.calls == call || (disk.is_lasting && disk.calls > call));
        if fails {
            return Err(io::Error::other("the device fails"));
        }
        Ok(make(&mut disk.bytes))
    }

    fn bytes(&self) -> Vec<u8> {
        self.0.lock().unwrap().bytes.clone()
    }
}

impl Device for Disk {
    fn size(&mut self) -> io::Result<u64> {
        self.call(|bytes| bytes.len() as u64)
    }

    fn read_at(&mut self, at: u64, into: &mut [u8]) -> io::Result<()> {
        let at = at as usize;
        self.call(|bytes| into.copy_from_slice(&bytes[at..at + into.len()]))
    }

    fn write_at(&mut self, at: u64, from: &[u8]) -> io::Result<()> {
        self.call(|bytes| {
            let end = bytes.len().max(at as usize + from.len());
            bytes.resize(end, 0);
            bytes[at as usize..at as usize + from.len()].copy_from_slice(from);
        })
    }

    fn sync(&mut self) -> io::Result<()> {
        self.call(|_| ())
    }
}

// Lets each call of one of the devices fail in turn: the cache is as it was, and so are its bytes.
fn each_call_fails(of_the_new: bool, is_lasting: bool) -> u64 {
    let old = Disk::default();
    let mut cache = Cache::on_device(old.clone(), &SETTINGS).unwrap();
    fill(&mut cache, 0);
    cache.flush().unwrap();
    drop(cache);
    let mut cache = Cache::on_device(old.clone(), &SETTINGS).unwrap();
    let bytes = old.bytes();
    for call in 1.. {
        let new = Disk::default();
        if of_the_new {
            new.fail_at(Some(call), is_lasting);
        } else {
            old.fail_at(Some(call), is_lasting);
        }
        let done = cache.compact_to(new.clone());
        old.fail_at(None, false);
        if done.is_ok() {
            new.fail_at(None, false);
            has_pages(&mut cache, Some(0));
            return call;
        }
        let told = done.unwrap_err();
        assert!(
            told == refused::read() || (of_the_new && told == refused::write()),
            "{told:?}"
        );
        assert!(old.bytes() == bytes, "the old device was changed");
        has_pages(&mut cache, None);
    }
    unreachable!()
}

#[test]
fn each_call_fails_in_turn() {
    for is_lasting in [false, true] {
        assert!(each_call_fails(true, is_lasting) > 10);
        // a read of much that fails is made again, of what is needed alone
        assert!(each_call_fails(false, is_lasting) > u64::from(is_lasting));
    }
}

// 10,000 pages that aren't in memory are read together, in some calls.
#[test]
fn many_pages_are_read_together() {
    let disk = Disk::default();
    let mut cache = Cache::on_device(
        disk.clone(),
        &FileSettings {
            segment_size: 1 << 20,
            ..SETTINGS
        },
    )
    .unwrap();
    for _ in 0..10_000 {
        let token = cache.allocate(NO_PAIRS).unwrap();
        cache.set(token, "key", [7; 1000]).unwrap().done().unwrap();
    }
    cache.flush().unwrap();
    disk.fail_at(None, false);
    cache.compact_to(Disk::default()).unwrap();
    let calls = disk.0.lock().unwrap().calls;
    assert!(calls < 10, "{calls} calls");
}
