//! Each call of a device fails in turn, once: a read that failed changes nothing, and is made again; behind a write or a sync that failed, or a
//! panic, no call is made, and what is there is what a first part of the changes left.

mod model;
mod refused;

use dilluvas::{Cache, Device, Error, FileSettings, NO_PAIRS, Page, Token};
use model::{Change, History, Model, Run, Told, is_permitted, read};
use std::collections::BTreeMap;
use std::io;
use std::panic::{AssertUnwindSafe, catch_unwind, resume_unwind};
use std::sync::{Arc, Mutex};

// Pages leave memory, and each write is short.
const SETTINGS: FileSettings = FileSettings {
    cache_capacity: 256,
    idgen_persist_interval: 2,
    segment_size: 200,
};

const CHANGES: u64 = 150;

#[derive(Clone, Copy, Debug, PartialEq, Eq)]
enum Fault {
    NothingDone,
    HalfDone,
    AllDone,
    Panic,
}

const FAULTS: [Fault; 4] = [
    Fault::NothingDone,
    Fault::HalfDone,
    Fault::AllDone,
    Fault::Panic,
];

#[derive(Default)]
struct Disk {
    bytes: Vec<u8>,
    calls: u64,
    // which call fails, and how
    fails: Option<(u64, Fault)>,
    // the place of a read that failed: the next one there fails too, since a cache that asked for more than it needs asks again
    failed_at: Option<u64>,
    // a byte that no read gives
    bad: Option<u64>,
}

impl Disk {
    fn put(&mut self, at: usize, bytes: &[u8]) {
        let end = self.bytes.len().max(at + bytes.len());
        self.bytes.resize(end, 0);
        self.bytes[at..at + bytes.len()].copy_from_slice(bytes);
    }
}

#[derive(Clone, Default)]
struct Shared(Arc<Mutex<Disk>>);

impl Shared {
    fn of(bytes: Vec<u8>) -> Shared {
        let disk = Disk {
            bytes,
            ..Disk::default()
        };
        Shared(Arc::new(Mutex::new(disk)))
    }

    // Of the calls from now on one fails.
    fn fail_at(&self, call: u64, fault: Fault) {
        let mut disk = self.0.lock().unwrap();
        disk.fails = Some((disk.calls + call, fault));
    }

    // Whether it did. No other one fails.
    fn has_failed(&self) -> bool {
        let mut disk = self.0.lock().unwrap();
        let calls = disk.calls;
        disk.failed_at = None;
        disk.fails.take().is_some_and(|(at, _)| at <= calls)
    }

    fn calls(&self) -> u64 {
        self.0.lock().unwrap().calls
    }

    // Counts a call, of which so much is to be done.
    fn call(&self, len: usize) -> (usize, Option<Fault>) {
        let mut disk = self.0.lock().unwrap();
        disk.calls += 1;
        let fault = disk.fails.filter(|(at, _)| *at == disk.calls);
        match fault.map(|(_, fault)| fault) {
            fault @ (None | Some(Fault::AllDone)) => (len, fault),
            fault @ Some(Fault::HalfDone) => (len / 2, fault),
            fault => (0, fault),
        }
    }
}

fn ended(fault: Option<Fault>) -> io::Result<()> {
    match fault {
        None => Ok(()),
        Some(Fault::Panic) => panic!("the device panics"),
        Some(_) => Err(io::Error::other("the device fails")),
    }
}

impl Device for Shared {
    fn size(&mut self) -> io::Result<u64> {
        Ok(self.0.lock().unwrap().bytes.len() as u64)
    }

    fn read_at(&mut self, at: u64, into: &mut [u8]) -> io::Result<()> {
        let (done, fault) = self.call(into.len());
        let mut disk = self.0.lock().unwrap();
        let place = at as usize;
        into[..done].copy_from_slice(&disk.bytes[place..place + done]);
        let fails_again = disk.failed_at.take() == Some(at);
        let is_bad = disk
            .bad
            .is_some_and(|bad| (at..at + into.len() as u64).contains(&bad));
        if fault.is_some() {
            disk.failed_at = Some(at);
        }
        drop(disk);
        ended(fault)?;
        if fails_again || is_bad {
            return Err(io::Error::other("the device fails"));
        }
        Ok(())
    }

    fn write_at(&mut self, at: u64, bytes: &[u8]) -> io::Result<()> {
        let (done, fault) = self.call(bytes.len());
        self.0.lock().unwrap().put(at as usize, &bytes[..done]);
        ended(fault)
    }

    fn sync(&mut self) -> io::Result<()> {
        ended(self.call(0).1)
    }
}

// What was begun and answered, and how often a call was made again.
#[derive(Default)]
struct Watch {
    history: History,
    made_again: u64,
}

impl Told for Watch {
    fn begun(&mut self, change: &Change) {
        self.history.push((change.clone(), None));
    }

    fn answered(&mut self, answer: u64) {
        let last = self.history.last_mut().expect("it was begun");
        last.1 = Some(answer);
    }

    fn is_made_again(&mut self, cache: &mut Cache, model: &Model, error: &Error) -> bool {
        if *error != refused::read() {
            return false;
        }
        self.made_again += 1;
        assert_eq!(read(cache).unwrap(), *model, "nothing changed");
        true
    }
}

fn open(device: &Shared) -> Cache {
    Cache::on_device(device.clone(), &SETTINGS).unwrap()
}

// A device with some pages, and what they are.
fn made() -> (Vec<u8>, Model) {
    let device = Shared::default();
    let mut cache = open(&device);
    let mut run = Run::new(Model::default(), 1, 2 * CHANGES, Watch::default());
    run.go_on(&mut cache).unwrap();
    let bytes = device.0.lock().unwrap().bytes.clone();
    (bytes, run.model)
}

fn every_call_answers_write(cache: &mut Cache, device: &Shared) {
    let calls = device.calls();
    let token = Token { page: 2, stamp: 1 };
    let answers = [
        cache.allocate(NO_PAIRS).err(),
        cache.get(2).err(),
        cache.value_into(2, "a", &mut Vec::new()).err(),
        cache.set(token, "a", "b").err(),
        cache.del(token, "a").err(),
        cache.replace(token, NO_PAIRS).err(),
        cache.free(token).err(),
        cache.root("x").err(),
        cache.cas_root("x", None, None).err(),
        cache.open_tree("x").err(),
        cache.generate_id().err(),
        cache.pin().err(),
        cache.flush().err(),
        cache.size().err(),
        cache.amplification().err(),
        cache.attempt_gc().err(),
        cache.was_recovered().err(),
        cache.compact_to(Shared::default()).err(),
    ];
    let write = Some(refused::write());
    assert!(answers.iter().all(|answer| *answer == write));
    assert_eq!(device.calls(), calls, "the device is left alone");
}

// What was read before stands, and the call made again succeeds.
#[test]
fn each_read_of_an_amplification_fails_in_turn() {
    let device = Shared::of(made().0);
    let wanted = open(&device).amplification();
    assert!(wanted.is_ok());
    for call in 1.. {
        let mut cache = open(&device);
        device.fail_at(call, Fault::NothingDone);
        let answer = cache.amplification();
        if !device.has_failed() {
            assert_eq!(answer, wanted);
            assert!(call > 10);
            return;
        }
        assert_eq!(answer, Err(refused::read()));
        assert_eq!(cache.amplification(), wanted);
    }
}

#[derive(Clone, Copy, PartialEq, Eq, PartialOrd, Ord, Debug)]
enum End {
    BehindFailedRead,
    AtFailedWrite,
    AtPanic,
}

// Makes the changes over a device of which one call fails, and compares what is there then. None: no call failed.
fn end_of_changes((bytes, start): &(Vec<u8>, Model), call: u64, fault: Fault) -> Option<End> {
    let device = Shared::of(bytes.clone());
    let mut cache = open(&device);
    let mut run = Run::new(start.clone(), 2, CHANGES, Watch::default());
    device.fail_at(call, fault);
    let ran = catch_unwind(AssertUnwindSafe(|| run.go_on(&mut cache)));
    let has_failed = device.has_failed();
    let end = match ran {
        Ok(Ok(())) => {
            assert_eq!(read(&mut cache).unwrap(), run.model);
            assert_eq!(run.told.made_again > 0, has_failed);
            End::BehindFailedRead
        }
        Ok(Err(error)) => {
            assert_eq!(error, refused::write());
            End::AtFailedWrite
        }
        Err(_) if fault == Fault::Panic => End::AtPanic,
        Err(panic) => resume_unwind(panic),
    };
    if end != End::BehindFailedRead {
        every_call_answers_write(&mut cache, &device);
    }
    drop(cache);
    let found = read(&mut open(&device)).unwrap();
    let is_kept = is_permitted(start, &run.told.history, &found);
    assert!(
        is_kept,
        "no first part of them left that: {fault:?} at call {call}"
    );
    has_failed.then_some(end)
}

#[test]
fn each_call_fails_in_turn() {
    let made = made();
    let mut ends = BTreeMap::new();
    for fault in FAULTS {
        for end in (1..).map_while(|call| end_of_changes(&made, call, fault)) {
            *ends.entry(end).or_insert(0) += 1;
        }
    }
    println!("{ends:?}");
    assert!(ends.len() == 3 && ends.values().all(|count| *count > 20));
}

// A device that ends inside a batch of some segments, and what it holds without that.
fn left_in_a_batch() -> (Vec<u8>, Model) {
    let (bytes, model) = made();
    let device = Shared::of(bytes);
    let mut cache = open(&device);
    let mut batch = cache.pin().unwrap();
    for _ in 0..20 {
        batch.allocate([("lost", [7; 60])]).unwrap();
    }
    drop(batch);
    drop(cache);
    let bytes = device.0.lock().unwrap().bytes.clone();
    (bytes, model)
}

// Each call of an opening fails in turn, of which there are so many at least, and each time the pages are there behind it.
fn openings_fail_in_turn((bytes, model): &(Vec<u8>, Model), least: u64) {
    for fault in FAULTS {
        for call in 1.. {
            let device = Shared::of(bytes.clone());
            device.fail_at(call, fault);
            let opened = catch_unwind(|| Cache::on_device(device.clone(), &SETTINGS).map(drop));
            if !device.has_failed() {
                assert!(call > least, "it makes more calls than {call}");
                break;
            }
            match opened {
                Ok(Err(Error::Read(_) | Error::Write(_))) => {}
                Err(_) if fault == Fault::Panic => {}
                other => panic!("{other:?}"),
            }
            assert_eq!(read(&mut open(&device)).unwrap(), *model);
        }
    }
}

// It writes the last open gate again, syncs, and reads.
#[test]
fn each_call_of_an_opening_fails_in_turn() {
    openings_fail_in_turn(&made(), 3);
}

// It writes besides that the batch was abandoned, by two writes and two syncs.
#[test]
fn each_call_of_an_opening_that_abandons_a_batch_fails_in_turn() {
    let left = left_in_a_batch();
    openings_fail_in_turn(&left, 7);
    let (bytes, model) = left;
    let device = Shared::of(bytes.clone());
    assert_eq!(read(&mut open(&device)).unwrap(), model);
    let marked = device.0.lock().unwrap().bytes.clone();
    assert!(marked.len() >= bytes.len() && marked != bytes);
    assert_eq!(read(&mut open(&device)).unwrap(), model);
    assert_eq!(device.0.lock().unwrap().bytes, marked, "it is marked once");
}

#[test]
fn each_page_comes_behind_a_read_that_failed() {
    let (bytes, model) = made();
    let device = Shared::of(bytes);
    let mut cache = open(&device);
    let mut failed = 0;
    for (number, pairs) in &model.pages {
        device.fail_at(1, Fault::HalfDone);
        let mut page = Page::empty();
        let found = cache.get_into(*number, &mut page);
        if device.has_failed() {
            assert_eq!(found, Err(refused::read()));
            assert!(page.is_empty());
            failed += 1;
        }
        for (key, value) in pairs {
            let mut read = Vec::new();
            assert!(cache.value_into(*number, key, &mut read).unwrap().is_some());
            assert_eq!(read, *value);
        }
    }
    assert!(failed > model.pages.len() / 2);
    assert_eq!(read(&mut cache).unwrap(), model);
}

// A cache asks for more than it needs, where there is more.
#[test]
fn a_bad_byte_harms_no_page_in_front_of_it() {
    let (bytes, model) = made();
    let device = Shared::of(bytes);
    let mut cache = open(&device);
    let end = device.0.lock().unwrap().bytes.len() as u64;
    device.0.lock().unwrap().bad = Some(end - 1);
    let mut harmed = 0;
    for (number, pairs) in &model.pages {
        match cache.get(*number) {
            Ok(page) => assert_eq!(page.unwrap().len(), pairs.len()),
            Err(error) => {
                assert_eq!(error, refused::read());
                harmed += 1;
            }
        }
    }
    assert!(harmed <= 1, "{harmed} pages");
}
