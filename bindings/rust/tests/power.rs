//! The power goes before each call of a device in turn. What was not synced is there then, is not there, or is any bytes.

use dilluvas::{Cache, Device, Error, FileSettings, NO_PAIRS, Swap};
use std::io;
use std::sync::{Arc, Mutex};

const SETTINGS: FileSettings = FileSettings {
    cache_capacity: 256,
    idgen_persist_interval: 2,
    segment_size: 200,
};

#[derive(Default)]
struct Disk {
    // what a crash leaves for certain, what a read gives, and the ranges that differ
    durable: Vec<u8>,
    bytes: Vec<u8>,
    unsynced: Vec<(usize, usize)>,
    // how many calls were made, at which the power goes, and of how many syncs one is done
    calls: u32,
    goes_at: u32,
    syncs: u32,
    syncs_one_of: u32,
}

#[derive(Clone)]
struct Shared(Arc<Mutex<Disk>>);

// Numbers as good as random.
struct Seed(u64);

impl Seed {
    fn below(&mut self, limit: usize) -> usize {
        self.0 = self
            .0
            .wrapping_mul(6364136223846793005)
            .wrapping_add(1442695040888963407);
        (self.0 >> 33) as usize % limit
    }
}

impl Disk {
    fn of(bytes: Vec<u8>, goes_at: u32, syncs_one_of: u32) -> Shared {
        Shared(Arc::new(Mutex::new(Disk {
            durable: bytes.clone(),
            bytes,
            goes_at,
            syncs_one_of,
            ..Disk::default()
        })))
    }

    fn call(&mut self) -> io::Result<()> {
        self.calls += 1;
        if self.calls < self.goes_at {
            return Ok(());
        }
        Err(io::Error::other("no power"))
    }

    // What a crash leaves: each range as it was, as it was written up to some place, or filled up to there.
    fn left(&self, seed: &mut Seed) -> Vec<u8> {
        let mut left = self.durable.clone();
        for &(at, end) in &self.unsynced {
            let kind = seed.below(4);
            let end = if kind == 1 {
                end
            } else {
                at + seed.below(end - at + 1)
            };
            if kind == 0 {
                continue;
            }
            if left.len() < end {
                left.resize(end, seed.below(256) as u8);
            }
            match kind {
                3 => left[at..end].fill(seed.below(256) as u8),
                _ => left[at..end].copy_from_slice(&self.bytes[at..end]),
            }
        }
        left
    }
}

impl Device for Shared {
    fn size(&mut self) -> io::Result<u64> {
        Ok(self.0.lock().unwrap().bytes.len() as u64)
    }

    fn read_at(&mut self, at: u64, into: &mut [u8]) -> io::Result<()> {
        let mut disk = self.0.lock().unwrap();
        disk.call()?;
        let at = at as usize;
        into.copy_from_slice(&disk.bytes[at..at + into.len()]);
        Ok(())
    }

    // The power goes once the write was begun.
    fn write_at(&mut self, at: u64, bytes: &[u8]) -> io::Result<()> {
        let mut disk = self.0.lock().unwrap();
        let at = at as usize;
        let end = at + bytes.len();
        if disk.bytes.len() < end {
            disk.bytes.resize(end, 0);
        }
        disk.bytes[at..end].copy_from_slice(bytes);
        disk.unsynced.push((at, end));
        disk.call()
    }

    fn sync(&mut self) -> io::Result<()> {
        let mut disk = self.0.lock().unwrap();
        disk.call()?;
        disk.syncs += 1;
        if disk.syncs.is_multiple_of(disk.syncs_one_of) {
            disk.durable = disk.bytes.clone();
            disk.unsynced.clear();
        }
        Ok(())
    }
}

// How many rounds are made, each of which changes so many keys in a batch of ten segments and more.
const ROUNDS: u8 = 3;
const KEYS: u8 = 40;

// What a run has been promised: the last round that was flushed, and the last id.
#[derive(Default)]
struct Promised {
    round: u8,
    id: Option<u64>,
}

// Rounds of a batch of changes of the first page, a flush and an id.
fn run(cache: &mut Cache, promised: &mut Promised) -> Result<(), Error> {
    let mut token = cache.allocate(NO_PAIRS)?;
    for round in 1..=ROUNDS {
        let mut batch = cache.pin()?;
        for key in 0..KEYS {
            let Swap::Done(next) = batch.set(token, [key], [round; 30])? else {
                unreachable!("no other call changed the page")
            };
            token = next;
        }
        batch.seal()?;
        cache.flush()?;
        promised.round = round;
        promised.id = Some(cache.generate_id()?);
    }
    Ok(())
}

// Whether what a crash left opens with all that was promised, and of each batch all or nothing.
fn keeps(left: Vec<u8>, promised: &Promised) -> bool {
    let device: Box<dyn Device> = Box::new(Disk::of(left, u32::MAX, 1));
    let Ok(mut cache) = Cache::on_device(device, &SETTINGS) else {
        return false;
    };
    let mut rounds = Vec::new();
    for key in 0..KEYS {
        let mut value = Vec::new();
        match cache.value_into(2, [key], &mut value) {
            Ok(Some(_)) => rounds.push(value[0]),
            Ok(None) => {}
            Err(_) => return false,
        }
    }
    let whole = rounds.is_empty()
        || rounds.len() == KEYS.into() && rounds.iter().all(|round| *round == rounds[0]);
    let round = rounds.first().copied().unwrap_or(0);
    let kept = round == promised.round || round == promised.round + 1;
    whole && kept && cache.generate_id().is_ok_and(|id| Some(id) > promised.id)
}

// How many crash states there were, and of how many the promise was kept.
fn crashes(syncs_one_of: u32) -> (u32, u32) {
    let mut seed = Seed(1);
    let (mut states, mut kept) = (0, 0);
    for goes_at in 1.. {
        let device = Disk::of(Vec::new(), u32::MAX, 1);
        // `Cache::open` gives a file its name once it is made
        drop(Cache::on_device(device.clone(), &SETTINGS).unwrap());
        let made = device.0.lock().unwrap().bytes.clone();
        let device = Disk::of(made, goes_at, syncs_one_of);
        let mut promised = Promised::default();
        let ran = Cache::on_device(device.clone(), &SETTINGS)
            .and_then(|mut cache| run(&mut cache, &mut promised));
        for _ in 0..40 {
            let left = device.0.lock().unwrap().left(&mut seed);
            states += 1;
            kept += u32::from(keeps(left, &promised));
        }
        if ran.is_ok() {
            break;
        }
    }
    (states, kept)
}

#[test]
fn what_was_flushed_survives_each_crash() {
    let (states, kept) = crashes(1);
    assert!(states > 1000);
    assert_eq!(kept, states);
}

#[test]
fn a_device_that_drops_syncs_is_seen() {
    let (states, kept) = crashes(2);
    assert!(kept < states);
}
