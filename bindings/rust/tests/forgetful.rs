//! A device that takes what a sync couldn't write for durable, as Linux does: reads go on showing it, and no later sync writes it. What a flush
//! confirmed is there all the same after the power was cut, wherever one or two syncs fail before.

use dilluvas::{Cache, Device, Error, FileSettings};
use std::collections::BTreeSet;
use std::io;
use std::sync::{Arc, Mutex};

const SETTINGS: FileSettings = FileSettings {
    cache_capacity: 256,
    idgen_persist_interval: 10,
    segment_size: 100,
};

// In each of so many openings so many pages are added at most, each of which a flush follows, and then a batch is begun that is lost.
const OPENINGS: usize = 3;
const PAGES: usize = 2;

// The device writes blocks of so many bytes, of which the first has the opening bytes and a gate.
const BLOCKS: [usize; 3] = [16, 50, 512];

#[derive(Default)]
struct Disk {
    shown: Vec<u8>,
    durable: Vec<u8>,
    written: BTreeSet<usize>,
    block: usize,
    syncs: u32,
    fails_at: (u32, u32),
}

impl Disk {
    fn write_blocks(&mut self) {
        for block in std::mem::take(&mut self.written) {
            let at = block * self.block;
            let end = self.shown.len().min(at + self.block);
            if self.durable.len() < end {
                self.durable.resize(end, 0);
            }
            self.durable[at..end].copy_from_slice(&self.shown[at..end]);
        }
    }
}

#[derive(Clone)]
struct Shared(Arc<Mutex<Disk>>);

impl Shared {
    fn new(block: usize, fails_at: (u32, u32)) -> Shared {
        Shared(Arc::new(Mutex::new(Disk {
            block,
            fails_at,
            ..Disk::default()
        })))
    }

    // The power is cut.
    fn left(&self) -> Shared {
        let disk = self.0.lock().unwrap();
        let left = Shared::new(disk.block, (0, 0));
        left.0.lock().unwrap().shown = disk.durable.clone();
        left
    }
}

impl Device for Shared {
    fn size(&mut self) -> io::Result<u64> {
        Ok(self.0.lock().unwrap().shown.len() as u64)
    }

    fn read_at(&mut self, at: u64, into: &mut [u8]) -> io::Result<()> {
        let disk = self.0.lock().unwrap();
        let at = at as usize;
        into.copy_from_slice(&disk.shown[at..at + into.len()]);
        Ok(())
    }

    fn write_at(&mut self, at: u64, bytes: &[u8]) -> io::Result<()> {
        let mut disk = self.0.lock().unwrap();
        let at = at as usize;
        let end = at + bytes.len();
        if disk.shown.len() < end {
            disk.shown.resize(end, 0);
        }
        disk.shown[at..end].copy_from_slice(bytes);
        let block = disk.block;
        disk.written.extend(at / block..end.div_ceil(block));
        Ok(())
    }

    fn sync(&mut self) -> io::Result<()> {
        let mut disk = self.0.lock().unwrap();
        disk.syncs += 1;
        if disk.syncs == disk.fails_at.0 || disk.syncs == disk.fails_at.1 {
            disk.written.clear();
            return Err(io::Error::other("it fails"));
        }
        disk.write_blocks();
        Ok(())
    }
}

// Opens the device and adds pages, up to the first call that is refused. Those that are confirmed are noted.
fn add_pages(device: &Shared, confirmed: &mut BTreeSet<u64>) -> Result<(), Error> {
    let mut cache = Cache::on_device(device.clone(), &SETTINGS)?;
    for _ in 0..PAGES {
        let token = cache.allocate([("key", "a value of some forty bytes, more or less")])?;
        cache.flush()?;
        confirmed.insert(token.page);
    }
    let mut batch = cache.pin()?;
    for _ in 0..PAGES {
        batch.allocate([("key", "a value of a page that nobody confirms")])?;
    }
    Ok(())
}

// The pages that were confirmed and aren't there once the power was cut, and how many syncs were made.
fn lost(block: usize, fails_at: (u32, u32)) -> (Vec<u64>, u32) {
    let device = Shared::new(block, fails_at);
    let mut confirmed = BTreeSet::new();
    for _ in 0..OPENINGS {
        let refused = add_pages(&device, &mut confirmed);
        assert!(matches!(refused, Ok(()) | Err(Error::Write(_))));
    }
    let mut cache = Cache::on_device(device.left(), &SETTINGS).expect("it opens");
    let gone = confirmed
        .into_iter()
        .filter(|&page| cache.get(page).expect("it can be read").is_none());
    let gone = gone.collect();
    (gone, device.0.lock().unwrap().syncs)
}

#[test]
fn what_a_flush_confirmed_outlives_failed_syncs() {
    for block in BLOCKS {
        let (_, most) = lost(block, (0, 0));
        for first in 1..=most {
            for second in first..=most {
                let (gone, _) = lost(block, (first, second));
                assert!(
                    gone.is_empty(),
                    "blocks of {block}, syncs {first} and {second}: {gone:?}"
                );
            }
        }
    }
}
