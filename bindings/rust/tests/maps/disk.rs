//! Bytes in memory as a device: it keeps what it held at each call, and fails where it is told to.

use dilluvas::Device;
use std::io;
use std::sync::{Arc, Mutex};

#[derive(Clone, Copy, Debug, PartialEq, Eq)]
pub enum Call {
    Read,
    Write,
    Sync,
}

/// What becomes of a call.
#[derive(Clone, Copy, Debug, PartialEq, Eq)]
pub enum Fault {
    Fails(&'static str),
    Panics,
}

#[derive(Default)]
struct Bytes {
    bytes: Vec<u8>,
    // What was there before each write, if it is kept.
    moments: Option<Vec<Vec<u8>>>,
    fault: Option<(Call, Fault)>,
    // Of the calls of that kind so many are made before.
    made_before: u64,
}

#[derive(Clone, Default)]
pub struct Disk(Arc<Mutex<Bytes>>);

impl Disk {
    pub fn of(bytes: Vec<u8>) -> Disk {
        let disk = Disk::default();
        disk.0.lock().unwrap().bytes = bytes;
        disk
    }

    pub fn bytes(&self) -> Vec<u8> {
        self.0.lock().unwrap().bytes.clone()
    }

    /// From now on each call of a kind fails so, or none.
    pub fn set_fault(&self, fault: Option<(Call, Fault)>) {
        self.set_fault_behind(0, fault);
    }

    /// The same behind so many calls of that kind.
    pub fn set_fault_behind(&self, calls: u64, fault: Option<(Call, Fault)>) {
        let mut disk = self.0.lock().unwrap();
        (disk.fault, disk.made_before) = (fault, calls);
    }

    /// What it held before each write that the given calls make, and behind the last.
    pub fn moments_of<T>(&self, calls: impl FnOnce() -> T) -> (Vec<Vec<u8>>, T) {
        self.0.lock().unwrap().moments = Some(Vec::new());
        let answer = calls();
        let mut disk = self.0.lock().unwrap();
        let mut moments = disk.moments.take().unwrap();
        moments.push(disk.bytes.clone());
        (moments, answer)
    }

    fn call(&self, call: Call) -> io::Result<()> {
        let mut disk = self.0.lock().unwrap();
        let Some((_, fault)) = disk.fault.filter(|(which, _)| *which == call) else {
            return Ok(());
        };
        if disk.made_before > 0 {
            disk.made_before -= 1;
            return Ok(());
        }
        drop(disk);
        match fault {
            Fault::Fails(text) => Err(io::Error::other(text)),
            Fault::Panics => panic!("the device panics"),
        }
    }
}

impl Device for Disk {
    fn size(&mut self) -> io::Result<u64> {
        Ok(self.0.lock().unwrap().bytes.len() as u64)
    }

    fn read_at(&mut self, at: u64, into: &mut [u8]) -> io::Result<()> {
        self.call(Call::Read)?;
        let at = at as usize;
        into.copy_from_slice(&self.0.lock().unwrap().bytes[at..at + into.len()]);
        Ok(())
    }

    fn write_at(&mut self, at: u64, from: &[u8]) -> io::Result<()> {
        self.call(Call::Write)?;
        let mut disk = self.0.lock().unwrap();
        let present = disk.bytes.clone();
        disk.moments
            .iter_mut()
            .for_each(|moments| moments.push(present.clone()));
        let (at, end) = (at as usize, at as usize + from.len());
        let len = disk.bytes.len().max(end);
        disk.bytes.resize(len, 0);
        disk.bytes[at..end].copy_from_slice(from);
        Ok(())
    }

    fn sync(&mut self) -> io::Result<()> {
        self.call(Call::Sync)
    }
}
