//! A log on a network block device.

mod sys;

use crate::refusal::Refusal;
use dilluvas::Device;
use std::ffi::{CStr, CString};
use std::io;
use std::process;
use std::ptr::NonNull;

/// A log on a network block device: an export of a server that knows the NBD protocol, as nbdkit and qemu do.
///
/// Its size is the export's, and stays so. The log begins at its first byte and ends at its first closed gate, whatever follows. A change for
/// which the export has no room is refused as [`Error::DiskFull`](dilluvas::Error::DiskFull).
///
/// A lost connection is an error, as is each later call. **One writer at a time** is for the caller to see to: the protocol knows no epoch. A
/// server has to be done with the requests of a connection that was lost before another one is opened.
pub struct NbdDevice {
    raw: NonNull<sys::RawHandle>,
    size: u64,
    // Whether the log is to be made: it has no bytes yet.
    is_new: bool,
    failed: Option<Refusal>,
    process: u32,
}

// SAFETY: libnbd takes a lock in each call, and each method takes `&mut self`.
unsafe impl Send for NbdDevice {}

// What the file of a log begins with.
const OPENING: [u8; 8] = *b"SLPCLOG1";
// So much is looked at of both ends before a log is made: file systems and tables of partitions have their marks there.
const LOOKED_AT: u64 = 1 << 20;
// The longest request: each server takes one of this length.
const REQUEST: usize = 1 << 20;

impl NbdDevice {
    /// Opens the log of an export, whose address is an NBD URI: `nbd://host:port/export`, or `nbd+unix:///?socket=path`.
    ///
    /// # Errors
    ///
    /// [`Lost`](Refusal::Lost), [`NoFlush`](Refusal::NoFlush), [`ReadOnly`](Refusal::ReadOnly), [`BlockSize`](Refusal::BlockSize);
    /// [`NotALog`](Refusal::NotALog) where the export doesn't begin as a log does: [`make`](NbdDevice::make) makes one. Nothing was written.
    pub fn open(uri: &str) -> Result<NbdDevice, Refusal> {
        let mut device = NbdDevice::connect(uri)?;
        let mut opening = [0; OPENING.len()];
        if device.size <= OPENING.len() as u64 {
            return Err(Refusal::NotALog);
        }
        device.read(0, &mut opening)?;
        if opening != OPENING {
            return Err(Refusal::NotALog);
        }
        Ok(device)
    }

    /// The same of an export of zeros, on which an empty log is made where a cache opens over it. So that nothing else is overwritten, the
    /// first MiB and the last have to be zeros. Of the first eight bytes each may be that of a log's, as a crash of a making may leave them.
    ///
    /// # Errors
    ///
    /// [`NotEmpty`](Refusal::NotEmpty) where there is something else, as a log. Else as of [`open`](NbdDevice::open).
    pub fn make(uri: &str) -> Result<NbdDevice, Refusal> {
        let mut device = NbdDevice::connect(uri)?;
        let size = device.size;
        let mut start = vec![0; size.min(LOOKED_AT) as usize];
        device.read(0, &mut start)?;
        let is_log = start.starts_with(&OPENING);
        for (byte, of_log) in start.iter_mut().zip(OPENING) {
            if *byte == of_log {
                *byte = 0;
            }
        }
        let from = size.saturating_sub(LOOKED_AT).max(start.len() as u64);
        let mut end = vec![0; (size - from) as usize];
        device.read(from, &mut end)?;
        if is_log || start.iter().chain(&end).any(|byte| *byte != 0) {
            return Err(Refusal::NotEmpty);
        }
        device.is_new = true;
        Ok(device)
    }

    fn connect(uri: &str) -> Result<NbdDevice, Refusal> {
        let uri = CString::new(uri).map_err(|_| Refusal::BadConnectionString)?;
        // SAFETY: it answers null or a handle
        let raw = NonNull::new(unsafe { sys::nbd_create() }).ok_or_else(lost)?;
        let mut device = NbdDevice {
            raw,
            size: 0,
            is_new: false,
            failed: None,
            process: process::id(),
        };
        let raw = raw.as_ptr();
        // SAFETY: the handle is open, and the URI ends by a zero
        unsafe {
            if sys::nbd_connect_uri(raw, uri.as_ptr()) != 0 {
                return Err(lost());
            }
            device.size = sys::nbd_get_size(raw).try_into().map_err(|_| lost())?;
            if sys::nbd_is_read_only(raw) != 0 {
                return Err(Refusal::ReadOnly);
            }
            if sys::nbd_can_flush(raw) != 1 {
                return Err(Refusal::NoFlush);
            }
            // 0: the server doesn't say, and takes any
            let block = sys::nbd_get_block_size(raw, sys::SIZE_MINIMUM);
            if block > 1 {
                return Err(Refusal::BlockSize(block));
            }
        }
        Ok(device)
    }

    // Makes requests, unless one failed before: what failed then isn't known to be done or not.
    fn call(&mut self, requests: impl FnOnce(*mut sys::RawHandle) -> bool) -> Result<(), Refusal> {
        if self.process != process::id() {
            return Err(Refusal::Forked);
        }
        if let Some(failed) = &self.failed {
            return Err(failed.clone());
        }
        if requests(self.raw.as_ptr()) {
            return Ok(());
        }
        Err(self.failed.insert(lost()).clone())
    }

    fn read(&mut self, at: u64, into: &mut [u8]) -> Result<(), Refusal> {
        self.call(|raw| {
            let mut parts = into.chunks_mut(REQUEST).scan(at, next_place);
            // SAFETY: a part has as many bytes as it says
            parts.all(|(at, part)| unsafe {
                sys::nbd_pread(raw, part.as_mut_ptr().cast(), part.len(), at, 0) == 0
            })
        })
    }
}

// Adds to a part the place where it begins.
fn next_place<T: AsRef<[u8]>>(at: &mut u64, part: T) -> Option<(u64, T)> {
    let start = *at;
    *at += part.as_ref().len() as u64;
    Some((start, part))
}

// That a call of libnbd failed, for what it says. The URI isn't among it.
fn lost() -> Refusal {
    // SAFETY: null, or a text of this thread's last error
    let text = unsafe {
        let text = sys::nbd_get_error();
        if text.is_null() {
            String::new()
        } else {
            CStr::from_ptr(text).to_string_lossy().into_owned()
        }
    };
    Refusal::Lost(text)
}

impl Device for NbdDevice {
    fn size(&mut self) -> io::Result<u64> {
        Ok(if self.is_new { 0 } else { self.size })
    }

    fn read_at(&mut self, at: u64, into: &mut [u8]) -> io::Result<()> {
        match at.checked_add(into.len() as u64) {
            Some(end) if end <= self.size => Ok(self.read(at, into)?),
            _ => Err(io::ErrorKind::UnexpectedEof.into()),
        }
    }

    fn write_at(&mut self, at: u64, bytes: &[u8]) -> io::Result<()> {
        match at.checked_add(bytes.len() as u64) {
            Some(end) if end <= self.size => Ok(self.call(|raw| {
                let mut parts = bytes.chunks(REQUEST).scan(at, next_place);
                // SAFETY: a part has as many bytes as it says
                parts.all(|(at, part)| unsafe {
                    sys::nbd_pwrite(raw, part.as_ptr().cast(), part.len(), at, 0) == 0
                })
            })?),
            _ => Err(Refusal::Full(self.size).into()),
        }
    }

    fn sync(&mut self) -> io::Result<()> {
        // SAFETY: the handle is open
        Ok(self.call(|raw| unsafe { sys::nbd_flush(raw, 0) == 0 })?)
    }

    fn keep_room(&mut self, _from: u64, to: u64) -> io::Result<()> {
        match to <= self.size {
            true => Ok(()),
            false => Err(Refusal::Full(self.size).into()),
        }
    }
}

impl Drop for NbdDevice {
    fn drop(&mut self) {
        // the parent goes on with a connection that a forked child has too
        if self.process == process::id() {
            // SAFETY: the handle is open, and nothing has it now
            unsafe { sys::nbd_close(self.raw.as_ptr()) }
        }
    }
}
