//! What a cache reads and writes where it isn't in memory.

use crate::error::{Error, done};
use crate::sys;
use std::io;
use std::mem;
use std::sync::Arc;

/// Bytes in order, which are read and written at a place: a file, or another thing that keeps them.
///
/// [`Cache::on_device`](crate::Cache::on_device) has an example. What a device may fail at is told by an [`io::Error`], which a cache hands
/// on in [`Error::Read`] or [`Error::Write`]: a call that wants to be made again, as one that was interrupted, the device makes itself. One
/// that panics is taken for one whose write failed.
pub trait Device: Send {
    /// How many bytes there are.
    fn size(&mut self) -> io::Result<u64>;

    /// Reads as many bytes as there is room for, all of which are there.
    fn read_at(&mut self, at: u64, into: &mut [u8]) -> io::Result<()>;

    /// Writes over what is there, and past the end.
    fn write_at(&mut self, at: u64, bytes: &[u8]) -> io::Result<()>;

    /// Makes durable what was written: all of it is there after a crash, in whatever order it was written.
    fn sync(&mut self) -> io::Result<()>;

    /// Keeps room between two places, so that no write there fails for want of it. How many bytes there are stays as it is. An error refuses
    /// the change that the room was for, as [`Error::DiskFull`], and the device is used on. A device that keeps none, as this does where it
    /// isn't written anew, has a write that fails, as [`Error::Write`] says.
    ///
    /// # Errors
    ///
    /// There is no room.
    fn keep_room(&mut self, from: u64, to: u64) -> io::Result<()> {
        let _ = (from, to);
        Ok(())
    }
}

impl<D: Device + ?Sized> Device for Box<D> {
    fn size(&mut self) -> io::Result<u64> {
        (**self).size()
    }

    fn read_at(&mut self, at: u64, into: &mut [u8]) -> io::Result<()> {
        (**self).read_at(at, into)
    }

    fn write_at(&mut self, at: u64, bytes: &[u8]) -> io::Result<()> {
        (**self).write_at(at, bytes)
    }

    fn sync(&mut self) -> io::Result<()> {
        (**self).sync()
    }

    fn keep_room(&mut self, from: u64, to: u64) -> io::Result<()> {
        (**self).keep_room(from, to)
    }
}

// The bytes of the buffer, and how many are read at least: what a page's later messages need often stands near.
const ROOM: usize = 65536;
pub(crate) const LEAST_READ: u64 = 4096;
// The bytes of a piece where much is read.
const MUCH: u64 = 4 << 20;
// Room is kept in steps of an eighth of the device, within these.
const LEAST_STEP: u64 = 1 << 16;
const MOST_STEP: u64 = 4 << 20;

/// A device that a cache lies on.
pub(crate) struct Attached {
    device: Box<dyn Device>,
    end: u64,
    // Up to here room is kept, or bytes are.
    room_end: u64,
    buffer: Vec<u8>,
    // A write or a sync failed, or the device panicked: a task that the library takes for done isn't.
    has_failed: bool,
    // What the write or the sync failed with: a device that panicked tells nothing.
    cause: Option<Arc<io::Error>>,
}

impl Attached {
    pub(crate) fn new(mut device: Box<dyn Device>) -> Result<Attached, Error> {
        let end = device.size().map_err(Error::read)?;
        Ok(Attached {
            device,
            end,
            room_end: end,
            buffer: vec![0; ROOM],
            has_failed: false,
            cause: None,
        })
    }

    /// How many bytes the device has.
    pub(crate) fn end(&self) -> u64 {
        self.end
    }

    /// Takes the device for cut off at a place.
    pub(crate) fn shorten(&mut self, end: u64) {
        self.end = end;
        self.room_end = end;
    }

    /// Takes the room behind the end for given back.
    pub(crate) fn forget_room(&mut self) {
        self.room_end = self.end;
    }

    /// Keeps room up to a place, and for some more where there is some.
    pub(crate) fn keep_room(&mut self, to: u64) -> Result<(), Error> {
        let from = self.room_end.max(self.end);
        if to <= from || self.has_failed {
            return Ok(());
        }
        let more = to.saturating_add((to / 8).clamp(LEAST_STEP, MOST_STEP));
        // it stays so where the device panics
        self.has_failed = true;
        self.room_end = match self.device.keep_room(from, more) {
            Ok(()) => more,
            Err(_) => {
                let kept = self.device.keep_room(from, to);
                self.has_failed = false;
                kept.map_err(Error::disk_full)?;
                to
            }
        };
        self.has_failed = false;
        Ok(())
    }

    /// Lets every later call fail, since what is written isn't known to last.
    pub(crate) fn fail(&mut self, handle: &mut sys::Handle, error: &Error) {
        self.has_failed = true;
        if let Error::Write(cause) = error {
            self.cause = Some(cause.clone());
        }
        handle.failed();
    }

    /// Does what the library wants behind a call that answered so: the answer, or none where the call is to be made again.
    pub(crate) fn settle(
        &mut self,
        handle: &mut sys::Handle,
        status: u32,
    ) -> Result<Option<u32>, Error> {
        self.settle_in_parts(handle, status, 1)
    }

    /// The same for a call that reads much: what it needs is handed in with all that lies in the same part of so many bytes.
    pub(crate) fn settle_in_parts(
        &mut self,
        handle: &mut sys::Handle,
        status: u32,
        part: u64,
    ) -> Result<Option<u32>, Error> {
        // it stays so where the device panics
        let had_failed = mem::replace(&mut self.has_failed, true);
        if had_failed {
            handle.failed();
            return Err(self.failure());
        }
        if let Err(cause) = self.do_tasks(handle) {
            self.cause = Some(Arc::new(cause));
            handle.failed();
            return Err(self.failure());
        }
        let answer = match status {
            sys::NEEDS => self.answer_needs(handle, part).map(|()| None),
            status => Ok(Some(status)),
        };
        self.has_failed = false;
        answer
    }

    // Why no call is made any more.
    fn failure(&self) -> Error {
        match &self.cause {
            Some(cause) => Error::Write(cause.clone()),
            None => Error::write(io::Error::other("the device panicked in an earlier call")),
        }
    }

    fn do_tasks(&mut self, handle: &mut sys::Handle) -> io::Result<()> {
        let mut task = sys::Task::default();
        loop {
            let status = handle.next_task(&mut task, &mut self.buffer);
            match task.kind {
                _ if status != sys::OK => return Ok(()),
                sys::NOTHING => return Ok(()),
                sys::SYNC => self.device.sync()?,
                _ => {
                    self.device.write_at(task.at, &self.buffer[..task.len])?;
                    self.end = self.end.max(task.at + task.len as u64);
                }
            }
        }
    }

    fn answer_needs(&mut self, handle: &mut sys::Handle, part: u64) -> Result<(), Error> {
        self.read_needed(handle, part).inspect_err(|_| {
            handle.forget();
        })
    }

    // Reads what is needed and hands it in, and more where that can be read too.
    fn read_needed(&mut self, handle: &mut sys::Handle, part: u64) -> Result<(), Error> {
        let (mut at, mut len) = (0, 0);
        done(handle.needs(&mut at, &mut len))?;
        let end = at.saturating_add(len as u64);
        if part > 1 {
            let from = at - at % part;
            let more = self.end.min(from.saturating_add(part)).max(end);
            match self.hand_in_much(handle, from, more) {
                // what isn't needed may be unreadable
                Err(Error::Read(_)) => {}
                answer => return answer,
            }
        }
        let more = self.end.min(at.saturating_add(LEAST_READ));
        if end < more && self.hand_in(handle, at, more).is_ok() {
            return Ok(());
        }
        self.hand_in(handle, at, end)
    }

    // The same as below in larger pieces: the library looks for what it reads among all of them.
    fn hand_in_much(&mut self, handle: &mut sys::Handle, at: u64, end: u64) -> Result<(), Error> {
        let len = (end - at).min(MUCH) as usize;
        let mut much = Vec::new();
        if much.try_reserve_exact(len).is_err() {
            return Err(Error::OutOfMemory);
        }
        much.resize(len, 0);
        let usual = mem::replace(&mut self.buffer, much);
        let handed_in = self.hand_in(handle, at, end);
        self.buffer = usual;
        handed_in
    }

    /// Reads the bytes between two places and hands them in, piece by piece.
    pub(crate) fn hand_in(
        &mut self,
        handle: &mut sys::Handle,
        mut at: u64,
        end: u64,
    ) -> Result<(), Error> {
        while at < end {
            let len = (end - at).min(self.buffer.len() as u64) as usize;
            let piece = &mut self.buffer[..len];
            self.device.read_at(at, piece).map_err(Error::read)?;
            done(handle.hand_in(at, piece))?;
            at += len as u64;
        }
        Ok(())
    }
}
