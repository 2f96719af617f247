//! A file that is locked.

use super::MOST_TRIES;
use crate::device::Device;
use crate::error::{Error, is_of_room};
use crate::sys;
use std::fs::{self, File, Metadata, OpenOptions, TryLockError};
use std::io::{self, ErrorKind};
use std::os::unix::fs::{FileExt, MetadataExt};
use std::path::Path;
use std::process;
use std::sync::Arc;
use std::sync::atomic::{AtomicBool, Ordering};

/// A file that is locked, until the last of its clones is dropped.
///
/// A child that was forked has it too, and the lock is of both. It is the parent's: the child reads, writes and syncs nothing, and unlocks
/// nothing.
#[derive(Clone)]
pub(crate) struct Locked(Arc<Open>);

struct Open {
    file: File,
    process: u32,
    // Room is kept behind its end.
    keeps_room: AtomicBool,
    // Whoever opens its path is shown another file yet, so that it need not be durable.
    puts_syncs_off: AtomicBool,
    is_unlocked: AtomicBool,
}

impl Open {
    // Unlocks it once, and doesn't only close it: a process that is just being started has it open too.
    fn unlock(&self) {
        if self.process != process::id() || self.is_unlocked.swap(true, Ordering::Relaxed) {
            return;
        }
        // where it stays it is of use to the next opening
        self.give_back_room();
        // closing it does so too
        let _ = self.file.unlock();
    }
}

impl Open {
    // Gives the room back that is kept behind the end: whether there was some.
    fn give_back_room(&self) -> bool {
        self.process == process::id()
            && self.keeps_room.load(Ordering::Relaxed)
            && self
                .file
                .metadata()
                .and_then(|found| self.file.set_len(found.len()))
                .is_ok()
    }
}

impl Drop for Open {
    fn drop(&mut self) {
        self.unlock();
    }
}

impl Locked {
    /// The file, for the process that locked it, and for none that was forked since.
    pub(super) fn ours(&self) -> io::Result<&File> {
        if self.0.process == process::id() {
            Ok(&self.0.file)
        } else {
            Err(io::Error::other("the file is that of the parent process"))
        }
    }

    /// Whether a name leads to it, and not by a link.
    pub(super) fn is_at(&self, name: &Path) -> bool {
        let found = self.0.file.metadata();
        fs::symlink_metadata(name)
            .is_ok_and(|present| found.is_ok_and(|found| are_one_file(&present, &found)))
    }

    /// Gives the room back that is kept behind its end: whether there was some.
    pub(super) fn give_back_room(&self) -> bool {
        self.0.give_back_room()
    }

    /// Unlocks it before its clones are dropped, which don't use it any more.
    pub(super) fn let_go(&self) {
        self.0.unlock();
    }

    /// Lets each sync wait until [`sync_all`](Locked::sync_all), for a file that is at no path until that is done.
    pub(super) fn put_syncs_off(&self) {
        self.0.puts_syncs_off.store(true, Ordering::Relaxed);
    }

    /// Makes durable all that was written to it, and lets no later sync wait.
    pub(super) fn sync_all(&self) -> io::Result<()> {
        self.ours()?.sync_data()?;
        self.0.puts_syncs_off.store(false, Ordering::Relaxed);
        Ok(())
    }

    /// What the system says of it now.
    pub(super) fn metadata(&self) -> Result<Metadata, Error> {
        self.0.file.metadata().map_err(Error::read)
    }

    /// Refuses a file that has no bytes as the system says, and is the system's own, as those of `/proc` are: it isn't synced, or has some.
    pub(super) fn check_empty(&self) -> Result<(), Error> {
        match self.0.file.sync_data() {
            Err(error) if error.kind() == ErrorKind::InvalidInput => return Err(Error::NoFile),
            synced => synced.map_err(Error::write)?,
        }
        match self.0.file.read_at(&mut [0], 0) {
            Ok(0) => Ok(()),
            Ok(_) => Err(Error::NoFile),
            Err(error) => Err(Error::read(error)),
        }
    }
}

impl Device for Locked {
    fn size(&mut self) -> io::Result<u64> {
        Ok(self.ours()?.metadata()?.len())
    }

    fn read_at(&mut self, at: u64, into: &mut [u8]) -> io::Result<()> {
        self.ours()?.read_exact_at(into, at)
    }

    fn write_at(&mut self, at: u64, bytes: &[u8]) -> io::Result<()> {
        let file = self.ours()?;
        // the system ends a process that writes a file longer than it may
        if at.saturating_add(bytes.len() as u64) > sys::longest_file() {
            return Err(ErrorKind::FileTooLarge.into());
        }
        file.write_all_at(bytes, at)
    }

    fn sync(&mut self) -> io::Result<()> {
        let file = self.ours()?;
        if self.0.puts_syncs_off.load(Ordering::Relaxed) {
            return Ok(());
        }
        file.sync_data()
    }

    // Where the file system keeps no room, a file may get no longer, or it is that of the parent process, a write tells so.
    fn keep_room(&mut self, from: u64, to: u64) -> io::Result<()> {
        let Ok(file) = self.ours() else {
            return Ok(());
        };
        let to = to.min(sys::longest_file());
        if to <= from {
            return Ok(());
        }
        self.0.keeps_room.store(true, Ordering::Relaxed);
        match sys::keep_room(file, from, to - from) {
            Err(error) if is_of_room(&error) => Err(error),
            _ => Ok(()),
        }
    }
}

/// Opens the file of a path and locks it, or answers none where it is absent.
pub(super) fn open_locked(path: &Path) -> Result<Option<(Locked, Metadata)>, Error> {
    let mut options = OpenOptions::new();
    options.read(true).write(true);
    for _ in 0..MOST_TRIES {
        // what is no file isn't opened: that may wait, or do something to it
        if fs::metadata(path).is_ok_and(|found| !found.is_file()) {
            return Err(Error::NoFile);
        }
        let file = match options.open(path) {
            Ok(file) => file,
            Err(error) if error.kind() == ErrorKind::NotFound => return Ok(None),
            Err(error) => return Err(refusal(error)),
        };
        let (file, found) = lock(file)?;
        if fs::metadata(path).is_ok_and(|present| are_one_file(&present, &found)) {
            return Ok(Some((file, found)));
        }
        // another file took its place before it was locked
    }
    Err(is_taken())
}

/// That a name led to another file each time that one was locked.
pub(super) fn is_taken() -> Error {
    Error::no_access(io::Error::other("other processes take its place"))
}

/// Why a file couldn't be opened.
pub(super) fn refusal(error: io::Error) -> Error {
    match error.kind() {
        ErrorKind::IsADirectory => Error::NoFile,
        _ => Error::no_access(error),
    }
}

/// Locks a file, and answers what the system says of it behind the lock.
pub(super) fn lock(file: File) -> Result<(Locked, Metadata), Error> {
    let found = file.metadata().map_err(Error::read)?;
    if !found.is_file() {
        return Err(Error::NoFile);
    }
    match file.try_lock() {
        Ok(()) => {}
        Err(TryLockError::WouldBlock) => return Err(Error::Held),
        Err(TryLockError::Error(error)) => return Err(Error::no_access(error)),
    }
    let process = process::id();
    let file = Locked(Arc::new(Open {
        file,
        process,
        keeps_room: AtomicBool::new(false),
        puts_syncs_off: AtomicBool::new(false),
        is_unlocked: AtomicBool::new(false),
    }));
    // it may have grown before
    let found = file.metadata()?;
    Ok((file, found))
}

/// Whether both tell of the same file.
pub(super) fn are_one_file(one: &Metadata, other: &Metadata) -> bool {
    (one.dev(), one.ino()) == (other.dev(), other.ino())
}
