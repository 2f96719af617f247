//! An open cache.

mod log;
mod names;
mod pages;
mod rewriting;
mod steps;

use crate::device::{Attached, Device};
use crate::error::{Error, done};
use crate::file;
use crate::settings::{FileSettings, Settings};
use crate::sys;
use std::fmt;
use std::path::Path;
use steps::Steps;

/// An open cache. It is closed where it is dropped, and nothing is flushed then.
///
/// A page holds pairs of a key and a value, and has a stamp that each change raises by one. A change names the [`Token`](crate::Token) that
/// it expects, and answers by a [`Swap`](crate::Swap) whether the page had it.
///
/// # Errors
///
/// A method that answers an error has changed nothing, unless it says otherwise. There are two of which this isn't all:
///
/// - [`Error::Write`]: a write or a sync of the device failed, in this call or in an earlier one. Every later call answers so too, until the
///   device is opened again: then all that was flushed is there, and of what came behind it a part may be.
/// - [`Error::Read`] and [`Error::OutOfMemory`]: the call may be made again.
///
/// Over a file each change answers [`Error::DiskFull`] where the disk has no room for it: it isn't begun, all that was changed before can be
/// read and flushed, and changes go on once there is room. For that room is kept behind the end of the file, for a segment and for what a
/// change may write, and goes back where the file is closed. Where the file system keeps none (`fallocate`), or a page has longer pairs than
/// all that this opening was given, a disk that is full is a write that fails.
///
/// A cache in memory answers neither `Write` nor `Read` nor [`Error::Corruption`].
pub struct Cache {
    // it is closed before the device is
    handle: sys::Handle,
    attached: Option<Attached>,
    place: Place,
    // How many bytes the longest change of this opening was given.
    longest: usize,
    // The rewriting that was begun, which is ended first.
    steps: Option<Box<Steps>>,
    // Why the last one was given up. The cache over a file that took the place of another has none.
    failure: Option<Error>,
}

// A change may write pages of several pairs, which a leaf has some tens of, beside what it is given.
const PAIRS_OF_A_LEAF: u64 = 40;
const LEAST_ROOM: u64 = 1 << 16;
// Neither a key nor a value has more bytes.
const LONGEST: usize = i32::MAX as usize;

// Where a cache lies, and with which settings: what a new log for it is made from.
enum Place {
    Memory(Settings),
    Device(FileSettings),
    File(FileSettings, file::Place),
}

impl Cache {
    /// Opens a cache over a new log in memory. Nothing is left of it once it is dropped.
    ///
    /// ```
    /// use dilluvas::{Cache, Error, Settings};
    ///
    /// let cache = Cache::in_memory(&Settings::default())?;
    /// let settings = Settings { cache_capacity: 255, ..Settings::default() };
    /// assert_eq!(Cache::in_memory(&settings).unwrap_err(), Error::CapacityTooSmall);
    /// # Ok::<(), Error>(())
    /// ```
    ///
    /// # Errors
    ///
    /// [`CapacityTooSmall`](Error::CapacityTooSmall), [`IntervalZero`](Error::IntervalZero), [`SegmentZero`](Error::SegmentZero);
    /// [`OutOfMemory`](Error::OutOfMemory).
    pub fn in_memory(settings: &Settings) -> Result<Cache, Error> {
        let mut handle = sys::Handle::CLOSED;
        done(handle.open_memory(settings))?;
        Ok(Cache {
            handle,
            attached: None,
            place: Place::Memory(*settings),
            longest: 0,
            steps: None,
            failure: None,
        })
    }

    /// Opens a cache over a file, which is locked until the cache is dropped. One that is absent or empty is made: with `.dilluvas-new`
    /// behind its name until it is whole and durable, so a crash leaves it whole or as it was. It has the owner and the mode of the empty one,
    /// and a link to that stays. None is made where a link leads to no file. What another process puts at the path meanwhile is never written
    /// over: it is opened, or held. Where the file system has no hard links an absent file is empty for a moment, and a crash may leave it so.
    ///
    /// A child that was forked has the file of its parent too. It is the parent's: in the child no call writes, syncs or reads it, which is
    /// answered by [`Write`](Error::Write) and [`Read`](Error::Read), and it stays locked where the child drops the cache. So a program that
    /// becomes a daemon opens it behind that.
    ///
    /// ```
    /// use dilluvas::{Cache, Error, FileSettings};
    ///
    /// # let folder = std::env::temp_dir().join(format!("dilluvas-open-{}", std::process::id()));
    /// # std::fs::create_dir(&folder).unwrap();
    /// # let path = folder.join("pages");
    /// let mut cache = Cache::open(&path, &FileSettings::default())?;
    /// let token = cache.allocate([("key", "value")])?;
    /// cache.flush()?;
    /// let held = Cache::open(&path, &FileSettings::default());
    /// assert_eq!(held.unwrap_err(), Error::Held);
    /// drop(cache);
    ///
    /// let mut cache = Cache::open(&path, &FileSettings::default())?;
    /// let page = cache.get(token.page)?.expect("it was flushed");
    /// assert_eq!(page.get("key"), Some(&b"value"[..]));
    /// # drop(cache);
    /// # std::fs::remove_dir_all(&folder).unwrap();
    /// # Ok::<(), Error>(())
    /// ```
    ///
    /// # Errors
    ///
    /// [`NoFile`](Error::NoFile), [`NoAccess`](Error::NoAccess), [`Held`](Error::Held), and those of [`on_device`](Cache::on_device). What
    /// the file holds is as it was then. [`Write`](Error::Write) comes too where the folder could not be synced, whether the file was made or
    /// found: a crash may take it away again.
    pub fn open(path: impl AsRef<Path>, settings: &FileSettings) -> Result<Cache, Error> {
        let (mut cache, place) =
            file::open_or_make(path.as_ref(), |file| Cache::on_device(file, settings))?;
        cache.place = Place::File(*settings, place);
        Ok(cache)
    }

    /// Opens a cache over a file that is there: none is made, and no empty one is filled. Else it is as [`open`](Cache::open).
    ///
    /// ```
    /// use dilluvas::{Cache, Error, FileSettings};
    ///
    /// # let folder = std::env::temp_dir().join(format!("dilluvas-existing-{}", std::process::id()));
    /// # std::fs::create_dir(&folder).unwrap();
    /// # let path = folder.join("pages");
    /// let absent = Cache::open_existing(&path, &FileSettings::default());
    /// assert!(matches!(absent, Err(Error::NoAccess(_))));
    /// assert!(!path.exists());
    /// # std::fs::remove_dir_all(&folder).unwrap();
    /// # Ok::<(), Error>(())
    /// ```
    ///
    /// # Errors
    ///
    /// As of [`open`](Cache::open): [`NoAccess`](Error::NoAccess) where there is no file, and [`Corruption`](Error::Corruption) where it is
    /// empty.
    pub fn open_existing(path: impl AsRef<Path>, settings: &FileSettings) -> Result<Cache, Error> {
        let (mut cache, place) =
            file::open_existing(path.as_ref(), |file| Cache::on_device(file, settings))?;
        cache.place = Place::File(*settings, place);
        Ok(cache)
    }

    /// Opens a cache over a device, of which one of no bytes is given an empty log. Nobody else writes to it.
    ///
    /// A device whose making was cut short by a crash may not open: [`open`](Cache::open) gives a file its name once it is made.
    ///
    /// ```
    /// use dilluvas::{Cache, Device, Error, FileSettings};
    /// use std::io;
    /// use std::sync::{Arc, Mutex};
    ///
    /// // Bytes in memory, which are kept beside the cache.
    /// #[derive(Clone, Default)]
    /// struct Bytes(Arc<Mutex<Vec<u8>>>);
    ///
    /// impl Device for Bytes {
    ///     fn size(&mut self) -> io::Result<u64> {
    ///         Ok(self.0.lock().unwrap().len() as u64)
    ///     }
    ///
    ///     fn read_at(&mut self, at: u64, into: &mut [u8]) -> io::Result<()> {
    ///         let bytes = self.0.lock().unwrap();
    ///         let found = bytes.get(at as usize..).and_then(|rest| rest.get(..into.len()));
    ///         into.copy_from_slice(found.ok_or(io::ErrorKind::UnexpectedEof)?);
    ///         Ok(())
    ///     }
    ///
    ///     fn write_at(&mut self, at: u64, bytes: &[u8]) -> io::Result<()> {
    ///         let (at, mut present) = (at as usize, self.0.lock().unwrap());
    ///         let end = present.len().max(at + bytes.len());
    ///         present.resize(end, 0);
    ///         present[at..at + bytes.len()].copy_from_slice(bytes);
    ///         Ok(())
    ///     }
    ///
    ///     fn sync(&mut self) -> io::Result<()> {
    ///         Ok(())
    ///     }
    /// }
    ///
    /// # fn main() -> Result<(), Error> {
    /// let device = Bytes::default();
    /// let mut cache = Cache::on_device(device.clone(), &FileSettings::default())?;
    /// let token = cache.allocate([("key", "value")])?;
    /// cache.flush()?;
    /// drop(cache);
    /// let mut cache = Cache::on_device(device, &FileSettings::default())?;
    /// assert!(cache.get(token.page)?.is_some());
    /// # Ok(())
    /// # }
    /// ```
    ///
    /// # Errors
    ///
    /// [`CapacityTooSmall`](Error::CapacityTooSmall), [`IntervalZero`](Error::IntervalZero), [`SegmentZero`](Error::SegmentZero);
    /// [`Read`](Error::Read), [`Write`](Error::Write), [`OutOfMemory`](Error::OutOfMemory); [`Corruption`](Error::Corruption) where no cache
    /// wrote the bytes; [`LogFull`](Error::LogFull).
    pub fn on_device(
        device: impl Device + 'static,
        settings: &FileSettings,
    ) -> Result<Cache, Error> {
        let mut cache = Cache::closed_on(Box::new(device), settings)?;
        let len = cache.end();
        cache.call(|handle| handle.open_file(settings, len))?;
        Ok(cache)
    }

    // One that isn't open yet, on a device.
    fn closed_on(device: Box<dyn Device>, settings: &FileSettings) -> Result<Cache, Error> {
        Ok(Cache {
            handle: sys::Handle::CLOSED,
            attached: Some(Attached::new(device)?),
            place: Place::Device(*settings),
            longest: 0,
            steps: None,
            failure: None,
        })
    }

    // How many bytes its device has.
    fn end(&self) -> u64 {
        self.attached.as_ref().map_or(0, Attached::end)
    }

    // Whether it lies over a file that it can rewrite, and not over that of a parent process.
    pub(crate) fn has_file(&self) -> bool {
        matches!(&self.place, Place::File(_, place) if place.is_ours())
    }

    // Makes a call that changes pages, and is given so many bytes. There is room then for what it writes and for all that is pending, so that
    // a disk that is full refuses the call before it is made.
    pub(crate) fn change(
        &mut self,
        len: usize,
        call: impl FnMut(&mut sys::Handle) -> u32,
    ) -> Result<u32, Error> {
        // the call itself tells that a key or a value is too long
        if len <= LONGEST {
            let longest = self.longest.max(len);
            let pairs = (longest as u64).saturating_mul(PAIRS_OF_A_LEAF);
            let most = (longest as u64).saturating_mul(4);
            // the pages have no more bytes than the log, and a change writes none of them more than twice
            self.keep_room(|log| pairs.min(log.saturating_mul(2).saturating_add(most)))?;
            self.longest = longest;
        }
        self.on(call)
    }

    // Keeps room for so many bytes as are wanted where the log has so many, with all that is pending, which is less than a segment.
    pub(crate) fn keep_room(&mut self, wanted: impl FnOnce(u64) -> u64) -> Result<(), Error> {
        let (Some(attached), Place::Device(settings) | Place::File(settings, _)) =
            (&mut self.attached, &self.place)
        else {
            return Ok(());
        };
        let mut size = 0;
        if self.handle.size(&mut size) != sys::OK {
            // the call itself says why
            return Ok(());
        }
        let log = size.saturating_add(settings.segment_size as u64);
        let room = wanted(log).saturating_add(LEAST_ROOM);
        let end = log.saturating_add(room);
        match attached.keep_room(end) {
            // what the rewriting wrote takes room too
            Err(full @ Error::DiskFull(_)) if self.steps.take().is_some() => {
                self.failure = Some(full);
                attached.keep_room(end)
            }
            kept => kept,
        }
    }

    // Makes a call until it is answered: over a device what it wants of that is done between. What is no error is answered by its status.
    pub(crate) fn on(
        &mut self,
        mut call: impl FnMut(&mut sys::Handle) -> u32,
    ) -> Result<u32, Error> {
        loop {
            let status = call(&mut self.handle);
            let answer = match &mut self.attached {
                Some(attached) => attached.settle(&mut self.handle, status)?,
                None => Some(status),
            };
            match answer {
                Some(answer @ (sys::OK | sys::STALE | sys::GONE | sys::NONE | sys::SHORT)) => {
                    return Ok(answer);
                }
                Some(refused) => return Err(Error::of(refused)),
                None => {}
            }
        }
    }

    // Makes one that has no answer but that it was done.
    pub(crate) fn call(&mut self, call: impl FnMut(&mut sys::Handle) -> u32) -> Result<(), Error> {
        done(self.on(call)?)
    }
}

impl fmt::Debug for Cache {
    fn fmt(&self, f: &mut fmt::Formatter<'_>) -> fmt::Result {
        f.debug_struct("Cache").finish_non_exhaustive()
    }
}
