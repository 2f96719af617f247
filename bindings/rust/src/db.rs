//! Named ordered maps, in a file or in memory, for many threads.

mod batch;
mod opening;
mod shared;
mod space;

pub use batch::{DbBatch, NotSealed};
pub use space::CompactAt;

use crate::device::Device;
use crate::error::Error;
use crate::map::{Access, Calls, Map, Sealed};
use shared::{Shared, Store};
use std::fmt;
use std::sync::Arc;

/// Named ordered maps from bytes to bytes, in a file or in memory.
///
/// A clone refers to the same maps, and threads can share them: each call takes the lock for itself, and [`batch`](Db::batch) takes it for many
/// calls. The file is closed and unlocked when the last clone, [`Map`] and [`Iter`](crate::Iter) of it are dropped.
///
/// Changes for which [`flush`](Db::flush) has returned `Ok` survive the end of the process and a crash. The file is also flushed when the last
/// clone, `Map` or `Iter` is dropped, unless the thread is panicking, but an error of that flush is not reported, so **call `flush` if you need
/// to know**. If the process ends in any other way, a prefix of the changes after the last flush is there, or none of them.
///
/// The file grows with each change until it is rewritten: by a [`flush`](Db::flush) that finds much of it obsolete, as [`CompactAt`] says, or
/// by [`compact`](Db::compact).
///
/// A forked child neither reads nor writes its parent's file, as [`Cache::open`](crate::Cache::open) says, and dropping a `Db` in the child
/// does nothing to the file.
///
/// ```
/// use dilluvas::{Db, Error};
/// use std::thread;
///
/// # fn main() -> Result<(), Error> {
/// let db = Db::in_memory()?;
/// thread::scope(|scope| {
///     for name in ["anna", "bert"] {
///         let users = db.map("users");
///         scope.spawn(move || users.set(name, "present"));
///     }
/// });
/// assert_eq!(db.map("users").len()?, 2);
/// # Ok(())
/// # }
/// ```
///
/// # Errors
///
/// A call that returns an error has changed nothing, unless its documentation says otherwise. For two kinds of errors there is more to say:
///
/// - [`Error::Write`]: a write or a sync failed, in this call or in an earlier one. Every later call fails with it too, until the file is
///   reopened: then everything that was flushed is there, and a part of what came after it may be.
/// - [`Error::Read`] and [`Error::OutOfMemory`]: the call may be retried.
///
/// Over a file each change fails with [`Error::DiskFull`] if the disk has no room for it. The change isn't begun, all earlier changes can be
/// read and flushed, and changes can be made again once there is room. To that end, room for a segment and for what a change may write is
/// reserved after the end of the file, and is released when the file is closed. If the file system can't reserve room (`fallocate`), or a page
/// has longer pairs than any that this opening was given, a full disk makes a write fail.
///
/// Any call fails with [`Error::Reentrant`] if this thread is inside another call of the same `Db`, such as in the closure of
/// [`batch`](Db::batch).
#[derive(Clone)]
pub struct Db {
    shared: Arc<Shared>,
}

impl Db {
    /// Returns the map with this name, which can be any bytes. A map that does not exist yet is empty, and is created when a value is set in
    /// it.
    ///
    /// ```
    /// use dilluvas::{Db, Error};
    ///
    /// let db = Db::in_memory()?;
    /// let fruit = db.map("fruit");
    /// assert!(fruit.is_empty()? && db.map_names()?.is_empty());
    /// fruit.insert("lime", "green")?;
    /// assert_eq!(db.map_names()?, [b"fruit"]);
    /// # Ok::<(), Error>(())
    /// ```
    pub fn map(&self, name: impl AsRef<[u8]>) -> Map {
        Map::new(self.clone(), name.as_ref())
    }

    /// Returns the names of the maps, in byte order. A map whose pairs were all removed is there until it is dropped.
    ///
    /// ```
    /// use dilluvas::{Db, Error};
    ///
    /// let db = Db::in_memory()?;
    /// for name in ["pears", "apples"] {
    ///     db.map(name).insert("k", "v")?;
    /// }
    /// assert_eq!(db.map_names()?, [b"apples".to_vec(), b"pears".to_vec()]);
    /// # Ok::<(), Error>(())
    /// ```
    ///
    /// # Errors
    ///
    /// [`OutOfMemory`](Error::OutOfMemory), [`Write`](Error::Write).
    pub fn map_names(&self) -> Result<Vec<Vec<u8>>, Error> {
        self.with(|calls| calls.names())
    }

    /// Removes the map with this name, with all its pairs, and returns whether there was one. A [`Map`] with that name is then empty, and
    /// setting a value in it creates a new map.
    ///
    /// It reads all pages of the map before it changes anything, and frees them afterwards: a crash leaves the map as it was, or no map.
    ///
    /// ```
    /// use dilluvas::{Db, Error};
    ///
    /// let db = Db::in_memory()?;
    /// let fruit = db.map("fruit");
    /// fruit.insert("lime", "green")?;
    /// assert!(db.drop_map("fruit")? && !db.drop_map("fruit")?);
    /// assert!(fruit.is_empty()?);
    /// # Ok::<(), Error>(())
    /// ```
    ///
    /// # Errors
    ///
    /// [`LogFull`](Error::LogFull), [`OutOfMemory`](Error::OutOfMemory), [`Read`](Error::Read), [`Write`](Error::Write),
    /// [`Corruption`](Error::Corruption).
    pub fn drop_map(&self, name: impl AsRef<[u8]>) -> Result<bool, Error> {
        self.with(|calls| calls.drop_map(name.as_ref()))
    }

    /// Returns a number that was never returned before, by any opening of the file. Numbers ascend, and an opening skips some.
    ///
    /// ```
    /// use dilluvas::{Db, Error};
    ///
    /// let db = Db::in_memory()?;
    /// let id = db.generate_id()?;
    /// // bytes in this order stand in the order of the ids
    /// db.map("jobs").set(id.to_be_bytes(), "job")?;
    /// assert!(db.generate_id()? > id);
    /// # Ok::<(), Error>(())
    /// ```
    ///
    /// # Errors
    ///
    /// [`IdsUsedUp`](Error::IdsUsedUp), [`StampUsedUp`](Error::StampUsedUp), [`LogFull`](Error::LogFull),
    /// [`OutOfMemory`](Error::OutOfMemory), [`Write`](Error::Write). No number is used up then.
    pub fn generate_id(&self) -> Result<u64, Error> {
        self.shared.lock()?.cache.generate_id()
    }

    /// Makes all changes durable, which blocks on the disk, and returns how many bytes it wrote. If much of the file is obsolete, it then
    /// rewrites the file, as [`CompactAt`] says.
    ///
    /// ```
    /// use dilluvas::{Db, Error};
    ///
    /// let db = Db::in_memory()?;
    /// db.map("fruit").insert("lime", "green")?;
    /// assert!(db.flush()? > 0);
    /// assert_eq!(db.flush()?, 0);
    /// # Ok::<(), Error>(())
    /// ```
    ///
    /// # Errors
    ///
    /// [`Write`](Error::Write).
    pub fn flush(&self) -> Result<usize, Error> {
        let mut locked = self.shared.lock()?;
        let Store { cache, space, .. } = &mut *locked;
        let written = cache.flush()?;
        space.give_back(cache);
        Ok(written)
    }

    /// Rewrites the file into a new one, without what later changes made obsolete. The new file replaces the old one, and is durable then. In
    /// memory the log is rewritten. See [`Cache::compact`](crate::Cache::compact) for more.
    ///
    /// ```
    /// use dilluvas::{Db, Error};
    ///
    /// let db = Db::in_memory()?;
    /// let counts = db.map("counts");
    /// for count in 0..100u32 {
    ///     counts.set("visits", count.to_le_bytes())?;
    /// }
    /// let before = db.size_on_disk()?;
    /// db.compact()?;
    /// assert!(db.size_on_disk()? < before);
    /// # Ok::<(), Error>(())
    /// ```
    ///
    /// # Errors
    ///
    /// As for [`Cache::compact`](crate::Cache::compact). [`NoFile`](Error::NoFile) over a device, for which there is
    /// [`compact_to`](Db::compact_to).
    pub fn compact(&self) -> Result<(), Error> {
        self.shared.lock()?.cache.compact()
    }

    /// Rewrites the maps onto another device, which must be empty, and continues on that device. The old one is dropped. Maps in memory are
    /// then on the device.
    ///
    /// ```
    /// use dilluvas::{Db, Device, Error};
    ///
    /// fn keep(db: &Db, device: impl Device + 'static) -> Result<(), Error> {
    ///     db.compact_to(device)
    /// }
    /// ```
    ///
    /// # Errors
    ///
    /// As for [`Cache::compact_to`](crate::Cache::compact_to).
    pub fn compact_to(&self, device: impl Device + 'static) -> Result<(), Error> {
        self.shared.lock()?.cache.compact_to(device)
    }

    /// Returns the size of the file, in bytes, including what is still to be written; in memory, the size of the log.
    ///
    /// ```
    /// use dilluvas::{Db, Error};
    ///
    /// let db = Db::in_memory()?;
    /// let before = db.size_on_disk()?;
    /// db.map("fruit").insert("lime", "green")?;
    /// assert!(db.size_on_disk()? > before);
    /// # Ok::<(), Error>(())
    /// ```
    ///
    /// # Errors
    ///
    /// [`Write`](Error::Write).
    pub fn size_on_disk(&self) -> Result<u64, Error> {
        self.shared.lock()?.cache.size()
    }
}

impl Access for Db {}

impl Sealed for Db {
    fn with<T>(&self, calls: impl FnOnce(&mut Calls<'_>) -> Result<T, Error>) -> Result<T, Error> {
        let mut locked = self.shared.lock()?;
        let Store { cache, room, .. } = &mut *locked;
        calls(&mut Calls::new(cache, room))
    }
}

impl fmt::Debug for Db {
    fn fmt(&self, f: &mut fmt::Formatter<'_>) -> fmt::Result {
        f.debug_struct("Db").finish_non_exhaustive()
    }
}
