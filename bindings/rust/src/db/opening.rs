//! Opening maps in a file, in memory or on a device.

use super::Db;
use super::shared::Shared;
use crate::cache::Cache;
use crate::device::Device;
use crate::error::Error;
use crate::settings::{FileSettings, Settings};
use std::path::Path;
use std::sync::Arc;

impl Db {
    /// Opens the maps in a file, which is created if it is missing or empty. The file is locked until the `Db` is dropped.
    ///
    /// ```
    /// use dilluvas::{Db, Error};
    ///
    /// # fn main() -> Result<(), Error> {
    /// # let folder = std::env::temp_dir().join(format!("dilluvas-db-{}", std::process::id()));
    /// # std::fs::create_dir(&folder).unwrap();
    /// # let path = folder.join("fruit");
    /// let db = Db::open(&path)?;
    /// db.map("fruit").insert("lime", "green")?;
    /// db.flush()?;
    /// assert_eq!(Db::open(&path).unwrap_err(), Error::Held);
    /// drop(db);
    ///
    /// let db = Db::open(&path)?;
    /// assert_eq!(db.map("fruit").get("lime")?, Some(b"green".to_vec()));
    /// # drop(db);
    /// # std::fs::remove_dir_all(&folder).unwrap();
    /// # Ok(())
    /// # }
    /// ```
    ///
    /// # Errors
    ///
    /// As for [`Cache::open`]: [`NoFile`](Error::NoFile), [`NoAccess`](Error::NoAccess), [`Held`](Error::Held);
    /// [`Corruption`](Error::Corruption) if no cache wrote the file; [`Read`](Error::Read), [`Write`](Error::Write),
    /// [`OutOfMemory`](Error::OutOfMemory), [`LogFull`](Error::LogFull).
    pub fn open(path: impl AsRef<Path>) -> Result<Db, Error> {
        Db::open_with(path, &FileSettings::default())
    }

    /// Like [`open`](Db::open), with these settings instead of the defaults.
    ///
    /// ```
    /// use dilluvas::{Db, Error, FileSettings};
    ///
    /// # let folder = std::env::temp_dir().join(format!("dilluvas-with-{}", std::process::id()));
    /// # std::fs::create_dir(&folder).unwrap();
    /// # let path = folder.join("fruit");
    /// // half a gigabyte of pages in memory
    /// let settings = FileSettings { cache_capacity: 1 << 29, ..FileSettings::default() };
    /// let db = Db::open_with(&path, &settings)?;
    /// # drop(db);
    /// # std::fs::remove_dir_all(&folder).unwrap();
    /// # Ok::<(), Error>(())
    /// ```
    ///
    /// # Errors
    ///
    /// As for [`open`](Db::open), and [`CapacityTooSmall`](Error::CapacityTooSmall), [`IntervalZero`](Error::IntervalZero),
    /// [`SegmentZero`](Error::SegmentZero).
    pub fn open_with(path: impl AsRef<Path>, settings: &FileSettings) -> Result<Db, Error> {
        Cache::open(path, settings).map(Db::of)
    }

    /// Opens the maps in an existing file: it creates no file, and fills no empty one. Otherwise it is like [`open`](Db::open).
    ///
    /// ```
    /// use dilluvas::{Db, Error};
    ///
    /// # let folder = std::env::temp_dir().join(format!("dilluvas-db-existing-{}", std::process::id()));
    /// # std::fs::create_dir(&folder).unwrap();
    /// # let path = folder.join("fruit");
    /// let absent = Db::open_existing(&path);
    /// assert!(matches!(absent, Err(Error::NoAccess(_))));
    /// assert!(!path.exists());
    /// # std::fs::remove_dir_all(&folder).unwrap();
    /// # Ok::<(), Error>(())
    /// ```
    ///
    /// # Errors
    ///
    /// As for [`open`](Db::open): [`NoAccess`](Error::NoAccess) if there is no file, and [`Corruption`](Error::Corruption) if it is empty.
    pub fn open_existing(path: impl AsRef<Path>) -> Result<Db, Error> {
        Db::open_existing_with(path, &FileSettings::default())
    }

    /// Like [`open_existing`](Db::open_existing), with these settings instead of the defaults.
    ///
    /// # Errors
    ///
    /// As for [`open_existing`](Db::open_existing), and [`CapacityTooSmall`](Error::CapacityTooSmall), [`IntervalZero`](Error::IntervalZero),
    /// [`SegmentZero`](Error::SegmentZero).
    pub fn open_existing_with(
        path: impl AsRef<Path>,
        settings: &FileSettings,
    ) -> Result<Db, Error> {
        Cache::open_existing(path, settings).map(Db::of)
    }

    /// Opens a store in memory that has no maps yet. Nothing is left of it once the `Db` is dropped.
    ///
    /// ```
    /// use dilluvas::{Db, Error};
    ///
    /// let db = Db::in_memory()?;
    /// assert!(db.map_names()?.is_empty());
    /// # Ok::<(), Error>(())
    /// ```
    ///
    /// # Errors
    ///
    /// [`OutOfMemory`](Error::OutOfMemory).
    pub fn in_memory() -> Result<Db, Error> {
        Db::in_memory_with(&Settings::default())
    }

    /// Like [`in_memory`](Db::in_memory), with these settings instead of the defaults.
    ///
    /// ```
    /// use dilluvas::{Db, Error, Settings};
    ///
    /// let settings = Settings { cache_capacity: 1 << 29, ..Settings::default() };
    /// let db = Db::in_memory_with(&settings)?;
    /// # Ok::<(), Error>(())
    /// ```
    ///
    /// # Errors
    ///
    /// [`CapacityTooSmall`](Error::CapacityTooSmall), [`IntervalZero`](Error::IntervalZero), [`SegmentZero`](Error::SegmentZero);
    /// [`OutOfMemory`](Error::OutOfMemory).
    pub fn in_memory_with(settings: &Settings) -> Result<Db, Error> {
        Cache::in_memory(settings).map(Db::of)
    }

    /// Opens the maps on a device; one of no bytes is given an empty log. Nobody else may write to the device. See [`Cache::on_device`] for an
    /// example of one.
    ///
    /// ```
    /// use dilluvas::{Db, Device, Error, FileSettings};
    ///
    /// fn count_maps(device: impl Device + 'static) -> Result<usize, Error> {
    ///     let db = Db::on_device(device, &FileSettings::default())?;
    ///     Ok(db.map_names()?.len())
    /// }
    /// ```
    ///
    /// # Errors
    ///
    /// As for [`Cache::on_device`].
    pub fn on_device(device: impl Device + 'static, settings: &FileSettings) -> Result<Db, Error> {
        Cache::on_device(device, settings).map(Db::of)
    }

    fn of(cache: Cache) -> Db {
        Db {
            shared: Arc::new(Shared::new(cache)),
        }
    }
}

/// Gives access to the maps on the pages of a cache that is already open.
///
/// ```
/// use dilluvas::{Cache, Db, Error, Settings};
///
/// let mut cache = Cache::in_memory(&Settings::default())?;
/// assert_eq!(cache.root("fruit")?, None);
/// let db = Db::from(cache);
/// db.map("fruit").insert("lime", "green")?;
/// # Ok::<(), Error>(())
/// ```
impl From<Cache> for Db {
    fn from(cache: Cache) -> Db {
        Db::of(cache)
    }
}
