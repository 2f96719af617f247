//! Space that comes back by itself.

use super::Db;
use crate::cache::Cache;
use crate::error::Error;

/// When a [`Db::flush`] rewrites the file: once it has `times` as many bytes as its pages take, and its length is between two bounds.
///
/// The flush makes everything durable first, and a rewriting that fails leaves the result of the flush as it is: [`Db::rewriting_failure`]
/// returns why. It is tried again once the file has grown by half. How much the pages take is looked at each time that the file has grown by an
/// eighth.
///
/// The file is rewritten step by step, a part at each flush, which takes some milliseconds. A step also does 4 bytes of work for each byte that
/// the file grew by since the last one, so that it comes to an end. The records that make the pages are copied to a new file beside the old
/// one, `FILE.dilluvas-new`, which takes its place once it has all of them. Neither file is in memory: there are 16 bytes for each page, and 16
/// for each link. The last step opens the new file and syncs it. Dropping the last [`Db`] of the file, [`Db::compact`] and a full disk end a
/// rewriting that was begun, and remove the new file.
///
/// [`Db::compact`] is proved; the steps are tested. Before the new file takes its place the library opens it, and has to find as many bytes of
/// pages in it as in the old one.
///
/// ```
/// use dilluvas::{CompactAt, Db};
///
/// # fn main() -> Result<(), dilluvas::Error> {
/// # let folder = std::env::temp_dir().join(format!("dilluvas-space-{}", std::process::id()));
/// # std::fs::create_dir(&folder).unwrap();
/// # let path = folder.join("counts");
/// let db = Db::open(&path)?;
/// // sooner than usual
/// db.set_compact_at(Some(CompactAt { times: 2, least: 1 << 16, ..CompactAt::default() }))?;
/// for count in 0..5_000u32 {
///     db.map("counts").set("visits", count.to_le_bytes())?;
///     if count % 100 == 0 {
///         db.flush()?;
///     }
/// }
/// assert!(std::fs::metadata(&path).unwrap().len() < 1 << 17);
/// # drop(db);
/// # std::fs::remove_dir_all(&folder).unwrap();
/// # Ok(())
/// # }
/// ```
#[derive(Clone, Copy, Debug, PartialEq, Eq)]
pub struct CompactAt {
    /// How many times the bytes that the pages take: at least 2, and a smaller number counts as 2.
    pub times: u64,
    /// A shorter file stays as it is.
    pub least: u64,
    /// A longer file stays as it is.
    pub most: u64,
    /// About how many bytes one flush reads and writes for it, or 0: one flush does all of it, as [`Db::compact`] does.
    pub step: u64,
}

impl Default for CompactAt {
    fn default() -> CompactAt {
        CompactAt {
            times: 4,
            least: 16 << 20,
            most: u64::MAX,
            step: 4 << 20,
        }
    }
}

impl Db {
    /// Sets when a flush rewrites the file, for all clones of this `Db`, until it is opened again: never if that is `None`. The default is
    /// `CompactAt::default()`. A rewriting that was begun ends, and the new file is removed. In memory and on a device nothing is rewritten but
    /// by [`compact`](Db::compact) and [`compact_to`](Db::compact_to).
    ///
    /// ```
    /// use dilluvas::{Db, Error};
    ///
    /// fn open_without_pauses(path: &str) -> Result<Db, Error> {
    ///     let db = Db::open(path)?;
    ///     db.set_compact_at(None)?;
    ///     Ok(db)
    /// }
    /// ```
    ///
    /// # Errors
    ///
    /// [`Reentrant`](Error::Reentrant), [`Held`](Error::Held) in a child that was forked.
    pub fn set_compact_at(&self, compact_at: Option<CompactAt>) -> Result<(), Error> {
        let mut store = self.shared.lock()?;
        store.space = Space::new(compact_at);
        store.cache.end_rewriting();
        Ok(())
    }

    /// Returns why the last rewriting by a [`flush`](Db::flush) failed, or `None` if none has failed since the file was opened, or since a
    /// rewriting replaced it: one by a flush, [`compact`](Db::compact) or [`compact_to`](Db::compact_to).
    ///
    /// The flush itself succeeded: all changes are durable, and the maps are what they were. But the file grows until a rewriting succeeds, so
    /// a program may look at this after a flush, and tell its user. The rewriting is tried again once the file has grown by half.
    ///
    /// The error is that of [`compact`](Db::compact), with the system's error as its [`source`](std::error::Error::source) if there is one.
    /// Among others: [`DiskFull`](Error::DiskFull) if the disk has too little room to begin, or a change took the room of the new file;
    /// [`NoAccess`](Error::NoAccess), [`NoFile`](Error::NoFile) and [`Held`](Error::Held) if the folder takes no new file, or the path no
    /// longer leads to the file; [`LogFull`](Error::LogFull) if so much was changed meanwhile that the new file became too long;
    /// [`Corruption`](Error::Corruption) if the new file has other pages than the old one, or the old one is damaged;
    /// [`Write`](Error::Write), which later calls fail with too if the folder couldn't be synced.
    ///
    /// A `compact` that fails returns its error and changes nothing here. In memory and on a device this is always `None`.
    ///
    /// ```
    /// use dilluvas::{Db, Error};
    ///
    /// fn save(db: &Db) -> Result<(), Error> {
    ///     db.flush()?;
    ///     if let Some(error) = db.rewriting_failure()? {
    ///         eprintln!("all is saved, but the file can't be made shorter: {error}");
    ///     }
    ///     Ok(())
    /// }
    /// # save(&Db::in_memory()?)?;
    /// # Ok::<(), Error>(())
    /// ```
    ///
    /// # Errors
    ///
    /// [`Reentrant`](Error::Reentrant), [`Held`](Error::Held) in a child that was forked.
    pub fn rewriting_failure(&self) -> Result<Option<Error>, Error> {
        Ok(self.shared.lock()?.cache.rewriting_failure())
    }
}

/// When a cache is rewritten.
pub struct Space {
    compact_at: Option<CompactAt>,
    // How long its file is when it is looked at next.
    next_look: u64,
    // How long its file was at the last step of a rewriting.
    stepped_at: u64,
}

impl Default for Space {
    fn default() -> Space {
        Space::new(Some(CompactAt::default()))
    }
}

impl Space {
    fn new(compact_at: Option<CompactAt>) -> Space {
        Space {
            compact_at,
            next_look: 0,
            stepped_at: 0,
        }
    }

    /// Rewrites the file of a cache, of which nothing is pending, or takes a step of that, if it is time to. Whatever fails, the cache goes on,
    /// unless its next call returns the error.
    pub fn give_back(&mut self, cache: &mut Cache) {
        if let Some(compact_at) = self.compact_at
            && cache.has_file()
            && let Err(failure) = self.look(compact_at, cache)
        {
            cache.give_up_rewriting(failure);
        }
    }

    fn look(&mut self, compact_at: CompactAt, cache: &mut Cache) -> Result<(), Error> {
        let size = cache.size()?;
        if !cache.is_rewriting() {
            let Some(live) = self.live_if_time(compact_at, cache, size)? else {
                return Ok(());
            };
            if compact_at.step == 0 {
                cache.compact()?;
                self.look_later(cache.size()?);
                return Ok(());
            }
            cache.begin_rewriting(size, live)?;
            self.stepped_at = size;
        }
        // it has to be faster than what is written
        let grown = size.saturating_sub(self.stepped_at).saturating_mul(4);
        self.stepped_at = size;
        if cache.rewrite_step(compact_at.step.saturating_add(grown))? {
            self.look_later(cache.size()?);
        }
        Ok(())
    }

    // The bytes that the pages take, if a file of so many bytes is to be rewritten. It is looked at again once it has grown by an eighth, or, where a rewriting of it
    // fails, by half.
    fn live_if_time(
        &mut self,
        compact_at: CompactAt,
        cache: &mut Cache,
        size: u64,
    ) -> Result<Option<u64>, Error> {
        let CompactAt {
            times, least, most, ..
        } = compact_at;
        if size < self.next_look || !(least..=most).contains(&size) {
            return Ok(None);
        }
        let live = cache.live_bytes()?;
        if size < live.saturating_mul(times.max(2)) {
            self.next_look = size.saturating_add(size / 8);
            return Ok(None);
        }
        self.look_later(size);
        Ok(Some(live))
    }

    fn look_later(&mut self, size: u64) {
        self.next_look = size.saturating_add(size / 2);
    }
}
