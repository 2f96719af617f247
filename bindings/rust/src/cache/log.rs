//! Ids, and the whole log.

use super::{Cache, Place};
use crate::answer::Amplification;
use crate::error::{Error, done};

impl Cache {
    /// Returns a number that was never returned before. Numbers ascend, and a crash may skip some.
    ///
    /// ```
    /// use dilluvas::{Cache, Settings};
    ///
    /// # fn main() -> Result<(), dilluvas::Error> {
    /// let mut cache = Cache::in_memory(&Settings::default())?;
    /// let id = cache.generate_id()?;
    /// assert!(cache.generate_id()? > id);
    /// # Ok(())
    /// # }
    /// ```
    ///
    /// # Errors
    ///
    /// [`IdsUsedUp`](Error::IdsUsedUp); [`BatchOpen`](Error::BatchOpen) if a batch is open and a new counter is needed;
    /// [`StampUsedUp`](Error::StampUsedUp), [`LogFull`](Error::LogFull), [`OutOfMemory`](Error::OutOfMemory), [`Write`](Error::Write). No
    /// number is used up then.
    pub fn generate_id(&mut self) -> Result<u64, Error> {
        let mut id = 0;
        done(self.change(0, |handle| handle.generate_id(&mut id))?)?;
        Ok(id)
    }

    /// Makes all pending changes durable, and returns how many bytes it wrote.
    ///
    /// # Errors
    ///
    /// [`BatchOpen`](Error::BatchOpen), [`Write`](Error::Write).
    pub fn flush(&mut self) -> Result<usize, Error> {
        let mut written = 0;
        self.call(|handle| handle.flush(&mut written))?;
        Ok(written)
    }

    /// Returns the size of the log, in bytes.
    ///
    /// # Errors
    ///
    /// [`Write`](Error::Write).
    pub fn size(&mut self) -> Result<u64, Error> {
        let mut bytes = 0;
        self.call(|handle| handle.size(&mut bytes))?;
        Ok(bytes)
    }

    /// Returns how many bytes of the log the pages are made of, which is about what a rewrite leaves. It looks up the place of each page, and
    /// reads nothing.
    ///
    /// ```
    /// use dilluvas::{Cache, Settings};
    ///
    /// # fn main() -> Result<(), dilluvas::Error> {
    /// let mut cache = Cache::in_memory(&Settings::default())?;
    /// let mut token = cache.allocate([("key", "value")])?;
    /// let live = cache.live_bytes()?;
    /// for _ in 0..100 {
    ///     token = cache.replace(token, [("key", "other")])?.done().expect("the token is the page's");
    /// }
    /// // each one took the place of the one before
    /// assert_eq!(cache.live_bytes()?, live);
    /// assert!(cache.size()? > 10 * live);
    /// # Ok(())
    /// # }
    /// ```
    ///
    /// # Errors
    ///
    /// [`Write`](Error::Write).
    pub fn live_bytes(&mut self) -> Result<u64, Error> {
        let mut bytes = 0;
        self.call(|handle| handle.live(&mut bytes))?;
        Ok(bytes)
    }

    /// Returns how much space the log takes, and how much the pages would take. It reads the pages that are not in memory.
    ///
    /// Over a file it reads one page after another, as [`get`](Cache::get) does: those that were used longest ago are dropped for them within
    /// the capacity. Each page is read once, and the list of pages takes 16 bytes for each at the beginning. What is pending counts in the
    /// pages alone: the log has it once it is flushed. Nothing is changed, in an open batch either.
    ///
    /// ```
    /// use dilluvas::{Cache, Settings};
    ///
    /// # fn main() -> Result<(), dilluvas::Error> {
    /// let mut cache = Cache::in_memory(&Settings::default())?;
    /// let takes = cache.amplification()?;
    /// assert_eq!(takes.log, cache.size()?);
    /// if takes.log > 2 * takes.pages {
    ///     while cache.attempt_gc()? {}
    /// }
    /// # Ok(())
    /// # }
    /// ```
    ///
    /// # Errors
    ///
    /// [`OutOfMemory`](Error::OutOfMemory); over a file or another device [`Read`](Error::Read), [`Write`](Error::Write), and
    /// [`Corruption`](Error::Corruption) for a page that can't be read.
    pub fn amplification(&mut self) -> Result<Amplification, Error> {
        let (Place::Device(settings) | Place::File(settings, _)) = &self.place else {
            let (mut log, mut pages) = (0, 0);
            self.call(|handle| handle.amp(&mut log, &mut pages))?;
            return Ok(Amplification { log, pages });
        };
        let mut pages = settings.segment_size as u64;
        let log = self.size()?;
        for page in 0..self.page_count()? {
            pages = pages.saturating_add(self.page_size(page)?);
        }
        Ok(Amplification { log, pages })
    }

    // How many pages there are, with those that are free and the cache's own.
    fn page_count(&mut self) -> Result<u64, Error> {
        let mut pages = 0;
        self.call(|handle| handle.page_count(&mut pages))?;
        Ok(pages)
    }

    // How many bytes a page takes by its contents. One page is read at a time: a call that reads all of them would start over for each.
    fn page_size(&mut self, page: u64) -> Result<u64, Error> {
        let mut bytes = 0;
        self.call(|handle| handle.page_size(page, &mut bytes))?;
        Ok(bytes)
    }

    /// Moves the page that is due, and returns whether there was one. No page, stamp or id changes.
    ///
    /// # Errors
    ///
    /// [`NotOverFile`](Error::NotOverFile) over a file or another device, where no page is ever due, or [`Write`](Error::Write) there;
    /// [`LogFull`](Error::LogFull), [`OutOfMemory`](Error::OutOfMemory): then the page is not due again.
    pub fn attempt_gc(&mut self) -> Result<bool, Error> {
        let mut moved = false;
        self.call(|handle| handle.gc(&mut moved))?;
        Ok(moved)
    }

    /// Returns whether the log already had the cache's own pages when it was opened: a new log has none.
    ///
    /// # Errors
    ///
    /// [`Write`](Error::Write).
    pub fn was_recovered(&mut self) -> Result<bool, Error> {
        let mut recovered = false;
        self.call(|handle| handle.was_recovered(&mut recovered))?;
        Ok(recovered)
    }
}
