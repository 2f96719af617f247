//! Changes of which a crash leaves all or nothing.

use crate::cache::Cache;
use crate::error::{Error, done};
use crate::sys;
use std::ops::{Deref, DerefMut};

/// An open batch, which borrows the cache: what [`Cache::pin`] returns.
///
/// [`seal`](Batch::seal) seals it. If it is dropped before that, it is cancelled: a crash may then leave a part of it, and nothing is undone.
/// If it is neither sealed nor dropped, as with [`std::mem::forget`], it stays open.
#[derive(Debug)]
#[must_use = "a batch that is dropped is cancelled"]
pub struct Batch<'a> {
    cache: &'a mut Cache,
}

impl Cache {
    /// Opens a batch. Once it is sealed, a crash leaves all of it or nothing, and once a flush has returned `Ok`, all of it.
    ///
    /// ```
    /// use dilluvas::{Cache, Error, NO_PAIRS, Settings};
    ///
    /// # fn main() -> Result<(), Error> {
    /// let mut cache = Cache::in_memory(&Settings::default())?;
    /// let [from, to] = [cache.allocate([("gold", "7")])?, cache.allocate(NO_PAIRS)?];
    ///
    /// let mut batch = cache.pin()?;
    /// let moved = (batch.del(from, "gold")?.done(), batch.set(to, "gold", "7")?.done());
    /// assert!(moved.0.is_some() && moved.1.is_some());
    /// assert_eq!(batch.flush(), Err(Error::BatchOpen));
    /// batch.seal()?;
    /// cache.flush()?;
    ///
    /// // the changes of a batch that is dropped stand
    /// let mut batch = cache.pin()?;
    /// let token = batch.allocate([("k", "v")])?;
    /// drop(batch);
    /// assert!(cache.get(token.page)?.is_some());
    /// # Ok(())
    /// # }
    /// ```
    ///
    /// # Errors
    ///
    /// [`BatchOpen`](Error::BatchOpen), [`LogFull`](Error::LogFull), [`OutOfMemory`](Error::OutOfMemory), [`Write`](Error::Write). No batch
    /// is opened then.
    pub fn pin(&mut self) -> Result<Batch<'_>, Error> {
        done(self.change(0, sys::Handle::pin)?)?;
        Ok(Batch { cache: self })
    }
}

impl Batch<'_> {
    /// Closes the batch. From then on a crash leaves all of it or nothing, and once a flush has returned `Ok`, all of it.
    ///
    /// # Errors
    ///
    /// [`Write`](Error::Write); [`NoBatch`](Error::NoBatch) if another cache has replaced the one in which the batch was opened. The batch is
    /// closed in each case.
    pub fn seal(self) -> Result<(), Error> {
        let sealed = self.cache.call(sys::Handle::seal);
        std::mem::forget(self);
        sealed
    }
}

impl Deref for Batch<'_> {
    type Target = Cache;

    fn deref(&self) -> &Cache {
        self.cache
    }
}

impl DerefMut for Batch<'_> {
    fn deref_mut(&mut self) -> &mut Cache {
        self.cache
    }
}

impl Drop for Batch<'_> {
    fn drop(&mut self) {
        // a write that fails is answered by each later call
        let _ = self.cache.call(sys::Handle::cancel);
    }
}
