//! Changes of maps of which a crash leaves all or nothing.

use super::Db;
use super::shared::Store;
use crate::batch::Batch;
use crate::error::Error;
use crate::map::{Access, Calls, Map, Sealed};
use std::cell::RefCell;
use std::fmt;

impl Db {
    /// Makes changes in any maps, of which a crash leaves all or nothing, and all once a [`flush`](Db::flush) has returned `Ok`. No other
    /// thread sees a part of them.
    ///
    /// The batch is sealed when the closure returns `Ok`. **Nothing is ever undone**: if the closure returns an error, or panics, the changes
    /// that it made remain, and a crash may leave a part of them. So make all checks in a batch before its first change. See [`NotSealed`].
    ///
    /// The closure runs under the lock: other threads wait until it ends. It makes its calls through the maps of the batch. In the closure a
    /// call of the [`Db`] or of one of its maps fails with [`Reentrant`](Error::Reentrant), and the closure must not wait for a thread that
    /// makes such a call.
    ///
    /// ```
    /// use dilluvas::{Db, Error};
    ///
    /// # fn main() -> Result<(), Error> {
    /// let db = Db::in_memory()?;
    /// let accounts = db.map("accounts");
    /// accounts.set("anna", [70])?;
    ///
    /// // moves some gold, and answers whether there was so much
    /// let moved = |gold: u8| {
    ///     db.batch(|batch| {
    ///         let accounts = batch.map("accounts");
    ///         let anna = accounts.get("anna")?.map_or(0, |bytes| bytes[0]);
    ///         let bert = accounts.get("bert")?.map_or(0, |bytes| bytes[0]);
    ///         let Some(left) = anna.checked_sub(gold) else {
    ///             return Ok(false);
    ///         };
    ///         accounts.set("anna", [left])?;
    ///         accounts.set("bert", [bert + gold])?;
    ///         batch.map("moves").set("anna to bert", [gold])?;
    ///         Ok(true)
    ///     })
    /// };
    /// assert!(moved(20)? && !moved(60)?);
    /// assert_eq!(accounts.get("bert")?, Some(vec![20]));
    ///
    /// // what came before an error stands
    /// let refused = db.batch(|batch| {
    ///     batch.map("accounts").set("carl", [1])?;
    ///     db.flush() // is for behind the batch
    /// });
    /// assert_eq!(refused.unwrap_err().error, Error::Reentrant);
    /// assert!(accounts.contains_key("carl")?);
    /// # Ok(())
    /// # }
    /// ```
    ///
    /// # Errors
    ///
    /// The error of the closure. Before the closure is called: [`Reentrant`](Error::Reentrant), [`BatchOpen`](Error::BatchOpen),
    /// [`LogFull`](Error::LogFull), [`OutOfMemory`](Error::OutOfMemory) and [`Write`](Error::Write); after it: [`Write`](Error::Write).
    pub fn batch<T>(
        &self,
        changes: impl FnOnce(&DbBatch<'_>) -> Result<T, Error>,
    ) -> Result<T, NotSealed> {
        let mut locked = self.shared.lock()?;
        let Store { cache, room, .. } = &mut *locked;
        let batch = cache.pin()?;
        let batch = DbBatch {
            open: RefCell::new(Open { batch, room }),
        };
        let answer = changes(&batch)?;
        batch.open.into_inner().batch.seal()?;
        Ok(answer)
    }
}

/// An open batch of a [`Db`], which holds its lock: what the closure of [`Db::batch`] is given.
///
/// ```
/// use dilluvas::{Db, DbBatch, Error};
///
/// fn rename(batch: &DbBatch<'_>, from: &str, to: &str) -> Result<bool, Error> {
///     let files = batch.map("files");
///     let Some(file) = files.remove(from)? else {
///         return Ok(false);
///     };
///     files.set(to, file)?;
///     Ok(true)
/// }
///
/// let db = Db::in_memory()?;
/// db.map("files").set("draft", "text")?;
/// assert!(db.batch(|batch| rename(batch, "draft", "final"))?);
/// # Ok::<(), Error>(())
/// ```
pub struct DbBatch<'a> {
    open: RefCell<Open<'a>>,
}

struct Open<'a> {
    batch: Batch<'a>,
    room: &'a mut Vec<u8>,
}

impl<'a> DbBatch<'a> {
    /// Returns the map with this name, as [`Db::map`] does. Its calls belong to the batch.
    ///
    /// ```
    /// use dilluvas::{Db, Error};
    ///
    /// let db = Db::in_memory()?;
    /// db.batch(|batch| {
    ///     let (names, ages) = (batch.map("names"), batch.map("ages"));
    ///     names.set([1], "anna")?;
    ///     ages.set([1], [30])?;
    ///     Ok(())
    /// })?;
    /// assert_eq!(db.map_names()?, [b"ages".to_vec(), b"names".to_vec()]);
    /// # Ok::<(), Error>(())
    /// ```
    pub fn map(&self, name: impl AsRef<[u8]>) -> Map<&DbBatch<'a>> {
        Map::new(self, name.as_ref())
    }

    /// Returns the names of the maps, as [`Db::map_names`] does.
    ///
    /// ```
    /// use dilluvas::{Db, Error};
    ///
    /// let db = Db::in_memory()?;
    /// db.batch(|batch| {
    ///     batch.map("fruit").set("lime", "green")?;
    ///     assert_eq!(batch.map_names()?, [b"fruit"]);
    ///     Ok(())
    /// })?;
    /// # Ok::<(), Error>(())
    /// ```
    ///
    /// # Errors
    ///
    /// As for [`Db::map_names`].
    pub fn map_names(&self) -> Result<Vec<Vec<u8>>, Error> {
        self.with(|calls| calls.names())
    }

    /// Removes a map, as [`Db::drop_map`] does.
    ///
    /// ```
    /// use dilluvas::{Db, Error};
    ///
    /// let db = Db::in_memory()?;
    /// db.map("old").set("lime", "green")?;
    /// db.batch(|batch| {
    ///     for pair in batch.map("old").iter() {
    ///         let (key, value) = pair?;
    ///         batch.map("new").set(key, value)?;
    ///     }
    ///     batch.drop_map("old")
    /// })?;
    /// assert_eq!(db.map_names()?, [b"new"]);
    /// # Ok::<(), Error>(())
    /// ```
    ///
    /// # Errors
    ///
    /// As for [`Db::drop_map`].
    pub fn drop_map(&self, name: impl AsRef<[u8]>) -> Result<bool, Error> {
        self.with(|calls| calls.drop_map(name.as_ref()))
    }
}

impl Access for &DbBatch<'_> {}

impl Sealed for &DbBatch<'_> {
    fn with<T>(&self, calls: impl FnOnce(&mut Calls<'_>) -> Result<T, Error>) -> Result<T, Error> {
        // a device that is called in a call has no way to the batch
        let mut open = self.open.try_borrow_mut().map_err(|_| Error::Reentrant)?;
        let Open { batch, room } = &mut *open;
        calls(&mut Calls::new(batch, room))
    }
}

impl fmt::Debug for DbBatch<'_> {
    fn fmt(&self, f: &mut fmt::Formatter<'_>) -> fmt::Result {
        f.debug_struct("DbBatch").finish_non_exhaustive()
    }
}

/// Why a batch was not sealed. Nothing was undone: the changes that it had made remain, and a crash may leave a part of them.
///
/// In a function that returns an [`Error`], `?` passes on the error in it.
///
/// ```
/// use dilluvas::{Db, Error, NotSealed};
///
/// let db = Db::in_memory()?;
/// let not_sealed: NotSealed = db
///     .batch(|batch| {
///         batch.map("fruit").set("lime", "green")?;
///         Err::<(), _>(Error::Corruption)
///     })
///     .unwrap_err();
/// assert_eq!(not_sealed.error, Error::Corruption);
/// assert!(not_sealed.to_string().starts_with("the batch is not sealed, and what it changed stands"));
/// assert!(db.map("fruit").contains_key("lime")?);
/// # Ok::<(), Error>(())
/// ```
#[derive(Clone, Debug, PartialEq, Eq)]
pub struct NotSealed {
    /// The error of the closure, or of opening or sealing the batch.
    pub error: Error,
}

impl From<Error> for NotSealed {
    fn from(error: Error) -> NotSealed {
        NotSealed { error }
    }
}

impl From<NotSealed> for Error {
    fn from(not_sealed: NotSealed) -> Error {
        not_sealed.error
    }
}

impl fmt::Display for NotSealed {
    fn fmt(&self, f: &mut fmt::Formatter<'_>) -> fmt::Result {
        f.write_str("the batch is not sealed, and what it changed stands")
    }
}

impl std::error::Error for NotSealed {
    fn source(&self) -> Option<&(dyn std::error::Error + 'static)> {
        Some(&self.error)
    }
}
