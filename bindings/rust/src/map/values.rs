//! The values of keys: reading and changing one.

use super::calls::copied;
use super::{Access, Map};
use crate::error::Error;
use std::fmt;

impl<A: Access> Map<A> {
    /// Returns the value of a key, or `None` if it has none.
    ///
    /// ```
    /// use dilluvas::{Db, Error};
    ///
    /// let db = Db::in_memory()?;
    /// let fruit = db.map("fruit");
    /// fruit.insert("lime", "green")?;
    /// assert_eq!(fruit.get("lime")?.as_deref(), Some(&b"green"[..]));
    /// assert_eq!(fruit.get("plum")?, None);
    /// # Ok::<(), Error>(())
    /// ```
    ///
    /// # Errors
    ///
    /// Those listed at [`Map`].
    pub fn get(&self, key: impl AsRef<[u8]>) -> Result<Option<Vec<u8>>, Error> {
        let key = key.as_ref();
        self.access
            .with(|calls| calls.get(&self.name, key)?.map(copied).transpose())
    }

    /// Reads the value of a key into a vector, whose memory is reused, and returns whether there is one. If there is none, and after an error,
    /// the vector is empty.
    ///
    /// ```
    /// use dilluvas::{Db, Error};
    ///
    /// let db = Db::in_memory()?;
    /// let fruit = db.map("fruit");
    /// fruit.insert("lime", "green")?;
    /// let mut value = Vec::new();
    /// for key in ["lime", "plum"] {
    ///     if fruit.get_into(key, &mut value)? {
    ///         println!("{key} is {}", value.escape_ascii());
    ///     }
    /// }
    /// # Ok::<(), Error>(())
    /// ```
    ///
    /// # Errors
    ///
    /// Those listed at [`Map`].
    pub fn get_into(&self, key: impl AsRef<[u8]>, value: &mut Vec<u8>) -> Result<bool, Error> {
        let key = key.as_ref();
        value.clear();
        self.access.with(|calls| {
            let Some(found) = calls.get(&self.name, key)? else {
                return Ok(false);
            };
            let room = value.try_reserve(found.len());
            room.map_err(|_| Error::OutOfMemory)?;
            value.extend_from_slice(found);
            Ok(true)
        })
    }

    /// Returns whether a key has a value.
    ///
    /// ```
    /// use dilluvas::{Db, Error};
    ///
    /// let db = Db::in_memory()?;
    /// let seen = db.map("seen");
    /// seen.insert("anna", "")?;
    /// assert!(seen.contains_key("anna")? && !seen.contains_key("bert")?);
    /// # Ok::<(), Error>(())
    /// ```
    ///
    /// # Errors
    ///
    /// Those listed at [`Map`].
    pub fn contains_key(&self, key: impl AsRef<[u8]>) -> Result<bool, Error> {
        let key = key.as_ref();
        self.access
            .with(|calls| calls.contains_key(&self.name, key))
    }

    /// Sets the value of a key, and returns the value that it had.
    ///
    /// ```
    /// use dilluvas::{Db, Error};
    ///
    /// let db = Db::in_memory()?;
    /// let fruit = db.map("fruit");
    /// assert_eq!(fruit.insert("lime", "yellow")?, None);
    /// assert_eq!(fruit.insert("lime", "green")?, Some(b"yellow".to_vec()));
    /// # Ok::<(), Error>(())
    /// ```
    ///
    /// # Errors
    ///
    /// As for [`set`](Map::set).
    pub fn insert(
        &self,
        key: impl AsRef<[u8]>,
        value: impl AsRef<[u8]>,
    ) -> Result<Option<Vec<u8>>, Error> {
        let (key, value) = (key.as_ref(), value.as_ref());
        self.access.with(|calls| {
            let before = calls.get(&self.name, key)?.map(copied).transpose()?;
            calls.set(&self.name, key, value)?;
            Ok(before)
        })
    }

    /// Sets the value of a key, and returns whether it had one. [`insert`](Map::insert) also returns the old value, and takes longer.
    ///
    /// ```
    /// use dilluvas::{Db, Error};
    ///
    /// let db = Db::in_memory()?;
    /// let fruit = db.map("fruit");
    /// assert!(!fruit.set("lime", "yellow")?);
    /// assert!(fruit.set("lime", "green")?);
    /// # Ok::<(), Error>(())
    /// ```
    ///
    /// # Errors
    ///
    /// [`KeyTooLong`](Error::KeyTooLong), [`ValueTooLong`](Error::ValueTooLong); [`NameTooLong`](Error::NameTooLong) and
    /// [`TooManyNames`](Error::TooManyNames) if the map must be created; [`LogFull`](Error::LogFull), [`PagesUsedUp`](Error::PagesUsedUp),
    /// [`StampUsedUp`](Error::StampUsedUp); and those listed at [`Map`]. No pair is changed then, but a map that had to be created may be
    /// there, with no pairs.
    pub fn set(&self, key: impl AsRef<[u8]>, value: impl AsRef<[u8]>) -> Result<bool, Error> {
        let (key, value) = (key.as_ref(), value.as_ref());
        self.access.with(|calls| calls.set(&self.name, key, value))
    }

    /// Removes a key, and returns the value that it had.
    ///
    /// ```
    /// use dilluvas::{Db, Error};
    ///
    /// let db = Db::in_memory()?;
    /// let fruit = db.map("fruit");
    /// fruit.insert("lime", "green")?;
    /// assert_eq!(fruit.remove("lime")?, Some(b"green".to_vec()));
    /// assert_eq!(fruit.remove("lime")?, None);
    /// # Ok::<(), Error>(())
    /// ```
    ///
    /// # Errors
    ///
    /// As for [`delete`](Map::delete).
    pub fn remove(&self, key: impl AsRef<[u8]>) -> Result<Option<Vec<u8>>, Error> {
        let key = key.as_ref();
        self.access.with(|calls| {
            let before = calls.get(&self.name, key)?.map(copied).transpose()?;
            if before.is_some() {
                calls.delete(&self.name, key)?;
            }
            Ok(before)
        })
    }

    /// Removes a key, and returns whether it had a value. [`remove`](Map::remove) also returns that value, and takes longer.
    ///
    /// ```
    /// use dilluvas::{Db, Error};
    ///
    /// let db = Db::in_memory()?;
    /// let fruit = db.map("fruit");
    /// fruit.insert("lime", "green")?;
    /// assert!(fruit.delete("lime")? && !fruit.delete("lime")?);
    /// # Ok::<(), Error>(())
    /// ```
    ///
    /// # Errors
    ///
    /// [`KeyTooLong`](Error::KeyTooLong), [`LogFull`](Error::LogFull), [`StampUsedUp`](Error::StampUsedUp), and those listed at [`Map`].
    pub fn delete(&self, key: impl AsRef<[u8]>) -> Result<bool, Error> {
        let key = key.as_ref();
        self.access.with(|calls| calls.delete(&self.name, key))
    }

    /// If the value of a key is `old`, sets it to `new`. Otherwise nothing changes, and the inner error has the current value. As `old`, `None`
    /// means that the key has no value; as `new`, that the key is removed.
    ///
    /// ```
    /// use dilluvas::{CompareAndSwapError, Db, Error};
    ///
    /// let db = Db::in_memory()?;
    /// let locks = db.map("locks");
    /// assert_eq!(locks.compare_and_swap("door", None, Some(b"anna"))?, Ok(()));
    /// let refused = locks.compare_and_swap("door", None, Some(b"bert"))?;
    /// assert_eq!(refused, Err(CompareAndSwapError { current: Some(b"anna".to_vec()) }));
    /// assert_eq!(locks.compare_and_swap("door", Some(b"anna"), None)?, Ok(()));
    /// assert!(locks.is_empty()?);
    /// # Ok::<(), Error>(())
    /// ```
    ///
    /// # Errors
    ///
    /// As for [`set`](Map::set).
    pub fn compare_and_swap(
        &self,
        key: impl AsRef<[u8]>,
        old: Option<&[u8]>,
        new: Option<&[u8]>,
    ) -> Result<Result<(), CompareAndSwapError>, Error> {
        let key = key.as_ref();
        self.access.with(|calls| {
            if calls.swap(&self.name, key, old, new)? {
                return Ok(Ok(()));
            }
            let current = calls.get(&self.name, key)?.map(copied).transpose()?;
            Ok(Err(CompareAndSwapError { current }))
        })
    }
}

/// Why [`compare_and_swap`](Map::compare_and_swap) changed nothing: the key has another value than the expected one.
///
/// ```
/// use dilluvas::{CompareAndSwapError, Db, Error};
///
/// // Adds one to a count that others change too.
/// fn count_up(db: &Db, key: &str) -> Result<(), Error> {
///     let counts = db.map("counts");
///     let mut old = counts.get(key)?;
///     loop {
///         let count = old.as_ref().map_or(0, |bytes| bytes[0]);
///         match counts.compare_and_swap(key, old.as_deref(), Some(&[count + 1]))? {
///             Ok(()) => return Ok(()),
///             Err(CompareAndSwapError { current, .. }) => old = current,
///         }
///     }
/// }
///
/// let db = Db::in_memory()?;
/// count_up(&db, "visits")?;
/// count_up(&db, "visits")?;
/// assert_eq!(db.map("counts").get("visits")?, Some(vec![2]));
/// # Ok::<(), Error>(())
/// ```
#[derive(Clone, Debug, PartialEq, Eq)]
pub struct CompareAndSwapError {
    /// The value that the key has, or `None`.
    pub current: Option<Vec<u8>>,
}

impl fmt::Display for CompareAndSwapError {
    fn fmt(&self, f: &mut fmt::Formatter<'_>) -> fmt::Result {
        match &self.current {
            Some(_) => f.write_str("the key has another value"),
            None => f.write_str("the key has no value"),
        }
    }
}

impl std::error::Error for CompareAndSwapError {}
