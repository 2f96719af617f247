//! Named roots.

use super::Cache;
use crate::error::{Error, done};
use crate::sys;

impl Cache {
    /// Returns the root page of a name, or `None`. A name can be any bytes.
    ///
    /// # Errors
    ///
    /// [`OutOfMemory`](Error::OutOfMemory), [`Write`](Error::Write).
    pub fn root(&mut self, name: impl AsRef<[u8]>) -> Result<Option<u64>, Error> {
        let (name, mut page) = (name.as_ref(), 0);
        match self.on(|handle| handle.root(name, &mut page))? {
            sys::OK => Ok(Some(page)),
            sys::NONE => Ok(None),
            status => Err(Error::of(status)),
        }
    }

    /// If the root page of a name is `old`, sets it to `new`. Otherwise nothing changes, and the inner error is the current root. `None` means
    /// no root.
    ///
    /// ```
    /// use dilluvas::{Cache, NO_PAIRS, Settings};
    ///
    /// # fn main() -> Result<(), dilluvas::Error> {
    /// let mut cache = Cache::in_memory(&Settings::default())?;
    /// let page = cache.allocate(NO_PAIRS)?.page;
    /// assert_eq!(cache.cas_root("accounts", None, Some(page))?, Ok(()));
    /// assert_eq!(cache.root("accounts")?, Some(page));
    /// // it has a root since
    /// assert_eq!(cache.cas_root("accounts", None, Some(9))?, Err(Some(page)));
    /// assert_eq!(cache.cas_root("accounts", Some(page), None)?, Ok(()));
    /// # Ok(())
    /// # }
    /// ```
    ///
    /// # Errors
    ///
    /// [`ReservedId`](Error::ReservedId) for page 0, which is the cache's own and no root; [`TooManyNames`](Error::TooManyNames),
    /// [`NameTooLong`](Error::NameTooLong), [`StampUsedUp`](Error::StampUsedUp), [`LogFull`](Error::LogFull),
    /// [`OutOfMemory`](Error::OutOfMemory), [`Write`](Error::Write).
    pub fn cas_root(
        &mut self,
        name: impl AsRef<[u8]>,
        old: Option<u64>,
        new: Option<u64>,
    ) -> Result<Result<(), Option<u64>>, Error> {
        if old == Some(0) || new == Some(0) {
            return Err(Error::ReservedId);
        }
        let (name, mut root) = (name.as_ref(), old.unwrap_or(0));
        match self.change(name.len(), |handle| {
            handle.cas_root(name, &mut root, new.unwrap_or(0))
        })? {
            sys::OK => Ok(Ok(())),
            sys::STALE => Ok(Err((root != 0).then_some(root))),
            status => Err(Error::of(status)),
        }
    }

    /// Returns the root page of a name. For a name without a root it makes one: an index over an empty leaf.
    ///
    /// ```
    /// use dilluvas::{Cache, Settings};
    ///
    /// # fn main() -> Result<(), dilluvas::Error> {
    /// let mut cache = Cache::in_memory(&Settings::default())?;
    /// let root = cache.open_tree("accounts")?;
    /// assert_eq!(cache.open_tree("accounts")?, root);
    /// let index = cache.get(root)?.expect("it is the root");
    /// let (_, child) = index.pairs().next().expect("the leaf");
    /// let leaf = u64::from_le_bytes(child.try_into().expect("eight bytes"));
    /// assert!(cache.get(leaf)?.expect("it is there").is_empty());
    /// # Ok(())
    /// # }
    /// ```
    ///
    /// # Errors
    ///
    /// [`TooManyNames`](Error::TooManyNames), [`NameTooLong`](Error::NameTooLong), [`Write`](Error::Write), and
    /// [`PagesUsedUp`](Error::PagesUsedUp), [`StampUsedUp`](Error::StampUsedUp), [`LogFull`](Error::LogFull) and
    /// [`OutOfMemory`](Error::OutOfMemory): after one of these four a leaf or an index that was made stays, and nothing leads to it.
    pub fn open_tree(&mut self, name: impl AsRef<[u8]>) -> Result<u64, Error> {
        let (name, mut page) = (name.as_ref(), 0);
        done(self.change(name.len(), |handle| handle.open_tree(name, &mut page))?)?;
        Ok(page)
    }
}
