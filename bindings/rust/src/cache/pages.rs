//! Making, reading, changing and freeing a page.

use super::Cache;
use crate::answer::{Swap, Token};
use crate::error::{Error, done};
use crate::page::{Page, encoded};
use crate::sys;

// Most values fit here, so that most calls are one.
const USUAL_VALUE: usize = 64;

impl Cache {
    /// Writes a leaf of these pairs, whose keys must ascend in byte order, to the free page with the greatest number, or else to a new page.
    /// Returns its token. [`NO_PAIRS`](crate::NO_PAIRS) is an empty leaf.
    ///
    /// ```
    /// use dilluvas::{Cache, Error, NO_PAIRS, Settings};
    ///
    /// # fn main() -> Result<(), Error> {
    /// let mut cache = Cache::in_memory(&Settings::default())?;
    /// let empty = cache.allocate(NO_PAIRS)?;
    /// let token = cache.allocate([("a", "1"), ("b", "2")])?;
    /// assert_ne!(token.page, empty.page);
    /// let falling = cache.allocate([("b", "2"), ("a", "1")]);
    /// assert_eq!(falling, Err(Error::Arguments));
    /// # Ok(())
    /// # }
    /// ```
    ///
    /// # Errors
    ///
    /// [`Arguments`](Error::Arguments) if the keys don't ascend, or a leaf can't hold the pairs; [`PagesUsedUp`](Error::PagesUsedUp),
    /// [`StampUsedUp`](Error::StampUsedUp), [`LogFull`](Error::LogFull), [`OutOfMemory`](Error::OutOfMemory), [`Write`](Error::Write).
    pub fn allocate<K: AsRef<[u8]>, V: AsRef<[u8]>>(
        &mut self,
        pairs: impl IntoIterator<Item = (K, V)>,
    ) -> Result<Token, Error> {
        let pairs = encoded(pairs)?;
        let (mut page, mut stamp) = (0, 0);
        done(self.change(pairs.len(), |handle| {
            handle.allocate(&pairs, &mut page, &mut stamp)
        })?)?;
        Ok(Token { page, stamp })
    }

    /// Returns a copy of a page, or `None` if there is no such page.
    ///
    /// # Errors
    ///
    /// [`ReservedId`](Error::ReservedId), [`OutOfMemory`](Error::OutOfMemory), [`Read`](Error::Read), [`Write`](Error::Write),
    /// [`Corruption`](Error::Corruption).
    pub fn get(&mut self, page: u64) -> Result<Option<Page>, Error> {
        let mut found = Page::empty();
        let is_there = self.get_into(page, &mut found)?;
        Ok(is_there.then_some(found))
    }

    /// Like [`get`](Cache::get), but copies into a page whose memory is reused. Returns whether there is such a page.
    ///
    /// ```
    /// use dilluvas::{Cache, Page, Settings};
    ///
    /// # fn main() -> Result<(), dilluvas::Error> {
    /// let mut cache = Cache::in_memory(&Settings::default())?;
    /// let mut pages = Vec::new();
    /// for name in ["one", "two", "three"] {
    ///     pages.push(cache.allocate([("name", name)])?.page);
    /// }
    /// let mut page = Page::empty();
    /// for number in pages {
    ///     assert!(cache.get_into(number, &mut page)?);
    ///     assert_eq!(page.len(), 1);
    /// }
    /// # Ok(())
    /// # }
    /// ```
    ///
    /// # Errors
    ///
    /// As for [`get`](Cache::get). After an error `to` is empty, as it is if there is no such page.
    pub fn get_into(&mut self, page: u64, to: &mut Page) -> Result<bool, Error> {
        let mut found = sys::Found::default();
        to.clear();
        loop {
            match self.on(|handle| handle.get(page, &mut found, to.buffer()))? {
                sys::OK => break,
                sys::SHORT => to.make_room(found.needed),
                sys::GONE => return Ok(false),
                status => return Err(Error::of(status)),
            }
        }
        to.become_page(page, &found);
        Ok(true)
    }

    /// Appends the value of a key of a leaf to `value`, and returns the page's token, or `None` if there is no such page or key. The other
    /// pairs are not copied.
    ///
    /// ```
    /// use dilluvas::{Cache, Settings};
    ///
    /// # fn main() -> Result<(), dilluvas::Error> {
    /// let mut cache = Cache::in_memory(&Settings::default())?;
    /// let token = cache.allocate([("key", "value")])?;
    /// let mut value = Vec::new();
    /// assert_eq!(cache.value_into(token.page, "key", &mut value)?, Some(token));
    /// assert_eq!(value, b"value");
    /// assert_eq!(cache.value_into(token.page, "other", &mut value)?, None);
    /// # Ok(())
    /// # }
    /// ```
    ///
    /// # Errors
    ///
    /// [`Index`](Error::Index) if the page is an index; [`ReservedId`](Error::ReservedId), [`OutOfMemory`](Error::OutOfMemory),
    /// [`Read`](Error::Read), [`Write`](Error::Write), [`Corruption`](Error::Corruption). Nothing is appended then.
    pub fn value_into(
        &mut self,
        page: u64,
        key: impl AsRef<[u8]>,
        value: &mut Vec<u8>,
    ) -> Result<Option<Token>, Error> {
        let (key, start) = (key.as_ref(), value.len());
        let (mut stamp, mut needed) = (0, 0);
        value.resize(start + USUAL_VALUE, 0);
        let answer = loop {
            let room = &mut value[start..];
            match self.on(|handle| handle.value(page, key, &mut stamp, room, &mut needed)) {
                Ok(sys::SHORT) => value.resize(start + needed, 0),
                answer => break answer,
            }
        };
        let written = if answer == Ok(sys::OK) { needed } else { 0 };
        value.truncate(start + written);
        match answer? {
            sys::OK => Ok(Some(Token { page, stamp })),
            sys::GONE | sys::NONE => Ok(None),
            status => Err(Error::of(status)),
        }
    }

    /// Sets the value of a key of a leaf. See [`Swap`] for an example.
    ///
    /// # Errors
    ///
    /// [`LinkRefused`](Error::LinkRefused) if the page is an index, or the leaf has no room for the key; [`ReservedId`](Error::ReservedId),
    /// [`StampUsedUp`](Error::StampUsedUp), [`LogFull`](Error::LogFull), [`OutOfMemory`](Error::OutOfMemory), [`Read`](Error::Read),
    /// [`Write`](Error::Write), [`Corruption`](Error::Corruption).
    pub fn set(
        &mut self,
        token: Token,
        key: impl AsRef<[u8]>,
        value: impl AsRef<[u8]>,
    ) -> Result<Swap, Error> {
        let (key, value) = (key.as_ref(), value.as_ref());
        self.swap(token, key.len() + value.len(), |handle, page, stamp| {
            handle.set(page, stamp, key, value)
        })
    }

    /// Removes a key from a leaf, whether or not it is there.
    ///
    /// # Errors
    ///
    /// As for [`set`](Cache::set).
    pub fn del(&mut self, token: Token, key: impl AsRef<[u8]>) -> Result<Swap, Error> {
        let key = key.as_ref();
        self.swap(token, key.len(), |handle, page, stamp| {
            handle.del(page, stamp, key)
        })
    }

    /// Replaces the contents of a page with a leaf of these pairs, whose keys must ascend in byte order. In memory it then moves the page that
    /// is due, as [`attempt_gc`](Cache::attempt_gc) does; the move never changes the result of this call.
    ///
    /// ```
    /// use dilluvas::{Cache, Settings};
    ///
    /// # fn main() -> Result<(), dilluvas::Error> {
    /// let mut cache = Cache::in_memory(&Settings::default())?;
    /// let token = cache.allocate([("a", "1"), ("b", "2")])?;
    /// let page = cache.get(token.page)?.expect("it was allocated");
    /// let token = cache.replace(token, page.pairs().take(1))?.done().expect("it is the page's");
    /// assert_eq!(cache.get(token.page)?.expect("it is there").len(), 1);
    /// # Ok(())
    /// # }
    /// ```
    ///
    /// # Errors
    ///
    /// [`Arguments`](Error::Arguments) if the keys don't ascend, or a leaf can't hold the pairs; [`ReservedId`](Error::ReservedId),
    /// [`StampUsedUp`](Error::StampUsedUp), [`LogFull`](Error::LogFull), [`OutOfMemory`](Error::OutOfMemory), [`Write`](Error::Write).
    pub fn replace<K: AsRef<[u8]>, V: AsRef<[u8]>>(
        &mut self,
        token: Token,
        pairs: impl IntoIterator<Item = (K, V)>,
    ) -> Result<Swap, Error> {
        let pairs = encoded(pairs)?;
        self.swap(token, pairs.len(), |handle, page, stamp| {
            handle.replace(page, stamp, &pairs)
        })
    }

    /// Frees a page: it is gone for every other call, until [`allocate`](Cache::allocate) reuses its number, at the next stamp.
    ///
    /// ```
    /// use dilluvas::{Cache, NO_PAIRS, Settings};
    ///
    /// # fn main() -> Result<(), dilluvas::Error> {
    /// let mut cache = Cache::in_memory(&Settings::default())?;
    /// let token = cache.allocate(NO_PAIRS)?;
    /// let freed = cache.free(token)?.done().expect("the token is the page's");
    /// assert_eq!(cache.get(token.page)?, None);
    /// let again = cache.allocate(NO_PAIRS)?;
    /// assert!(again.page == token.page && again.stamp > freed.stamp);
    /// # Ok(())
    /// # }
    /// ```
    ///
    /// # Errors
    ///
    /// [`ReservedId`](Error::ReservedId), [`StampUsedUp`](Error::StampUsedUp), [`LogFull`](Error::LogFull),
    /// [`OutOfMemory`](Error::OutOfMemory), [`Write`](Error::Write).
    pub fn free(&mut self, token: Token) -> Result<Swap, Error> {
        self.swap(token, 0, |handle, page, stamp| handle.free(page, stamp))
    }

    // Makes a change that is given so many bytes, and writes the stamp that the page has.
    fn swap(
        &mut self,
        token: Token,
        len: usize,
        mut change: impl FnMut(&mut sys::Handle, u64, &mut u64) -> u32,
    ) -> Result<Swap, Error> {
        let Token { page, mut stamp } = token;
        match self.change(len, |handle| change(handle, page, &mut stamp))? {
            sys::OK => Ok(Swap::Done(Token { page, stamp })),
            sys::STALE => Ok(Swap::Stale(Token { page, stamp })),
            sys::GONE => Ok(Swap::Gone),
            status => Err(Error::of(status)),
        }
    }
}
