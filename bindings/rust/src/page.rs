//! Pages that were copied out, and pairs as bytes.

use crate::answer::Token;
use crate::error::Error;
use crate::sys;
use std::fmt;
use std::iter::FusedIterator;

/// No pairs, for [`Cache::allocate`](crate::Cache::allocate) and [`Cache::replace`](crate::Cache::replace): the type of an empty array of your
/// own isn't inferred.
pub const NO_PAIRS: [(&[u8], &[u8]); 0] = [];

/// A copy of a page.
///
/// ```
/// use dilluvas::{Cache, Settings};
///
/// # fn main() -> Result<(), dilluvas::Error> {
/// let mut cache = Cache::in_memory(&Settings::default())?;
/// let token = cache.allocate([("a", "1"), ("b", "2")])?;
/// let page = cache.get(token.page)?.expect("it was allocated");
/// assert_eq!(page.token(), token);
/// assert_eq!(page.get("b"), Some(&b"2"[..]));
/// for (key, value) in &page {
///     println!("{} {}", key.escape_ascii(), value.escape_ascii());
/// }
/// # Ok(())
/// # }
/// ```
#[derive(Clone)]
pub struct Page {
    token: Token,
    is_index: bool,
    count: usize,
    // Its pairs are the first `used` bytes.
    buffer: Vec<u8>,
    used: usize,
}

impl Page {
    /// Returns a page into which nothing was copied yet, for [`Cache::get_into`](crate::Cache::get_into). It has no pairs, and no page has its
    /// token.
    pub const fn empty() -> Page {
        Page {
            token: Token { page: 0, stamp: 0 },
            is_index: false,
            count: 0,
            buffer: Vec::new(),
            used: 0,
        }
    }

    /// Returns its token.
    #[must_use]
    pub fn token(&self) -> Token {
        self.token
    }

    /// Returns whether its values are page numbers, of eight bytes each, little-endian.
    #[must_use]
    pub fn is_index(&self) -> bool {
        self.is_index
    }

    /// Returns the number of pairs.
    #[must_use]
    pub fn len(&self) -> usize {
        self.count
    }

    /// Returns whether there are no pairs.
    #[must_use]
    pub fn is_empty(&self) -> bool {
        self.count == 0
    }

    /// Returns the value of a key, or `None` if the page has no such key. It reads the pairs up to that key.
    #[must_use]
    pub fn get(&self, key: impl AsRef<[u8]>) -> Option<&[u8]> {
        let key = key.as_ref();
        let (found, value) = self.pairs().find(|(found, _)| *found >= key)?;
        (found == key).then_some(value)
    }

    /// Iterates over its pairs, in ascending key order.
    ///
    /// ```
    /// use dilluvas::{Cache, Settings};
    ///
    /// # fn main() -> Result<(), dilluvas::Error> {
    /// let mut cache = Cache::in_memory(&Settings::default())?;
    /// let token = cache.allocate([("a", "1"), ("b", "2")])?;
    /// let page = cache.get(token.page)?.expect("it was allocated");
    /// let mut pairs = page.pairs();
    /// assert_eq!(pairs.len(), 2);
    /// assert_eq!(pairs.next(), Some((&b"a"[..], &b"1"[..])));
    /// // a page's pairs may be put on another
    /// let other = cache.allocate(page.pairs().filter(|(key, _)| *key != b"a"))?;
    /// assert_eq!(cache.get(other.page)?.expect("it was allocated").len(), 1);
    /// # Ok(())
    /// # }
    /// ```
    #[must_use]
    pub fn pairs(&self) -> Pairs<'_> {
        Pairs::of(&self.buffer[..self.used], self.count)
    }

    /// Makes it empty. Its memory stays.
    pub(crate) fn clear(&mut self) {
        self.become_page(0, &sys::Found::default());
    }

    /// Where a page's pairs are copied to.
    pub(crate) fn buffer(&mut self) -> &mut [u8] {
        &mut self.buffer
    }

    pub(crate) fn make_room(&mut self, needed: usize) {
        self.buffer.resize(needed, 0);
    }

    /// Becomes the page whose pairs were copied, by what the library reported of it.
    pub(crate) fn become_page(&mut self, page: u64, found: &sys::Found) {
        self.token = Token {
            page,
            stamp: found.stamp,
        };
        self.is_index = found.is_index;
        self.count = found.count;
        self.used = found.needed;
    }
}

impl Default for Page {
    fn default() -> Page {
        Page::empty()
    }
}

// What an earlier page left behind the pairs is no part of it.
impl PartialEq for Page {
    fn eq(&self, other: &Page) -> bool {
        let (pairs, others) = (self.pairs().rest, other.pairs().rest);
        (self.token, self.is_index, pairs) == (other.token, other.is_index, others)
    }
}

impl Eq for Page {}

impl fmt::Debug for Page {
    fn fmt(&self, f: &mut fmt::Formatter<'_>) -> fmt::Result {
        f.debug_struct("Page")
            .field("token", &self.token)
            .field("is_index", &self.is_index)
            .field("pairs", &self.pairs())
            .finish()
    }
}

impl<'a> IntoIterator for &'a Page {
    type Item = (&'a [u8], &'a [u8]);
    type IntoIter = Pairs<'a>;

    fn into_iter(self) -> Pairs<'a> {
        self.pairs()
    }
}

/// An iterator over the pairs of a page, in ascending key order: what [`Page::pairs`] returns.
#[derive(Clone)]
pub struct Pairs<'a> {
    rest: &'a [u8],
    count: usize,
}

impl<'a> Pairs<'a> {
    /// That many pairs, as the library writes them.
    pub(crate) fn of(bytes: &'a [u8], count: usize) -> Pairs<'a> {
        Pairs { rest: bytes, count }
    }
}

impl<'a> Iterator for Pairs<'a> {
    type Item = (&'a [u8], &'a [u8]);

    fn next(&mut self) -> Option<Self::Item> {
        let (key_len, rest) = self.rest.split_first_chunk()?;
        let (value_len, rest) = rest.split_first_chunk()?;
        let (key, rest) = rest.split_at_checked(u32::from_le_bytes(*key_len) as usize)?;
        let (value, rest) = rest.split_at_checked(u32::from_le_bytes(*value_len) as usize)?;
        self.rest = rest;
        self.count -= 1;
        Some((key, value))
    }

    fn size_hint(&self) -> (usize, Option<usize>) {
        (self.count, Some(self.count))
    }
}

impl ExactSizeIterator for Pairs<'_> {}

impl FusedIterator for Pairs<'_> {}

impl fmt::Debug for Pairs<'_> {
    fn fmt(&self, f: &mut fmt::Formatter<'_>) -> fmt::Result {
        f.debug_map().entries(self.clone()).finish()
    }
}

/// The pairs as the library takes them.
pub(crate) fn encoded<K: AsRef<[u8]>, V: AsRef<[u8]>>(
    pairs: impl IntoIterator<Item = (K, V)>,
) -> Result<Vec<u8>, Error> {
    let mut bytes = Vec::new();
    for (key, value) in pairs {
        let (key, value) = (key.as_ref(), value.as_ref());
        for part in [key, value] {
            let length = u32::try_from(part.len()).map_err(|_| Error::Arguments)?;
            bytes.extend_from_slice(&length.to_le_bytes());
        }
        bytes.extend_from_slice(key);
        bytes.extend_from_slice(value);
    }
    Ok(bytes)
}
