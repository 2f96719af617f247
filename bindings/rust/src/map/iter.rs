//! Pairs one by one.

use super::calls::Pair;
use super::{Access, Map};
use crate::db::Db;
use crate::error::Error;
use crate::sys::Side;
use std::fmt;
use std::iter::FusedIterator;
use std::ops::Bound;
use std::vec;

/// An iterator over pairs of a [`Map`], in key order and from both ends: what [`iter`](Map::iter), [`range`](Map::range) and
/// [`scan_prefix`](Map::scan_prefix) return.
///
/// It holds no lock between two pairs, so the map may change during the iteration, through others or through the code that iterates. Whatever
/// changes, each key is returned at most once, and in order. A pair that is there throughout is returned. One that is inserted, changed or
/// removed during the iteration is returned as it is, as it was, or not at all: from the front the pairs of a leaf, some 30, are read together,
/// and from the back each is read on its own.
///
/// An error is returned once, and after it nothing more.
///
/// ```
/// use dilluvas::{Db, Error, Iter};
///
/// fn longest(pairs: Iter) -> Result<usize, Error> {
///     let mut longest = 0;
///     for pair in pairs {
///         longest = longest.max(pair?.1.len());
///     }
///     Ok(longest)
/// }
///
/// let db = Db::in_memory()?;
/// let fruit = db.map("fruit");
/// fruit.insert("lime", "green")?;
/// fruit.insert("apple", "red")?;
/// assert_eq!(longest(fruit.iter())?, 5);
/// // taking out what it came by
/// for pair in &fruit {
///     fruit.delete(pair?.0)?;
/// }
/// assert!(fruit.is_empty()?);
/// # Ok::<(), Error>(())
/// ```
pub struct Iter<A = Db> {
    map: Map<A>,
    // The pairs that were read from the front and didn't come yet.
    read: vec::IntoIter<Pair>,
    // All others are between these bounds, behind those that were read. Both move inward alone.
    from: Bound<Vec<u8>>,
    to: Bound<Vec<u8>>,
    // There are none.
    is_read: bool,
}

impl<A: Access> Iter<A> {
    pub(super) fn new(map: Map<A>, from: Bound<Vec<u8>>, to: Bound<Vec<u8>>) -> Iter<A> {
        Iter {
            map,
            read: Vec::new().into_iter(),
            from,
            to,
            is_read: false,
        }
    }

    // Reads the pairs of the next leaf from the front.
    fn read_leaf(&mut self) -> Result<(), Error> {
        let Map { access, name } = &self.map;
        let bounds = (slice_of(&self.from), slice_of(&self.to));
        let leaf = access.with(|calls| calls.leaf(name, bounds))?;
        self.read = leaf.pairs.into_iter();
        match leaf.rest {
            Some(key) => self.from = Bound::Included(key),
            None => self.is_read = true,
        }
        Ok(())
    }

    // Reads the last pair that wasn't read from the front.
    fn read_last(&mut self) -> Result<Option<Pair>, Error> {
        let side = match slice_of(&self.to) {
            Bound::Included(key) => Side::UpTo(key),
            Bound::Excluded(key) => Side::Below(key),
            Bound::Unbounded => Side::Last,
        };
        let found = self.map.nearest(side)?;
        let found = found.filter(|(key, _)| is_behind(key, &self.from));
        match &found {
            Some((key, _)) => self.to = Bound::Excluded(key.clone()),
            None => self.is_read = true,
        }
        Ok(found)
    }

    // Behind an error there is nothing.
    fn end(&mut self, error: Error) -> Option<Result<Pair, Error>> {
        self.read = Vec::new().into_iter();
        self.is_read = true;
        Some(Err(error))
    }
}

impl<A: Access> Iterator for Iter<A> {
    type Item = Result<Pair, Error>;

    fn next(&mut self) -> Option<Self::Item> {
        loop {
            if let Some(pair) = self.read.next() {
                return Some(Ok(pair));
            }
            if self.is_read {
                return None;
            }
            if let Err(error) = self.read_leaf() {
                return self.end(error);
            }
        }
    }
}

impl<A: Access> DoubleEndedIterator for Iter<A> {
    fn next_back(&mut self) -> Option<Self::Item> {
        if !self.is_read {
            match self.read_last() {
                Ok(Some(pair)) => return Some(Ok(pair)),
                Ok(None) => {}
                Err(error) => return self.end(error),
            }
        }
        self.read.next_back().map(Ok)
    }
}

impl<A: Access> FusedIterator for Iter<A> {}

impl<A: Access> IntoIterator for &Map<A> {
    type Item = Result<Pair, Error>;
    type IntoIter = Iter<A>;

    fn into_iter(self) -> Iter<A> {
        self.iter()
    }
}

impl<A> fmt::Debug for Iter<A> {
    fn fmt(&self, f: &mut fmt::Formatter<'_>) -> fmt::Result {
        f.debug_struct("Iter").finish_non_exhaustive()
    }
}

fn slice_of(bound: &Bound<Vec<u8>>) -> Bound<&[u8]> {
    bound.as_ref().map(Vec::as_slice)
}

fn is_behind(key: &[u8], bound: &Bound<Vec<u8>>) -> bool {
    match bound {
        Bound::Included(from) => key >= from.as_slice(),
        Bound::Excluded(from) => key > from.as_slice(),
        Bound::Unbounded => true,
    }
}
