//! The pairs of a map in the order of their keys.

use super::calls::{Pair, copy_of};
use super::iter::Iter;
use super::{Access, Map};
use crate::error::Error;
use crate::sys::Side;
use std::ops::{Bound, RangeBounds};

impl<A: Access> Map<A> {
    /// Returns the pair with the least key.
    ///
    /// ```
    /// use dilluvas::{Db, Error};
    ///
    /// let db = Db::in_memory()?;
    /// let fruit = db.map("fruit");
    /// assert_eq!(fruit.first()?, None);
    /// fruit.insert("lime", "green")?;
    /// fruit.insert("apple", "red")?;
    /// assert_eq!(fruit.first()?, Some((b"apple".to_vec(), b"red".to_vec())));
    /// # Ok::<(), Error>(())
    /// ```
    ///
    /// # Errors
    ///
    /// Those listed at [`Map`].
    pub fn first(&self) -> Result<Option<Pair>, Error> {
        self.nearest(Side::First)
    }

    /// Returns the pair with the greatest key.
    ///
    /// ```
    /// use dilluvas::{Db, Error};
    ///
    /// let db = Db::in_memory()?;
    /// let log = db.map("log");
    /// for second in [7u64, 300] {
    ///     log.set(second.to_be_bytes(), "event")?;
    /// }
    /// let (key, _) = log.last()?.expect("there are two");
    /// assert_eq!(key, 300u64.to_be_bytes());
    /// # Ok::<(), Error>(())
    /// ```
    ///
    /// # Errors
    ///
    /// Those listed at [`Map`].
    pub fn last(&self) -> Result<Option<Pair>, Error> {
        self.nearest(Side::Last)
    }

    /// Removes and returns the pair with the least key. No other thread gets the same pair.
    ///
    /// ```
    /// use dilluvas::{Db, Error};
    ///
    /// let db = Db::in_memory()?;
    /// let queue = db.map("queue");
    /// queue.set([2], "second")?;
    /// queue.set([1], "first")?;
    /// assert_eq!(queue.pop_first()?, Some((vec![1], b"first".to_vec())));
    /// assert_eq!(queue.len()?, 1);
    /// # Ok::<(), Error>(())
    /// ```
    ///
    /// # Errors
    ///
    /// As for [`delete`](Map::delete).
    pub fn pop_first(&self) -> Result<Option<Pair>, Error> {
        self.pop(Side::First)
    }

    /// Removes and returns the pair with the greatest key. No other thread gets the same pair.
    ///
    /// ```
    /// use dilluvas::{Db, Error};
    ///
    /// let db = Db::in_memory()?;
    /// let stack = db.map("stack");
    /// stack.set([1], "lower")?;
    /// stack.set([2], "upper")?;
    /// assert_eq!(stack.pop_last()?, Some((vec![2], b"upper".to_vec())));
    /// # Ok::<(), Error>(())
    /// ```
    ///
    /// # Errors
    ///
    /// As for [`delete`](Map::delete).
    pub fn pop_last(&self) -> Result<Option<Pair>, Error> {
        self.pop(Side::Last)
    }

    /// Iterates over all pairs, in key order. [`Iter`] says what it returns if the map changes during the iteration.
    ///
    /// ```
    /// use dilluvas::{Db, Error};
    ///
    /// let db = Db::in_memory()?;
    /// let fruit = db.map("fruit");
    /// for key in ["plum", "apple", "lime"] {
    ///     fruit.insert(key, "")?;
    /// }
    /// let keys = fruit.iter().map(|pair| Ok(pair?.0));
    /// assert_eq!(keys.collect::<Result<Vec<_>, Error>>()?, [&b"apple"[..], b"lime", b"plum"]);
    /// # Ok::<(), Error>(())
    /// ```
    pub fn iter(&self) -> Iter<A> {
        Iter::new(self.clone(), Bound::Unbounded, Bound::Unbounded)
    }

    /// Iterates over the pairs whose keys are in a range, in key order. There are none if the range ends before it begins.
    ///
    /// The type of the keys must be named if the range leaves it open, as with two [`Bound`]s, or with references to arrays.
    ///
    /// ```
    /// use dilluvas::{Db, Error};
    /// use std::ops::Bound;
    ///
    /// let db = Db::in_memory()?;
    /// let fruit = db.map("fruit");
    /// for key in ["apple", "lime", "melon", "plum"] {
    ///     fruit.insert(key, "")?;
    /// }
    /// assert_eq!(fruit.range("b".."n").count(), 2);
    /// assert_eq!(fruit.range("lime"..="plum").count(), 3);
    /// // the nearest keys of one
    /// let above = fruit.range::<&str>((Bound::Excluded("lime"), Bound::Unbounded)).next();
    /// let below = fruit.range(.."lime").next_back();
    /// assert_eq!(above.transpose()?.expect("melon").0, b"melon");
    /// assert_eq!(below.transpose()?.expect("apple").0, b"apple");
    /// # Ok::<(), Error>(())
    /// ```
    pub fn range<K: AsRef<[u8]>>(&self, range: impl RangeBounds<K>) -> Iter<A> {
        let owned = |bound: Bound<&K>| bound.map(|key| key.as_ref().to_vec());
        let (from, to) = (owned(range.start_bound()), owned(range.end_bound()));
        Iter::new(self.clone(), from, to)
    }

    /// Iterates over the pairs whose keys begin with these bytes, in key order.
    ///
    /// ```
    /// use dilluvas::{Db, Error};
    ///
    /// let db = Db::in_memory()?;
    /// let users = db.map("users");
    /// for key in ["anna/age", "anna/name", "bert/age"] {
    ///     users.insert(key, "")?;
    /// }
    /// assert_eq!(users.scan_prefix("anna/").count(), 2);
    /// # Ok::<(), Error>(())
    /// ```
    pub fn scan_prefix(&self, prefix: impl AsRef<[u8]>) -> Iter<A> {
        let prefix = prefix.as_ref().to_vec();
        let end = end_of(&prefix);
        Iter::new(self.clone(), Bound::Included(prefix), end)
    }

    /// Returns the number of pairs. It looks at every leaf, of some 30 pairs each.
    ///
    /// Other threads may change the map between two leaves. Then each pair that was there throughout is counted, and one that was inserted or
    /// removed in that time may be counted or not.
    ///
    /// ```
    /// use dilluvas::{Db, Error};
    ///
    /// let db = Db::in_memory()?;
    /// let numbers = db.map("numbers");
    /// for number in 0..100u8 {
    ///     numbers.set([number], "")?;
    /// }
    /// assert_eq!(numbers.len()?, 100);
    /// # Ok::<(), Error>(())
    /// ```
    ///
    /// # Errors
    ///
    /// Those listed at [`Map`].
    pub fn len(&self) -> Result<u64, Error> {
        let (mut len, mut from) = (0, Bound::Unbounded);
        loop {
            let bounds = (from.as_ref().map(Vec::as_slice), Bound::Unbounded);
            let counted = self.access.with(|calls| calls.count(&self.name, bounds))?;
            len += counted.count as u64;
            match counted.rest {
                Some(key) => from = Bound::Included(key),
                None => return Ok(len),
            }
        }
    }

    /// Returns whether there is no pair.
    ///
    /// ```
    /// use dilluvas::{Db, Error};
    ///
    /// let db = Db::in_memory()?;
    /// let fruit = db.map("fruit");
    /// assert!(fruit.is_empty()?);
    /// fruit.insert("lime", "green")?;
    /// assert!(!fruit.is_empty()?);
    /// # Ok::<(), Error>(())
    /// ```
    ///
    /// # Errors
    ///
    /// Those listed at [`Map`].
    pub fn is_empty(&self) -> Result<bool, Error> {
        self.access.with(|calls| calls.is_empty(&self.name))
    }

    pub(super) fn nearest(&self, side: Side<'_>) -> Result<Option<Pair>, Error> {
        self.access
            .with(|calls| calls.nearest(&self.name, side)?.map(copy_of).transpose())
    }

    fn pop(&self, side: Side<'_>) -> Result<Option<Pair>, Error> {
        self.access.with(|calls| {
            let found = calls.nearest(&self.name, side)?;
            let found = found.map(copy_of).transpose()?;
            if let Some((key, _)) = &found {
                calls.delete(&self.name, key)?;
            }
            Ok(found)
        })
    }
}

// The first key behind all that begin with a prefix: there is none behind one of bytes that are all the greatest.
fn end_of(prefix: &[u8]) -> Bound<Vec<u8>> {
    let Some(last) = prefix.iter().rposition(|byte| *byte < u8::MAX) else {
        return Bound::Unbounded;
    };
    let mut end = prefix[..=last].to_vec();
    end[last] += 1;
    Bound::Excluded(end)
}
