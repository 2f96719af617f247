//! The calls of maps over a cache, which copy what they find.

use crate::cache::Cache;
use crate::error::{Error, done};
use crate::page::Pairs;
use crate::sys::{self, Handle, Piece, Side};
use std::ops::Bound;

/// A key and its value.
///
/// ```
/// use dilluvas::{Db, Error, Pair};
///
/// let db = Db::in_memory()?;
/// db.map("fruit").insert("lime", "green")?;
/// let (key, value): Pair = db.map("fruit").first()?.expect("there is one");
/// assert_eq!((&key[..], &value[..]), (&b"lime"[..], &b"green"[..]));
/// # Ok::<(), Error>(())
/// ```
pub type Pair = (Vec<u8>, Vec<u8>);

/// A key and its value, in the buffer into which they were copied.
type Borrowed<'a> = (&'a [u8], &'a [u8]);

/// Two bounds of keys.
pub type Bounds<'a> = (Bound<&'a [u8]>, Bound<&'a [u8]>);

/// The pairs of one leaf within two bounds, and the key from which the others begin, if there are any.
pub struct Leaf {
    pub pairs: Vec<Pair>,
    pub rest: Option<Vec<u8>>,
}

/// The number of pairs of one leaf within two bounds, and the same key.
pub struct Counted {
    pub count: usize,
    pub rest: Option<Vec<u8>>,
}

/// A cache, and the buffer that its calls copy into.
pub struct Calls<'a> {
    cache: &'a mut Cache,
    room: &'a mut Vec<u8>,
}

/// The first size of the buffer, in bytes, and the greatest size that is kept from one call to the next.
pub const USUAL_ROOM: usize = 4096;
const MOST_ROOM: usize = 1 << 20;

impl<'a> Calls<'a> {
    pub(crate) fn new(cache: &'a mut Cache, room: &'a mut Vec<u8>) -> Calls<'a> {
        Calls { cache, room }
    }

    pub fn get(&mut self, name: &[u8], key: &[u8]) -> Result<Option<&[u8]>, Error> {
        self.found(|handle, room, needed| handle.map_get(name, key, room, needed))
    }

    pub fn contains_key(&mut self, name: &[u8], key: &[u8]) -> Result<bool, Error> {
        self.is_found(|handle, room, needed| handle.map_get(name, key, room, needed))
    }

    /// Returns whether the key had a value before.
    pub fn set(&mut self, name: &[u8], key: &[u8], value: &[u8]) -> Result<bool, Error> {
        let mut had = false;
        let set = |handle: &mut Handle| handle.map_set(name, key, value, &mut had);
        let len = name.len() + key.len() + value.len();
        done(self.cache.change(len, set)?)?;
        Ok(had)
    }

    /// Returns whether the key had a value before.
    pub fn delete(&mut self, name: &[u8], key: &[u8]) -> Result<bool, Error> {
        let mut had = false;
        let delete = |handle: &mut Handle| handle.map_del(name, key, &mut had);
        done(self.cache.change(key.len(), delete)?)?;
        Ok(had)
    }

    /// Returns whether the key had the old value, and so has the new one.
    pub fn swap(
        &mut self,
        name: &[u8],
        key: &[u8],
        old: Option<&[u8]>,
        new: Option<&[u8]>,
    ) -> Result<bool, Error> {
        let len = name.len() + key.len() + new.map_or(0, <[u8]>::len);
        let swap = |handle: &mut Handle| handle.map_cas(name, key, old, new);
        match self.cache.change(len, swap)? {
            sys::OK => Ok(true),
            sys::STALE => Ok(false),
            status => Err(Error::of(status)),
        }
    }

    pub fn nearest(&mut self, name: &[u8], side: Side<'_>) -> Result<Option<Borrowed<'_>>, Error> {
        let found = self.found(|handle, room, needed| handle.map_next(name, side, room, needed))?;
        Ok(found.and_then(|pair| Pairs::of(pair, 1).next()))
    }

    pub fn is_empty(&mut self, name: &[u8]) -> Result<bool, Error> {
        let first = Side::First;
        let is_found =
            self.is_found(|handle, room, needed| handle.map_next(name, first, room, needed));
        Ok(!is_found?)
    }

    pub fn leaf(&mut self, name: &[u8], bounds: Bounds<'_>) -> Result<Leaf, Error> {
        let piece =
            self.piece(|handle, room, piece| handle.map_range(name, bounds, room, piece))?;
        let found = Pairs::of(&self.room[..piece.pairs_len], piece.count);
        let mut pairs = Vec::new();
        reserve(&mut pairs, piece.count)?;
        for pair in found {
            pairs.push(copy_of(pair)?);
        }
        let rest = self.rest_of(&piece)?;
        Ok(Leaf { pairs, rest })
    }

    pub fn count(&mut self, name: &[u8], bounds: Bounds<'_>) -> Result<Counted, Error> {
        let piece =
            self.piece(|handle, room, piece| handle.map_count(name, bounds, room, piece))?;
        let rest = self.rest_of(&piece)?;
        Ok(Counted {
            count: piece.count,
            rest,
        })
    }

    /// Returns whether there was a map with this name.
    pub fn drop_map(&mut self, name: &[u8]) -> Result<bool, Error> {
        let mut had = false;
        // it frees each page of the map, by a short message
        self.cache.keep_room(|log| log / 16)?;
        self.cache.call(|handle| handle.map_drop(name, &mut had))?;
        Ok(had)
    }

    /// Returns the names of all maps, in order.
    pub fn names(&mut self) -> Result<Vec<Vec<u8>>, Error> {
        let mut names: Vec<Vec<u8>> = Vec::new();
        loop {
            let after = names.last().map(Vec::as_slice);
            let next = self.found(|handle, room, needed| handle.map_name(after, room, needed))?;
            let Some(name) = next else {
                return Ok(names);
            };
            let name = copied(name)?;
            reserve(&mut names, 1)?;
            names.push(name);
        }
    }

    // What a call copied into the room, which is made as long as the call wants it.
    fn found(
        &mut self,
        mut call: impl FnMut(&mut Handle, &mut [u8], &mut usize) -> u32,
    ) -> Result<Option<&[u8]>, Error> {
        let mut needed = 0;
        loop {
            let room = self.room.as_mut_slice();
            match self.cache.on(|handle| call(handle, room, &mut needed))? {
                sys::OK => return Ok(Some(&self.room[..needed])),
                sys::NONE => return Ok(None),
                sys::SHORT if needed > self.room.len() => self.make_room(needed)?,
                status => return Err(Error::of(status)),
            }
        }
    }

    // Whether a call would have something to copy.
    fn is_found(
        &mut self,
        mut call: impl FnMut(&mut Handle, &mut [u8], &mut usize) -> u32,
    ) -> Result<bool, Error> {
        match self.cache.on(|handle| call(handle, &mut [], &mut 0))? {
            sys::OK | sys::SHORT => Ok(true),
            sys::NONE => Ok(false),
            status => Err(Error::of(status)),
        }
    }

    // What a call told of a leaf, whose bytes it copied into the room.
    fn piece(
        &mut self,
        mut call: impl FnMut(&mut Handle, &mut [u8], &mut Piece) -> u32,
    ) -> Result<Piece, Error> {
        let mut piece = Piece::default();
        loop {
            let room = self.room.as_mut_slice();
            let status = self.cache.on(|handle| call(handle, room, &mut piece))?;
            let needed = piece.pairs_len.saturating_add(piece.rest_len);
            match status {
                sys::OK => return Ok(piece),
                sys::SHORT if needed > self.room.len() => self.make_room(needed)?,
                status => return Err(Error::of(status)),
            }
        }
    }

    // The key from which the pairs are that are in no piece yet.
    fn rest_of(&self, piece: &Piece) -> Result<Option<Vec<u8>>, Error> {
        let rest = &self.room[piece.pairs_len..piece.pairs_len + piece.rest_len];
        piece.more.then(|| copied(rest)).transpose()
    }

    fn make_room(&mut self, needed: usize) -> Result<(), Error> {
        reserve(self.room, needed - self.room.len())?;
        self.room.resize(needed, 0);
        Ok(())
    }
}

impl Drop for Calls<'_> {
    fn drop(&mut self) {
        if self.room.len() > MOST_ROOM {
            self.room.truncate(USUAL_ROOM);
            self.room.shrink_to_fit();
        }
    }
}

/// A copy of some bytes.
pub fn copied(bytes: &[u8]) -> Result<Vec<u8>, Error> {
    let mut copied = Vec::new();
    let room = copied.try_reserve_exact(bytes.len());
    room.map_err(|_| Error::OutOfMemory)?;
    copied.extend_from_slice(bytes);
    Ok(copied)
}

/// A copy of a pair.
pub fn copy_of((key, value): Borrowed<'_>) -> Result<Pair, Error> {
    Ok((copied(key)?, copied(value)?))
}

fn reserve<T>(to: &mut Vec<T>, more: usize) -> Result<(), Error> {
    to.try_reserve(more).map_err(|_| Error::OutOfMemory)
}
