//! The calls of ordered maps, each of which names its map.

use super::Handle;
use std::ops::Bound;

/// What the library reports of a part of a map, besides its pairs.
#[repr(C)]
#[derive(Default)]
pub struct Piece {
    pub count: usize,
    pub pairs_len: usize,
    pub rest_len: usize,
    pub more: bool,
}

/// Which pair to find: the nearest to a key on one side, or the first or last.
#[derive(Clone, Copy)]
pub enum Side<'a> {
    Below(&'a [u8]),
    UpTo(&'a [u8]),
    First,
    Last,
}

impl<'a> Side<'a> {
    // As the header numbers them, and the key.
    fn parts(self) -> (u32, &'a [u8]) {
        match self {
            Side::Below(key) => (2, key),
            Side::UpTo(key) => (3, key),
            Side::First => (4, &[]),
            Side::Last => (5, &[]),
        }
    }
}

// The kind of a bound as the header numbers them, and its key.
fn parts_of(bound: Bound<&[u8]>) -> (u32, &[u8]) {
    match bound {
        Bound::Included(key) => (0, key),
        Bound::Excluded(key) => (1, key),
        Bound::Unbounded => (2, &[]),
    }
}

// A line for each, as in the header.
#[rustfmt::skip]
unsafe extern "C" {
    fn dilluvas_raw_map_get(d: *mut Handle, name: *const u8, name_len: usize, key: *const u8, key_len: usize, buffer: *mut u8, room: usize,
                            needed: *mut usize) -> u32;
    fn dilluvas_raw_map_set(d: *mut Handle, name: *const u8, name_len: usize, key: *const u8, key_len: usize, value: *const u8,
                            value_len: usize, had: *mut bool) -> u32;
    fn dilluvas_raw_map_del(d: *mut Handle, name: *const u8, name_len: usize, key: *const u8, key_len: usize, had: *mut bool) -> u32;
    fn dilluvas_raw_map_cas(d: *mut Handle, name: *const u8, name_len: usize, key: *const u8, key_len: usize, has_old: bool, old: *const u8,
                            old_len: usize, has_new: bool, new: *const u8, new_len: usize) -> u32;
    fn dilluvas_raw_map_next(d: *mut Handle, name: *const u8, name_len: usize, side: u32, bound: *const u8, bound_len: usize,
                             buffer: *mut u8, room: usize, needed: *mut usize) -> u32;
    fn dilluvas_raw_map_range(d: *mut Handle, name: *const u8, name_len: usize, from_kind: u32, from: *const u8, from_len: usize,
                              to_kind: u32, to: *const u8, to_len: usize, buffer: *mut u8, room: usize, piece: *mut Piece) -> u32;
    fn dilluvas_raw_map_count(d: *mut Handle, name: *const u8, name_len: usize, from_kind: u32, from: *const u8, from_len: usize,
                              to_kind: u32, to: *const u8, to_len: usize, buffer: *mut u8, room: usize, piece: *mut Piece) -> u32;
    fn dilluvas_raw_map_drop(d: *mut Handle, name: *const u8, name_len: usize, had: *mut bool) -> u32;
    fn dilluvas_raw_map_name(d: *mut Handle, has_after: bool, after: *const u8, after_len: usize, buffer: *mut u8, room: usize,
                             needed: *mut usize) -> u32;
}

// The type of the two functions that look at a piece of a map.
#[rustfmt::skip]
type RawPiece = unsafe extern "C" fn(*mut Handle, *const u8, usize, u32, *const u8, usize, u32, *const u8, usize, *mut u8, usize,
                                     *mut Piece) -> u32;

// SAFETY of each call below: as of those of the module above. What is absent is given as no bytes, whose pointer isn't null either.

impl Handle {
    pub fn map_get(
        &mut self,
        name: &[u8],
        key: &[u8],
        buffer: &mut [u8],
        needed: &mut usize,
    ) -> u32 {
        let (name, name_len) = (name.as_ptr(), name.len());
        let (key, key_len) = (key.as_ptr(), key.len());
        let (buffer, room) = (buffer.as_mut_ptr(), buffer.len());
        unsafe { dilluvas_raw_map_get(self, name, name_len, key, key_len, buffer, room, needed) }
    }

    pub fn map_set(&mut self, name: &[u8], key: &[u8], value: &[u8], had: &mut bool) -> u32 {
        let (name, name_len) = (name.as_ptr(), name.len());
        let (key, key_len) = (key.as_ptr(), key.len());
        let (value, value_len) = (value.as_ptr(), value.len());
        unsafe { dilluvas_raw_map_set(self, name, name_len, key, key_len, value, value_len, had) }
    }

    pub fn map_del(&mut self, name: &[u8], key: &[u8], had: &mut bool) -> u32 {
        let (name, name_len) = (name.as_ptr(), name.len());
        unsafe { dilluvas_raw_map_del(self, name, name_len, key.as_ptr(), key.len(), had) }
    }

    pub fn map_cas(
        &mut self,
        name: &[u8],
        key: &[u8],
        old: Option<&[u8]>,
        new: Option<&[u8]>,
    ) -> u32 {
        let (name, name_len) = (name.as_ptr(), name.len());
        let (key, key_len) = (key.as_ptr(), key.len());
        let (has_old, old) = (old.is_some(), old.unwrap_or_default());
        let (has_new, new) = (new.is_some(), new.unwrap_or_default());
        let (old, old_len) = (old.as_ptr(), old.len());
        let (new, new_len) = (new.as_ptr(), new.len());
        unsafe {
            dilluvas_raw_map_cas(
                self, name, name_len, key, key_len, has_old, old, old_len, has_new, new, new_len,
            )
        }
    }

    pub fn map_next(
        &mut self,
        name: &[u8],
        side: Side<'_>,
        buffer: &mut [u8],
        needed: &mut usize,
    ) -> u32 {
        let (name, name_len) = (name.as_ptr(), name.len());
        let (side, key) = side.parts();
        let (key, key_len) = (key.as_ptr(), key.len());
        let (buffer, room) = (buffer.as_mut_ptr(), buffer.len());
        unsafe {
            dilluvas_raw_map_next(
                self, name, name_len, side, key, key_len, buffer, room, needed,
            )
        }
    }

    pub fn map_range(
        &mut self,
        name: &[u8],
        bounds: (Bound<&[u8]>, Bound<&[u8]>),
        buffer: &mut [u8],
        piece: &mut Piece,
    ) -> u32 {
        self.map_piece(dilluvas_raw_map_range, name, bounds, buffer, piece)
    }

    pub fn map_count(
        &mut self,
        name: &[u8],
        bounds: (Bound<&[u8]>, Bound<&[u8]>),
        buffer: &mut [u8],
        piece: &mut Piece,
    ) -> u32 {
        self.map_piece(dilluvas_raw_map_count, name, bounds, buffer, piece)
    }

    // `call` is one of the two above.
    fn map_piece(
        &mut self,
        call: RawPiece,
        name: &[u8],
        (from, to): (Bound<&[u8]>, Bound<&[u8]>),
        buffer: &mut [u8],
        piece: &mut Piece,
    ) -> u32 {
        let (name, name_len) = (name.as_ptr(), name.len());
        let (from_kind, from) = parts_of(from);
        let (to_kind, to) = parts_of(to);
        let (from, from_len) = (from.as_ptr(), from.len());
        let (to, to_len) = (to.as_ptr(), to.len());
        let (buffer, room) = (buffer.as_mut_ptr(), buffer.len());
        unsafe {
            call(
                self, name, name_len, from_kind, from, from_len, to_kind, to, to_len, buffer, room,
                piece,
            )
        }
    }

    pub fn map_drop(&mut self, name: &[u8], had: &mut bool) -> u32 {
        unsafe { dilluvas_raw_map_drop(self, name.as_ptr(), name.len(), had) }
    }

    pub fn map_name(&mut self, after: Option<&[u8]>, buffer: &mut [u8], needed: &mut usize) -> u32 {
        let (has_after, after) = (after.is_some(), after.unwrap_or_default());
        let (after, after_len) = (after.as_ptr(), after.len());
        let (buffer, room) = (buffer.as_mut_ptr(), buffer.len());
        unsafe { dilluvas_raw_map_name(self, has_after, after, after_len, buffer, room, needed) }
    }
}
