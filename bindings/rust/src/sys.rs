//! The functions of the library, as `bindings/c/dilluvas.h` declares them, with a safe one over each, which returns the status. Nothing
//! compares these declarations with the header except the programs that call both. After them are two functions of the system. Only this module
//! and those in it have `unsafe`.

#![allow(unsafe_code)]

mod maps;
mod rewriting;

pub use maps::{Piece, Side};
pub use rewriting::Rewriting;

use crate::settings::{FileSettings, Settings};
#[cfg(all(target_os = "linux", target_pointer_width = "64"))]
use std::ffi::c_int;
use std::ffi::c_void;
use std::fs::File;
use std::io;
#[cfg(all(target_os = "linux", target_pointer_width = "64"))]
use std::os::fd::AsRawFd;
use std::ptr;

pub const OK: u32 = 0;
pub const STALE: u32 = 1;
pub const GONE: u32 = 2;
pub const NONE: u32 = 3;
pub const SHORT: u32 = 4;
pub const READ: u32 = 17;
pub const WRITE: u32 = 18;
pub const NEEDS: u32 = 20;
pub const NO_ACCESS: u32 = 33;
pub const DISK_FULL: u32 = 35;

// The kinds of a task.
pub const NOTHING: u32 = 0;
pub const SYNC: u32 = 2;

/// The handle of a cache. All zeros is a closed one.
#[repr(C)]
pub struct Handle {
    at: *mut c_void,
    is_open: bool,
}

// SAFETY: that a handle may go to another thread is proved where the library declares it.
unsafe impl Send for Handle {}

/// The next task on a file.
#[repr(C)]
#[derive(Default)]
pub struct Task {
    pub kind: u32,
    pub at: u64,
    pub len: usize,
}

/// What the library reports of a page, besides its pairs.
#[repr(C)]
#[derive(Default)]
pub struct Found {
    pub stamp: u64,
    pub count: usize,
    pub needed: usize,
    pub is_index: bool,
}

// A line for each, as in the header.
#[rustfmt::skip]
unsafe extern "C" {
    fn dilluvas_raw_open_memory(d: *mut Handle, settings: *const Settings) -> u32;
    fn dilluvas_raw_open_file(d: *mut Handle, settings: *const FileSettings, len: u64) -> u32;
    fn dilluvas_raw_new_log(d: *mut Handle, settings: *const FileSettings) -> u32;
    fn dilluvas_raw_rewrite(d: *mut Handle, into: *mut Handle) -> u32;
    fn dilluvas_raw_compact(d: *mut Handle, settings: *const Settings) -> u32;
    fn dilluvas_raw_next_task(d: *mut Handle, task: *mut Task, buffer: *mut u8, room: usize) -> u32;
    fn dilluvas_raw_needs(d: *mut Handle, at: *mut u64, len: *mut usize) -> u32;
    fn dilluvas_raw_hand_in(d: *mut Handle, at: u64, bytes: *const u8, len: usize) -> u32;
    fn dilluvas_raw_forget(d: *mut Handle) -> u32;
    fn dilluvas_raw_failed(d: *mut Handle) -> u32;
    fn dilluvas_raw_close(d: *mut Handle) -> u32;
    fn dilluvas_raw_text(status: u32, buffer: *mut u8, room: usize, needed: *mut usize) -> u32;
    fn dilluvas_raw_allocate(d: *mut Handle, pairs: *const u8, pairs_len: usize, page: *mut u64, stamp: *mut u64) -> u32;
    fn dilluvas_raw_get(d: *mut Handle, page: u64, found: *mut Found, buffer: *mut u8, room: usize) -> u32;
    fn dilluvas_raw_value(d: *mut Handle, page: u64, key: *const u8, key_len: usize, stamp: *mut u64, buffer: *mut u8, room: usize,
                          needed: *mut usize) -> u32;
    fn dilluvas_raw_set(d: *mut Handle, page: u64, stamp: *mut u64, key: *const u8, key_len: usize, value: *const u8,
                        value_len: usize) -> u32;
    fn dilluvas_raw_del(d: *mut Handle, page: u64, stamp: *mut u64, key: *const u8, key_len: usize) -> u32;
    fn dilluvas_raw_replace(d: *mut Handle, page: u64, stamp: *mut u64, pairs: *const u8, pairs_len: usize) -> u32;
    fn dilluvas_raw_free(d: *mut Handle, page: u64, stamp: *mut u64) -> u32;
    fn dilluvas_raw_root(d: *mut Handle, name: *const u8, name_len: usize, page: *mut u64) -> u32;
    fn dilluvas_raw_cas_root(d: *mut Handle, name: *const u8, name_len: usize, root: *mut u64, next: u64) -> u32;
    fn dilluvas_raw_open_tree(d: *mut Handle, name: *const u8, name_len: usize, page: *mut u64) -> u32;
    fn dilluvas_raw_generate_id(d: *mut Handle, id: *mut u64) -> u32;
    fn dilluvas_raw_pin(d: *mut Handle) -> u32;
    fn dilluvas_raw_seal(d: *mut Handle) -> u32;
    fn dilluvas_raw_cancel(d: *mut Handle) -> u32;
    fn dilluvas_raw_flush(d: *mut Handle, written: *mut usize) -> u32;
    fn dilluvas_raw_size(d: *mut Handle, bytes: *mut u64) -> u32;
    fn dilluvas_raw_live(d: *mut Handle, bytes: *mut u64) -> u32;
    fn dilluvas_raw_amp(d: *mut Handle, log: *mut u64, pages: *mut u64) -> u32;
    fn dilluvas_raw_page_count(d: *mut Handle, pages: *mut u64) -> u32;
    fn dilluvas_raw_page_size(d: *mut Handle, page: u64, bytes: *mut u64) -> u32;
    fn dilluvas_raw_gc(d: *mut Handle, moved: *mut bool) -> u32;
    fn dilluvas_raw_was_recovered(d: *mut Handle, recovered: *mut bool) -> u32;
}

// SAFETY of each call below, by what dilluvas.h says that a program owes:
//
// - A handle is made closed, and no other module reaches its fields: these functions alone write it. It is moved, but never copied.
// - Each has it by `&mut`, so that one call at a time uses it.
// - A pointer to bytes is that of a slice, with its length behind it, and every other one that of a reference to a value of its type. None
//   is null, and all that it points to is initialised. No function keeps one.
// - What is written to is borrowed by `&mut`: it overlaps nothing else that the call is given.

impl Handle {
    pub const CLOSED: Handle = Handle {
        at: ptr::null_mut(),
        is_open: false,
    };

    pub fn open_memory(&mut self, settings: &Settings) -> u32 {
        unsafe { dilluvas_raw_open_memory(self, settings) }
    }

    pub fn open_file(&mut self, settings: &FileSettings, len: u64) -> u32 {
        unsafe { dilluvas_raw_open_file(self, settings, len) }
    }

    pub fn new_log(&mut self, settings: &FileSettings) -> u32 {
        unsafe { dilluvas_raw_new_log(self, settings) }
    }

    pub fn rewrite(&mut self, into: &mut Handle) -> u32 {
        unsafe { dilluvas_raw_rewrite(self, into) }
    }

    pub fn compact(&mut self, settings: &Settings) -> u32 {
        unsafe { dilluvas_raw_compact(self, settings) }
    }

    pub fn next_task(&mut self, task: &mut Task, buffer: &mut [u8]) -> u32 {
        unsafe { dilluvas_raw_next_task(self, task, buffer.as_mut_ptr(), buffer.len()) }
    }

    pub fn needs(&mut self, at: &mut u64, len: &mut usize) -> u32 {
        unsafe { dilluvas_raw_needs(self, at, len) }
    }

    pub fn hand_in(&mut self, at: u64, bytes: &[u8]) -> u32 {
        unsafe { dilluvas_raw_hand_in(self, at, bytes.as_ptr(), bytes.len()) }
    }

    pub fn forget(&mut self) -> u32 {
        unsafe { dilluvas_raw_forget(self) }
    }

    pub fn failed(&mut self) -> u32 {
        unsafe { dilluvas_raw_failed(self) }
    }

    pub fn allocate(&mut self, pairs: &[u8], page: &mut u64, stamp: &mut u64) -> u32 {
        unsafe { dilluvas_raw_allocate(self, pairs.as_ptr(), pairs.len(), page, stamp) }
    }

    pub fn get(&mut self, page: u64, found: &mut Found, buffer: &mut [u8]) -> u32 {
        unsafe { dilluvas_raw_get(self, page, found, buffer.as_mut_ptr(), buffer.len()) }
    }

    pub fn value(
        &mut self,
        page: u64,
        key: &[u8],
        stamp: &mut u64,
        buffer: &mut [u8],
        needed: &mut usize,
    ) -> u32 {
        let (key, key_len) = (key.as_ptr(), key.len());
        let (buffer, room) = (buffer.as_mut_ptr(), buffer.len());
        unsafe { dilluvas_raw_value(self, page, key, key_len, stamp, buffer, room, needed) }
    }

    pub fn set(&mut self, page: u64, stamp: &mut u64, key: &[u8], value: &[u8]) -> u32 {
        let (key, key_len) = (key.as_ptr(), key.len());
        let (value, value_len) = (value.as_ptr(), value.len());
        unsafe { dilluvas_raw_set(self, page, stamp, key, key_len, value, value_len) }
    }

    pub fn del(&mut self, page: u64, stamp: &mut u64, key: &[u8]) -> u32 {
        unsafe { dilluvas_raw_del(self, page, stamp, key.as_ptr(), key.len()) }
    }

    pub fn replace(&mut self, page: u64, stamp: &mut u64, pairs: &[u8]) -> u32 {
        unsafe { dilluvas_raw_replace(self, page, stamp, pairs.as_ptr(), pairs.len()) }
    }

    pub fn free(&mut self, page: u64, stamp: &mut u64) -> u32 {
        unsafe { dilluvas_raw_free(self, page, stamp) }
    }

    pub fn root(&mut self, name: &[u8], page: &mut u64) -> u32 {
        unsafe { dilluvas_raw_root(self, name.as_ptr(), name.len(), page) }
    }

    pub fn cas_root(&mut self, name: &[u8], root: &mut u64, next: u64) -> u32 {
        unsafe { dilluvas_raw_cas_root(self, name.as_ptr(), name.len(), root, next) }
    }

    pub fn open_tree(&mut self, name: &[u8], page: &mut u64) -> u32 {
        unsafe { dilluvas_raw_open_tree(self, name.as_ptr(), name.len(), page) }
    }

    pub fn generate_id(&mut self, id: &mut u64) -> u32 {
        unsafe { dilluvas_raw_generate_id(self, id) }
    }

    pub fn pin(&mut self) -> u32 {
        unsafe { dilluvas_raw_pin(self) }
    }

    pub fn seal(&mut self) -> u32 {
        unsafe { dilluvas_raw_seal(self) }
    }

    pub fn cancel(&mut self) -> u32 {
        unsafe { dilluvas_raw_cancel(self) }
    }

    pub fn flush(&mut self, written: &mut usize) -> u32 {
        unsafe { dilluvas_raw_flush(self, written) }
    }

    pub fn size(&mut self, bytes: &mut u64) -> u32 {
        unsafe { dilluvas_raw_size(self, bytes) }
    }

    pub fn live(&mut self, bytes: &mut u64) -> u32 {
        unsafe { dilluvas_raw_live(self, bytes) }
    }

    pub fn amp(&mut self, log: &mut u64, pages: &mut u64) -> u32 {
        unsafe { dilluvas_raw_amp(self, log, pages) }
    }

    pub fn page_count(&mut self, pages: &mut u64) -> u32 {
        unsafe { dilluvas_raw_page_count(self, pages) }
    }

    pub fn page_size(&mut self, page: u64, bytes: &mut u64) -> u32 {
        unsafe { dilluvas_raw_page_size(self, page, bytes) }
    }

    pub fn gc(&mut self, moved: &mut bool) -> u32 {
        unsafe { dilluvas_raw_gc(self, moved) }
    }

    pub fn was_recovered(&mut self, recovered: &mut bool) -> u32 {
        unsafe { dilluvas_raw_was_recovered(self, recovered) }
    }
}

impl Drop for Handle {
    fn drop(&mut self) {
        unsafe { dilluvas_raw_close(self) };
    }
}

/// Writes the text of a status, and how many bytes it has.
pub fn text(status: u32, buffer: &mut [u8], needed: &mut usize) -> u32 {
    unsafe { dilluvas_raw_text(status, buffer.as_mut_ptr(), buffer.len(), needed) }
}

/// Returns how many bytes a file that this process writes may have (RLIMIT_FSIZE): a write past that raises a signal, which ends the process.
#[cfg(all(target_os = "linux", target_pointer_width = "64"))]
pub fn longest_file() -> u64 {
    unsafe extern "C" {
        fn getrlimit(resource: c_int, soft_and_hard: *mut [u64; 2]) -> c_int;
    }
    const FILE_SIZE: c_int = 1;
    // they stay so where the system doesn't tell them
    let mut soft_and_hard = [u64::MAX; 2];
    // SAFETY: it writes to the two numbers alone.
    unsafe { getrlimit(FILE_SIZE, &mut soft_and_hard) };
    soft_and_hard[0]
}

/// Returns the greatest number: other systems are not asked for their limit.
#[cfg(not(all(target_os = "linux", target_pointer_width = "64")))]
pub fn longest_file() -> u64 {
    u64::MAX
}

/// Reserves room for `len` bytes of a file from `at` on (fallocate), without changing its length.
#[cfg(all(target_os = "linux", target_pointer_width = "64"))]
pub fn keep_room(file: &File, at: u64, len: u64) -> io::Result<()> {
    unsafe extern "C" {
        fn fallocate(file: c_int, mode: c_int, at: i64, len: i64) -> c_int;
    }
    const KEEP_SIZE: c_int = 1;
    let (Ok(at), Ok(len)) = (i64::try_from(at), i64::try_from(len)) else {
        return Err(io::ErrorKind::InvalidInput.into());
    };
    // SAFETY: it is given numbers alone, and the file is open.
    match unsafe { fallocate(file.as_raw_fd(), KEEP_SIZE, at, len) } {
        0 => Ok(()),
        _ => Err(io::Error::last_os_error()),
    }
}

/// Fails with `Unsupported`: on other systems no room is reserved.
#[cfg(not(all(target_os = "linux", target_pointer_width = "64")))]
pub fn keep_room(_: &File, _: u64, _: u64) -> io::Result<()> {
    Err(io::ErrorKind::Unsupported.into())
}
