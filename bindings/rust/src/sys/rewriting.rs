//! The functions that rewrite a file step by step, as `bindings/c/dilluvas_rewriting.h` declares them.

use std::ffi::{c_int, c_void};
use std::fs::File;
use std::os::fd::AsRawFd;
use std::ptr::NonNull;

unsafe extern "C" {
    fn dilluvas_rewriting_has_room(from: c_int, bytes: u64) -> bool;
    fn dilluvas_rewriting_begin() -> *mut c_void;
    fn dilluvas_rewriting_step(
        r: *mut c_void,
        from: c_int,
        to: c_int,
        work: u64,
        level: *mut bool,
    ) -> u32;
    fn dilluvas_rewriting_stays(r: *const c_void) -> u64;
    fn dilluvas_rewriting_own_pages(r: *const c_void) -> u64;
    fn dilluvas_rewriting_end(r: *mut c_void);
}

/// A rewriting of a file that was begun.
pub struct Rewriting(NonNull<c_void>);

// SAFETY: it owns its memory alone.
unsafe impl Send for Rewriting {}

impl Rewriting {
    /// Whether the disk of a file has room for a new one of so many bytes.
    pub fn has_room(from: &File, bytes: u64) -> bool {
        // SAFETY: it is given numbers alone, and the file is open.
        unsafe { dilluvas_rewriting_has_room(from.as_raw_fd(), bytes) }
    }

    /// Begins one, or answers none where there is no memory.
    pub fn begin() -> Option<Rewriting> {
        // SAFETY: it is given nothing.
        NonNull::new(unsafe { dilluvas_rewriting_begin() }).map(Rewriting)
    }

    /// Takes a step, and writes whether the new file is level with the old one.
    pub fn step(&mut self, from: &File, to: &File, work: u64, is_level: &mut bool) -> u32 {
        let (from, to) = (from.as_raw_fd(), to.as_raw_fd());
        // SAFETY: the rewriting wasn't ended, and both files are open.
        unsafe { dilluvas_rewriting_step(self.0.as_ptr(), from, to, work, is_level) }
    }

    /// Up to where the new file stays as it is, whatever is copied later.
    pub fn stays(&self) -> u64 {
        // SAFETY: the rewriting wasn't ended.
        unsafe { dilluvas_rewriting_stays(self.0.as_ptr()) }
    }

    /// Where the cache's own pages are in the new file once both are level, up to its end.
    pub fn own_pages(&self) -> u64 {
        // SAFETY: the rewriting wasn't ended.
        unsafe { dilluvas_rewriting_own_pages(self.0.as_ptr()) }
    }
}

impl Drop for Rewriting {
    fn drop(&mut self) {
        // SAFETY: it is ended once.
        unsafe { dilluvas_rewriting_end(self.0.as_ptr()) };
    }
}
