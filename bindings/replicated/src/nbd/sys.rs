//! The functions of libnbd that this crate calls, as `libnbd.h` declares them.

use std::ffi::{c_char, c_int, c_void};

#[repr(C)]
pub struct RawHandle {
    _private: [u8; 0],
}

/// Of `nbd_get_block_size`: the least one that a request may have.
pub const SIZE_MINIMUM: c_int = 0;

unsafe extern "C" {
    pub fn nbd_create() -> *mut RawHandle;
    pub fn nbd_close(handle: *mut RawHandle);
    pub fn nbd_get_error() -> *const c_char;
    pub fn nbd_connect_uri(handle: *mut RawHandle, uri: *const c_char) -> c_int;
    pub fn nbd_get_size(handle: *mut RawHandle) -> i64;
    pub fn nbd_get_block_size(handle: *mut RawHandle, kind: c_int) -> i64;
    pub fn nbd_can_flush(handle: *mut RawHandle) -> c_int;
    pub fn nbd_is_read_only(handle: *mut RawHandle) -> c_int;
    pub fn nbd_pread(
        handle: *mut RawHandle,
        into: *mut c_void,
        count: usize,
        offset: u64,
        flags: u32,
    ) -> c_int;
    pub fn nbd_pwrite(
        handle: *mut RawHandle,
        bytes: *const c_void,
        count: usize,
        offset: u64,
        flags: u32,
    ) -> c_int;
    pub fn nbd_flush(handle: *mut RawHandle, flags: u32) -> c_int;
}
