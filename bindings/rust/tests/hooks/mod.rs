//! Stands between this program and the system: each call by which a file is found, named, locked or changed passes the hook of its thread.
//!
//! The functions below have the names of the C library's, so that the linker takes them for what the standard library calls.

#![allow(dead_code)] // each test that includes it uses a part

use std::cell::RefCell;
use std::ffi::{CStr, c_char, c_int, c_long, c_uint, c_void};
use std::mem;
use std::panic::{AssertUnwindSafe, catch_unwind};
use std::process;
use std::sync::OnceLock;

/// What becomes of a call.
#[derive(Clone, Copy, Debug, PartialEq, Eq)]
pub enum Call {
    IsMade,
    /// It answers 0 and does nothing.
    IsPassed,
    /// It answers an error.
    Fails(i32),
}

pub type Hook = Box<dyn FnMut(&'static str) -> Call>;

thread_local! {
    static HOOK: RefCell<Option<Hook>> = const { RefCell::new(None) };
}

/// Does what is given, with a hook that is asked before each call by the name of that. What a hook calls itself passes none.
pub fn hooked<T>(hook: impl FnMut(&'static str) -> Call + 'static, body: impl FnOnce() -> T) -> T {
    HOOK.set(Some(Box::new(hook)));
    let done = body();
    HOOK.set(None);
    done
}

fn asked(name: &'static str) -> Call {
    // where the thread ends there is none
    let hook = HOOK.try_with(|hook| hook.take()).ok().flatten();
    let Some(mut hook) = hook else {
        return Call::IsMade;
    };
    let call = hook(name);
    HOOK.set(Some(hook));
    call
}

unsafe extern "C" {
    fn dlsym(handle: *mut c_void, name: *const c_char) -> *mut c_void;
    fn __errno_location() -> *mut c_int;
    fn fork() -> c_int;
    fn waitpid(process: c_int, status: *mut c_int, options: c_int) -> c_int;
    fn alarm(seconds: c_uint) -> c_uint;
    fn _exit(status: c_int) -> !;
}

// The C library's own function of a name.
fn of_the_system(name: &CStr) -> usize {
    const NEXT: usize = usize::MAX; // RTLD_NEXT
    // SAFETY: the name is a string.
    let found = unsafe { dlsym(NEXT as *mut c_void, name.as_ptr()) };
    if found.is_null() {
        process::abort();
    }
    found as usize
}

macro_rules! hooked_calls {
    ($(fn $name:ident($($value:ident: $kind:ty),*) -> $answer:ty;)*) => {$(
        #[unsafe(no_mangle)]
        unsafe extern "C" fn $name($($value: $kind),*) -> $answer {
            static SYSTEM: OnceLock<usize> = OnceLock::new();
            let name = stringify!($name);
            let call = asked(name);
            // SAFETY: the functions of the C library are those that are declared here.
            unsafe {
                let function = *SYSTEM.get_or_init(|| {
                    let name = concat!(stringify!($name), "\0");
                    of_the_system(CStr::from_bytes_with_nul(name.as_bytes()).unwrap())
                });
                let function = mem::transmute::<usize, unsafe extern "C" fn($($kind),*) -> $answer>(function);
                match call {
                    Call::IsMade => function($($value),*),
                    Call::IsPassed => 0,
                    Call::Fails(error) => {
                        *__errno_location() = error;
                        -1
                    }
                }
            }
        }
    )*};
}

// Of the last value of `open64` it depends on the flags whether it is there; it goes on as it came.
hooked_calls! {
    fn open64(path: *const c_char, flags: c_int, mode: c_uint) -> c_int;
    fn statx(folder: c_int, path: *const c_char, flags: c_int, mask: c_uint, found: *mut c_void) -> c_int;
    fn flock(file: c_int, how: c_int) -> c_int;
    fn linkat(from: c_int, old: *const c_char, to: c_int, new: *const c_char, flags: c_int) -> c_int;
    fn rename(old: *const c_char, new: *const c_char) -> c_int;
    fn unlink(path: *const c_char) -> c_int;
    fn ftruncate64(file: c_int, len: c_long) -> c_int;
    fn pwrite64(file: c_int, bytes: *const c_void, len: usize, at: c_long) -> isize;
    fn pread64(file: c_int, bytes: *mut c_void, len: usize, at: c_long) -> isize;
    fn fdatasync(file: c_int) -> c_int;
    fn fsync(file: c_int) -> c_int;
}

/// Does what is given in a child that is forked, and answers its status: what that answers. A minute is more than a child takes.
pub fn forked(body: impl FnOnce() -> i32) -> i32 {
    // SAFETY: the child has this thread alone, and the C library lets it allocate. It ends here, and so does no test of it.
    unsafe {
        match fork() {
            0 => {
                alarm(60);
                _exit(catch_unwind(AssertUnwindSafe(body)).unwrap_or(101))
            }
            child => {
                let mut status = 0;
                assert_eq!(waitpid(child, &mut status, 0), child);
                assert_eq!(status & 0x7f, 0, "a signal ended it");
                status >> 8 & 0xff
            }
        }
    }
}

/// Ends the process as a signal does.
pub fn end(status: i32) -> ! {
    // SAFETY: it is a process that was forked.
    unsafe { _exit(status) }
}
