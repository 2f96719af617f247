//! A cache that threads share by one lock.

use super::space::Space;
use crate::cache::Cache;
use crate::error::Error;
use crate::map::USUAL_ROOM;
use std::ops::{Deref, DerefMut};
use std::process;
use std::ptr;
use std::sync::atomic::{AtomicUsize, Ordering};
use std::sync::{Mutex, MutexGuard, PoisonError, TryLockError};
use std::thread;

/// A cache and its lock.
pub struct Shared {
    store: Mutex<Store>,
    // Which thread has the lock: 0 where none has. Each thread compares it with its own number alone, which no other one writes.
    holder: AtomicUsize,
    // The process that opened the cache.
    process: u32,
}

/// What the lock is for.
pub struct Store {
    pub cache: Cache,
    /// The buffer that calls copy into.
    pub room: Vec<u8>,
    /// When the cache is rewritten.
    pub space: Space,
}

/// The store, locked by this thread.
pub struct Locked<'a> {
    // it is let go behind the holder
    store: MutexGuard<'a, Store>,
    holder: &'a AtomicUsize,
}

impl Shared {
    pub fn new(cache: Cache) -> Shared {
        Shared {
            store: Mutex::new(Store {
                cache,
                room: vec![0; USUAL_ROOM],
                space: Space::default(),
            }),
            holder: AtomicUsize::new(0),
            process: process::id(),
        }
    }

    /// Waits for the lock.
    ///
    /// Fails with [`Reentrant`](Error::Reentrant) if this thread has it. A child that was forked while another thread had it would wait
    /// forever, as that thread doesn't exist in the child: the call fails with [`Held`](Error::Held) there.
    pub fn lock(&self) -> Result<Locked<'_>, Error> {
        let this = this_thread();
        if self.holder.load(Ordering::Relaxed) == this {
            return Err(Error::Reentrant);
        }
        // A panic leaves the cache whole: a batch is cancelled, and a device that panicked isn't used again.
        let store = match self.store.try_lock() {
            Ok(store) => store,
            Err(TryLockError::Poisoned(poisoned)) => poisoned.into_inner(),
            Err(TryLockError::WouldBlock) if self.process != process::id() => {
                return Err(Error::Held);
            }
            Err(TryLockError::WouldBlock) => {
                self.store.lock().unwrap_or_else(PoisonError::into_inner)
            }
        };
        self.holder.store(this, Ordering::Relaxed);
        Ok(Locked {
            store,
            holder: &self.holder,
        })
    }
}

impl Drop for Shared {
    // Behind a panic nobody knows what is pending, and a device that panics too would end the process. The file is the parent's where this is
    // a child.
    fn drop(&mut self) {
        if !thread::panicking() && self.process == process::id() {
            let store = self.store.get_mut();
            let store = store.unwrap_or_else(PoisonError::into_inner);
            // it is told to nobody, as the documentation of `Db` says
            let _ = store.cache.flush();
        }
    }
}

impl Deref for Locked<'_> {
    type Target = Store;

    fn deref(&self) -> &Store {
        &self.store
    }
}

impl DerefMut for Locked<'_> {
    fn deref_mut(&mut self) -> &mut Store {
        &mut self.store
    }
}

impl Drop for Locked<'_> {
    fn drop(&mut self) {
        self.holder.store(0, Ordering::Relaxed);
    }
}

// A number that no other thread has as long as this one runs: the place of a byte of its own.
fn this_thread() -> usize {
    thread_local!(static BYTE: u8 = const { 0 });
    BYTE.with(|byte| ptr::from_ref(byte).addr())
}
