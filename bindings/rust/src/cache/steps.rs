//! Rewriting the file of a cache step by step, while the cache is used.

use super::{Cache, Place};
use crate::device::LEAST_READ;
use crate::error::{Error, done};
use crate::file::{Locked, Place as FilePlace, Replaced, Replacing};
use crate::settings::FileSettings;
use crate::sys;
use std::io;
use std::ops::Range;

// Bytes that the new file is longer than twice the old one while it is made.
const MORE: u64 = 4 << 20;

/// A rewriting that was begun.
///
/// The cache over the new file is opened while that is made: it reads what was copied, of which no byte changes any more.
pub(super) struct Steps {
    rewriting: sys::Rewriting,
    // it is closed before its file is removed
    next: Cache,
    settings: FileSettings,
    // The new file, which is removed where this is dropped, and how long it is while it is made: nothing is after its closed gate.
    replacing: Replacing,
    len: u64,
}

impl Cache {
    /// Begins to rewrite the file, which has `size` bytes, of which its pages take `live`.
    pub(crate) fn begin_rewriting(&mut self, size: u64, live: u64) -> Result<(), Error> {
        let Place::File(settings, place) = &self.place else {
            return Err(Error::NoFile);
        };
        let len = size.saturating_mul(2).saturating_add(MORE);
        self.steps = Some(Box::new(Steps::begin(place, *settings, live, len)?));
        Ok(())
    }

    /// Whether a rewriting was begun.
    pub(crate) fn is_rewriting(&self) -> bool {
        self.steps.is_some()
    }

    /// Ends the rewriting that was begun, and removes the new file.
    pub(crate) fn end_rewriting(&mut self) {
        self.steps = None;
    }

    /// The same for one that failed, or couldn't be begun.
    pub(crate) fn give_up_rewriting(&mut self, failure: Error) {
        self.steps = None;
        self.failure = Some(failure);
    }

    /// Why the last one was given up, if one was since the file was opened or replaced.
    pub(crate) fn rewriting_failure(&self) -> Option<Error> {
        self.failure.clone()
    }

    /// Takes a step of the rewriting that was begun, right after a flush: whether the cache is over the new file now. An error ends it.
    pub(crate) fn rewrite_step(&mut self, work: u64) -> Result<bool, Error> {
        let (Place::File(settings, place), Some(mut steps)) = (&self.place, self.steps.take())
        else {
            return Err(Error::NoFile);
        };
        let (settings, place) = (*settings, place.clone());
        if !steps.go_on(&place, work).map_err(Error::or_disk_full)? {
            self.steps = Some(steps);
            return Ok(false);
        }
        // what makes the pages was copied byte for byte
        if steps.next.live_bytes()? != self.live_bytes()? {
            return Err(Error::Corruption);
        }
        let replaced = steps.finish(&place)?;
        self.go_over(replaced, settings, &place)?;
        Ok(true)
    }
}

impl Steps {
    fn begin(
        place: &FilePlace,
        settings: FileSettings,
        live: u64,
        len: u64,
    ) -> Result<Steps, Error> {
        let replacing = Replacing::begin(place)?;
        let has_room = |old: &_, _: &_| sys::Rewriting::has_room(old, live);
        if !replacing.with_files(place, has_room)? {
            let full = io::Error::from(io::ErrorKind::StorageFull);
            return Err(Error::disk_full(full));
        }
        replacing.set_len(len)?;
        Ok(Steps {
            rewriting: sys::Rewriting::begin().ok_or(Error::OutOfMemory)?,
            next: Cache::closed_on(Box::new(replacing.file()), &settings)?,
            settings,
            replacing,
            len,
        })
    }

    // Copies a part: whether the new file is level with the old one, and the cache over it open.
    fn go_on(&mut self, place: &FilePlace, work: u64) -> Result<bool, Error> {
        let mut is_level = false;
        let step = |old: &_, new: &_| {
            let status = self.rewriting.step(old, new, work, &mut is_level);
            match status {
                sys::OK => Ok(()),
                _ => Err(Error::caused(status, io::Error::last_os_error())),
            }
        };
        self.replacing.with_files(place, step)??;
        let end = self.rewriting.stays();
        if end >= self.len {
            // so much was changed meanwhile
            return Err(Error::LogFull);
        }
        if is_level {
            // it reads them last, and begins that part anew where they aren't there
            let own_pages = self.rewriting.own_pages()..end;
            self.next
                .open_with(&self.settings, self.len, self.len, own_pages)
        } else {
            let is_open = self.next.open_with(&self.settings, self.len, end, 0..0)?;
            if is_open {
                Err(Error::Corruption)
            } else {
                Ok(false)
            }
        }
    }

    // Puts the new file in place.
    fn finish(self, place: &FilePlace) -> Result<Replaced<Cache>, Error> {
        let Steps {
            rewriting,
            mut next,
            replacing,
            ..
        } = self;
        // behind its closed gate
        let end = rewriting.stays() + 1;
        replacing.set_len(end)?;
        next.shorten(end);
        replacing.finish(place, |_: Locked| Ok(next))
    }
}

impl Cache {
    // Goes on opening it over a device of so many bytes, of which those up to a place may be read by now: whether it is open. It is given
    // some of them each time before it asks for them.
    fn open_with(
        &mut self,
        settings: &FileSettings,
        len: u64,
        end: u64,
        given: Range<u64>,
    ) -> Result<bool, Error> {
        let Some(attached) = &mut self.attached else {
            return Err(Error::NoFile);
        };
        loop {
            let status = self.handle.open_file(settings, len);
            if status == sys::NEEDS && !needs_up_to(&mut self.handle, end)? {
                return Ok(false);
            }
            if let Some(status) = attached.settle(&mut self.handle, status)? {
                return done(status).map(|()| true);
            }
            attached.hand_in(&mut self.handle, given.start, given.end)?;
        }
    }

    fn shorten(&mut self, end: u64) {
        if let Some(attached) = &mut self.attached {
            attached.shorten(end);
        }
    }
}

// Whether what an opening needs, and what is read around it, ends before a place.
fn needs_up_to(handle: &mut sys::Handle, end: u64) -> Result<bool, Error> {
    let (mut at, mut len) = (0, 0);
    done(handle.needs(&mut at, &mut len))?;
    Ok(at.saturating_add(LEAST_READ.max(len as u64)) <= end)
}
