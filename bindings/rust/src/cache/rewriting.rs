//! Rewriting a cache into a new log.

use super::{Cache, Place};
use crate::device::Device;
use crate::error::{Error, done};
use crate::file::{self, Replaced};
use crate::settings::FileSettings;
use std::mem;
use std::thread;

impl Cache {
    /// Rewrites the cache into a new log, which has each page as one message, and goes on over that: a log only grows else.
    ///
    /// Over a file it is a new one, which takes the place of the file, with its owner and its mode, and is locked before it does: at no moment
    /// the path leads to a file that another process may lock. Until then the new file has `.dilluvas-new` behind the name of the file, as one
    /// that is being made has. What a process left there that was killed is taken away, and never written to: it may be a second name of the
    /// file. Where this process is killed, or the power fails, the path leads to the old file or to the new one, with the same pages; all that
    /// was pending is durable in the new one. Other names of the file (hard links) stay with the old one. A link to the file leads to the new
    /// one.
    ///
    /// The cache is one that was opened over the new log: each page has stamp 0. A [`Token`](crate::Token) that was given before is let go,
    /// since a page may have it again with other pairs. No id comes twice.
    ///
    /// It takes as much memory as the new log has bytes, and where pages aren't in memory as much as the old one has, or twice that where that
    /// is more than 256 MiB. What that took is given back by a thread, behind the call.
    ///
    /// ```
    /// use dilluvas::{Cache, Settings, Token};
    ///
    /// # fn main() -> Result<(), dilluvas::Error> {
    /// let mut cache = Cache::in_memory(&Settings::default())?;
    /// let mut token = cache.allocate([("key", "value")])?;
    /// for _ in 0..100 {
    ///     token = cache.replace(token, [("key", "other")])?.done().expect("the token is the page's");
    /// }
    /// let before = cache.size()?;
    /// cache.compact()?;
    /// assert!(cache.size()? < before / 20);
    /// let page = cache.get(token.page)?.expect("it is there");
    /// assert_eq!(page.token(), Token { stamp: 0, ..token });
    /// assert_eq!(page.get("key"), Some(&b"other"[..]));
    /// # Ok(())
    /// # }
    /// ```
    ///
    /// # Errors
    ///
    /// [`BatchOpen`](Error::BatchOpen); [`OutOfMemory`](Error::OutOfMemory), [`Read`](Error::Read); [`Corruption`](Error::Corruption) for a
    /// page that can't be read, of which none is passed over; [`LogFull`](Error::LogFull); [`NoFile`](Error::NoFile) and
    /// [`NoAccess`](Error::NoAccess) where the new file can't be made, or the path doesn't lead to the file by now; [`Held`](Error::Held) where
    /// a process makes one by that name; [`NoFile`](Error::NoFile) for a cache on another device, which [`compact_to`](Cache::compact_to)
    /// rewrites; [`DiskFull`](Error::DiskFull) where the new file has no room, before which all that was pending was flushed, and the room
    /// that is kept for changes was given back to it. The file and the cache are what they were then. So they are at
    /// [`Write`](Error::Write) too where the new file couldn't be written or synced, and in a child that was forked, which replaces no file of
    /// its parent. Where the folder couldn't be synced every later call answers that: the new file is there, but a crash may bring back the
    /// old one.
    pub fn compact(&mut self) -> Result<(), Error> {
        self.end_rewriting();
        match &self.place {
            Place::Memory(settings) => {
                let settings = *settings;
                self.call(|handle| handle.compact(&settings))
            }
            Place::Device(_) => Err(Error::NoFile),
            Place::File(settings, place) => {
                let (settings, place) = (*settings, place.clone());
                match self.compact_file(settings, &place) {
                    Err(full @ Error::DiskFull(_)) => self.compact_without_room(&place, full),
                    compacted => compacted,
                }
            }
        }
    }

    /// Rewrites the cache into a new log on another device, of which there are no bytes, and goes on over that, as
    /// [`compact`](Cache::compact) does. The device that it was on is dropped. A cache in memory lies on the device then.
    ///
    /// # Errors
    ///
    /// [`Arguments`](Error::Arguments) where the other device has bytes; [`BatchOpen`](Error::BatchOpen);
    /// [`OutOfMemory`](Error::OutOfMemory), [`Read`](Error::Read), [`Write`](Error::Write); [`Corruption`](Error::Corruption) for a page
    /// that can't be read; [`LogFull`](Error::LogFull). The cache goes on where it was then, and the other device is dropped with what was
    /// written to it.
    pub fn compact_to(&mut self, device: impl Device + 'static) -> Result<(), Error> {
        let settings = match &self.place {
            Place::Memory(settings) => FileSettings {
                cache_capacity: settings.cache_capacity,
                idgen_persist_interval: settings.idgen_persist_interval,
                segment_size: settings.segment_size,
            },
            Place::Device(settings) | Place::File(settings, _) => *settings,
        };
        *self = self.rewritten(Box::new(device), &settings)?;
        Ok(())
    }

    // The same once the room that is kept for what is pending was given back, which the new file may take where nothing is pending.
    fn compact_without_room(&mut self, place: &file::Place, full: Error) -> Result<(), Error> {
        self.flush()?;
        if !place.give_back_room() {
            return Err(full);
        }
        if let Some(attached) = &mut self.attached {
            attached.forget_room();
        }
        let Place::File(settings, _) = self.place else {
            return Err(full);
        };
        self.compact_file(settings, place)
    }

    fn compact_file(&mut self, settings: FileSettings, place: &file::Place) -> Result<(), Error> {
        // behind a write that failed no file is made
        self.size()?;
        let replaced = file::replace(place, |file| self.rewritten(Box::new(file), &settings))?;
        self.go_over(replaced, settings, place)
    }

    /// Goes on over the file that took the place of the old one.
    pub(super) fn go_over(
        &mut self,
        replaced: Replaced<Cache>,
        settings: FileSettings,
        place: &file::Place,
    ) -> Result<(), Error> {
        let old = mem::replace(self, replaced.opened);
        self.place = Place::File(settings, replaced.place);
        // which of the two files a crash leaves isn't known where this fails, so nothing is written to the new one
        let synced = replaced.folder.sync().inspect_err(|error| {
            if let Some(attached) = &mut self.attached {
                attached.fail(&mut self.handle, error);
            }
        });
        place.let_go();
        // its memory and its file take a while to be given back, for which nobody waits
        let _ = thread::Builder::new().spawn(|| drop(old));
        synced
    }

    // A cache over the new log of a device into which this one was rewritten.
    fn rewritten(
        &mut self,
        device: Box<dyn Device>,
        settings: &FileSettings,
    ) -> Result<Cache, Error> {
        let mut next = Cache::closed_on(device, settings)?;
        if next.end() > 0 {
            return Err(Error::Arguments);
        }
        let rewritten = self.rewrite_into(&mut next, settings);
        self.handle.forget();
        rewritten.map_err(Error::or_disk_full)?;
        let opened = next.call(|handle| handle.open_file(settings, 0));
        opened.map_err(Error::or_disk_full)?;
        Ok(next)
    }

    // Rewrites the cache into the log of another one, of which no cache is open yet. That is begun anew where bytes of the device are
    // needed. Of these ever more are handed in together, so that it begins no more often than the device's length has digits.
    fn rewrite_into(&mut self, next: &mut Cache, settings: &FileSettings) -> Result<(), Error> {
        let mut part = LEAST_PART;
        loop {
            next.call(|handle| handle.new_log(settings))?;
            let status = self.handle.rewrite(&mut next.handle);
            let Some(attached) = &mut self.attached else {
                return done(status);
            };
            match attached.settle_in_parts(&mut self.handle, status, part)? {
                Some(status) => return done(status),
                None => part = part.saturating_mul(64),
            }
        }
    }
}

// So many bytes of a device are read together first, and then 64 times as many: that is all of most.
const LEAST_PART: u64 = 4 << 20;
