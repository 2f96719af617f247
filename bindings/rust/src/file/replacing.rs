//! Making a file in the place of one that is open.

use super::Place;
use super::folder::Folder;
use super::locked::Locked;
use super::new::New;
use crate::error::Error;
use std::fs::File;
use std::io;
use std::path::Path;

/// A file that took the place of another, whose name isn't durable until its folder is synced.
pub(crate) struct Replaced<T> {
    pub(crate) opened: T,
    pub(crate) place: Place,
    pub(crate) folder: Folder,
}

/// A new file that is to take the place of another. Both are locked. It is removed where it is dropped.
pub(crate) struct Replacing {
    new: New,
}

/// Makes a file in the place of one: `open` is given it with no bytes, and it has its name once that has succeeded. A child that was forked
/// replaces no file of its parent.
pub(crate) fn replace<T>(
    place: &Place,
    open: impl FnOnce(Locked) -> Result<T, Error>,
) -> Result<Replaced<T>, Error> {
    Replacing::begin(place)?.finish(place, open)
}

impl Replacing {
    /// Makes the new file, which has no bytes.
    pub(crate) fn begin(place: &Place) -> Result<Replacing, Error> {
        let path = path_of(place)?;
        // a folder that can't be synced is known before anything is written
        Folder::of(path)?;
        let found = place.file.metadata()?;
        let new = New::beside(path, Some(&place.file))?;
        new.give_owner_and_mode(&found)?;
        Ok(Replacing { new })
    }

    /// The new file.
    pub(crate) fn file(&self) -> Locked {
        self.new.file()
    }

    /// Gives the new file a length, by bytes that are 0 or by cutting it off.
    pub(crate) fn set_len(&self, len: u64) -> Result<(), Error> {
        self.new.set_len(len).map_err(Error::write)
    }

    /// The file that is replaced and the new one, for the process that locked them.
    pub(crate) fn with_files<T>(
        &self,
        place: &Place,
        call: impl FnOnce(&File, &File) -> T,
    ) -> Result<T, Error> {
        let new = self.new.file();
        let new = new.ours().map_err(Error::write)?;
        Ok(call(place.file.ours().map_err(Error::write)?, new))
    }

    /// Puts the new file in place, once `open` has succeeded with it, and it was synced.
    pub(crate) fn finish<T>(
        self,
        place: &Place,
        open: impl FnOnce(Locked) -> Result<T, Error>,
    ) -> Result<Replaced<T>, Error> {
        let path = path_of(place)?;
        let folder = Folder::of(path)?;
        let opened = open(self.new.file())?;
        // they may have been changed since the new file was made
        self.new.give_owner_and_mode(&place.file.metadata()?)?;
        self.new.sync().map_err(Error::or_disk_full)?;
        if !self.new.put_over(path, &place.file)? {
            return Err(leads_elsewhere());
        }
        let place = Place {
            file: self.new.file(),
            path: place.path.clone(),
        };
        Ok(Replaced {
            opened,
            place,
            folder,
        })
    }
}

// The path of a file that is this process's, and that its path leads to.
fn path_of(place: &Place) -> Result<&Path, Error> {
    place.file.ours().map_err(Error::write)?;
    let path = place.path.as_deref().ok_or_else(leads_elsewhere)?;
    if place.file.is_at(path) {
        Ok(path)
    } else {
        Err(leads_elsewhere())
    }
}

fn leads_elsewhere() -> Error {
    Error::no_access(io::Error::other(
        "the path doesn't lead to the file any more",
    ))
}
