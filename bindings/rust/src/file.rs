//! Files of the system, where several processes may try to use the same one.
//!
//! A file belongs to the process that has locked it and has then checked, under the lock, that the path still leads to it. The same goes for
//! the new file next to it, by its other name. So only the process that has locked a file changes what the path or the other name leads to:
//! what is seen of a name under the lock stays so until the lock is released. If a path leads to no file there is nothing to lock, and a file
//! gets that name by a call that fails if there is one.

mod copying;
mod folder;
mod frames;
mod locked;
mod making;
mod new;
mod replacing;

pub use copying::{copy_file, copy_file_with};
pub(crate) use locked::Locked;
pub(crate) use replacing::{Replaced, Replacing, replace};

use crate::error::Error;
use new::New;
use std::fs;
use std::io::{self, ErrorKind};
use std::path::{Path, PathBuf};

// So often is a file opened again whose place another took meanwhile.
const MOST_TRIES: usize = 100;

/// A locked file and its path.
#[derive(Clone)]
pub(crate) struct Place {
    file: Locked,
    // with no link in it; none where the file was taken away
    path: Option<PathBuf>,
}

/// Opens and locks the file at a path, or creates it if it is missing or empty. In that case `open` is given a file with no bytes, which gets
/// its name once `open` has succeeded. If another process was faster, `open` is called again with the other file, and what it returned for the
/// first is dropped.
pub(crate) fn open_or_make<T>(
    path: &Path,
    mut open: impl FnMut(Locked) -> Result<T, Error>,
) -> Result<(T, Place), Error> {
    let (opened, file) = open_or_make_locked(path, |file| Ok((open(file.clone())?, file)))?;
    Ok((opened, Place::of(file, path)))
}

/// Opens and locks the file at a path, and fails if it is missing. An empty file is not one that a cache wrote.
pub(crate) fn open_existing<T>(
    path: &Path,
    open: impl FnOnce(Locked) -> Result<T, Error>,
) -> Result<(T, Place), Error> {
    let Some((file, found)) = locked::open_locked(path)? else {
        let absent = io::Error::new(ErrorKind::NotFound, "there is no such file");
        return Err(Error::no_access(absent));
    };
    if found.len() == 0 {
        return Err(Error::Corruption);
    }
    folder::sync_name(path)?;
    let opened = open(file.clone())?;
    Ok((opened, Place::of(file, path)))
}

impl Place {
    /// Whether this process locked the file. A child that was forked did not.
    pub(crate) fn is_ours(&self) -> bool {
        self.file.ours().is_ok()
    }

    /// Releases the room that is reserved after the end of the file, and returns whether there was some.
    pub(crate) fn give_back_room(&self) -> bool {
        self.file.give_back_room()
    }

    /// Unlocks the file, which is no longer read or written.
    pub(crate) fn let_go(&self) {
        self.file.let_go();
    }

    fn of(file: Locked, path: &Path) -> Place {
        let path = fs::canonicalize(path).ok();
        if let Some(path) = &path {
            New::take_left_away(path, &file);
        }
        Place { file, path }
    }
}

fn open_or_make_locked<T>(
    path: &Path,
    mut open: impl FnMut(Locked) -> Result<T, Error>,
) -> Result<T, Error> {
    for _ in 0..MOST_TRIES {
        let made = match locked::open_locked(path)? {
            Some((file, found)) if found.len() > 0 => {
                folder::sync_name(path)?;
                return open(file);
            }
            Some((empty, found)) => making::make_of_empty(path, &empty, &found, &mut open)?,
            None => making::make_absent(path, &mut open)?,
        };
        if let Some(made) = made {
            return Ok(made);
        }
        // another file took its place while it was made
    }
    Err(locked::is_taken())
}
