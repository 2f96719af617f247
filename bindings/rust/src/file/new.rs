//! A new file, which is made beside the one whose place it is to take.

use super::MOST_TRIES;
use super::locked::{Locked, is_taken, lock, refusal};
use crate::error::Error;
use crate::sys;
use std::ffi::OsString;
use std::fs::{self, Metadata, OpenOptions};
use std::io::{self, ErrorKind};
use std::os::unix::fs::{MetadataExt, fchown};
use std::path::{Path, PathBuf};

/// A file with no bytes that is locked, and its only name, which is let go where it is dropped.
pub(super) struct New {
    file: Locked,
    name: PathBuf,
}

impl New {
    /// Makes one by the other name of a path. `own` is the file that the path leads to, which the caller has locked.
    ///
    /// What a process that was killed left by that name may be the file of a path, by a second name. It isn't written to: the name is taken
    /// away, and that only by who has locked the file.
    pub(super) fn beside(path: &Path, own: Option<&Locked>) -> Result<New, Error> {
        let name = name_while_made(path);
        let mut options = OpenOptions::new();
        options.read(true).write(true);
        for _ in 0..MOST_TRIES {
            if own.is_some_and(|own| own.is_at(&name)) {
                take_away(&name)?;
            }
            let is_there = match fs::symlink_metadata(&name) {
                Ok(found) if found.is_symlink() => return Err(is_link(&name)),
                Ok(found) if !found.is_file() => return Err(Error::NoFile),
                found => found.is_ok(),
            };
            let file = match options.create_new(!is_there).open(&name) {
                Ok(file) => file,
                Err(error) if error.kind() == ErrorKind::AlreadyExists => continue,
                Err(error) if is_there && error.kind() == ErrorKind::NotFound => continue,
                Err(error) => return Err(refusal(error)),
            };
            let (file, found) = lock(file)?;
            if !file.is_at(&name) {
                // another process took it before it was locked
                continue;
            }
            if !is_there && found.len() == 0 {
                file.put_syncs_off();
                return Ok(New { file, name });
            }
            // a process that was killed left it
            take_away(&name)?;
        }
        Err(is_taken())
    }

    /// Removes what a process left that was killed while it rewrote the file of a path, which the caller has locked. Nobody else would before
    /// the next rewriting.
    pub(super) fn take_left_away(path: &Path, own: &Locked) {
        let is_file = |found: Metadata| found.is_file();
        if fs::symlink_metadata(name_while_made(path)).is_ok_and(is_file) {
            // what can't be removed stays, and so does one that a process has locked
            drop(New::beside(path, Some(own)));
        }
    }

    /// The file.
    pub(super) fn file(&self) -> Locked {
        self.file.clone()
    }

    /// Gives it a length, which no process is ended for.
    pub(super) fn set_len(&self, len: u64) -> io::Result<()> {
        if len > sys::longest_file() {
            return Err(ErrorKind::FileTooLarge.into());
        }
        self.file.ours()?.set_len(len)
    }

    /// Makes it durable, before it has a path: the syncs of who wrote it waited for this one.
    pub(super) fn sync(&self) -> Result<(), Error> {
        self.file.sync_all().map_err(Error::write)
    }

    /// Gives it the owner and the mode of the file whose place it takes.
    pub(super) fn give_owner_and_mode(&self, old: &Metadata) -> Result<(), Error> {
        self.try_to_give(old).map_err(Error::write)
    }

    fn try_to_give(&self, old: &Metadata) -> io::Result<()> {
        let file = self.file.ours()?;
        let found = file.metadata()?;
        if (found.uid(), found.gid()) != (old.uid(), old.gid()) {
            match fchown(file, Some(old.uid()), Some(old.gid())) {
                // who may not give a file away keeps it
                Err(error) if error.kind() == ErrorKind::PermissionDenied => {}
                done => done?,
            }
        }
        file.set_permissions(old.permissions())
    }

    /// Gives it a path at which there is no file, and answers false where there is one.
    pub(super) fn put_at(&self, path: &Path) -> Result<bool, Error> {
        if !self.file.is_at(&self.name) {
            return Ok(false);
        }
        match fs::hard_link(&self.name, path) {
            Ok(()) => {
                self.let_go();
                Ok(true)
            }
            Err(error) if error.kind() == ErrorKind::AlreadyExists => Ok(false),
            Err(error) if is_of_no_links(&error) => put_empty(path).map(|()| false),
            Err(error) => Err(Error::no_access(error)),
        }
    }

    /// Gives it the path of a file that the caller has locked, and answers false where that leads elsewhere by now.
    pub(super) fn put_over(&self, path: &Path, old: &Locked) -> Result<bool, Error> {
        if !self.file.is_at(&self.name) || !old.is_at(path) {
            return Ok(false);
        }
        fs::rename(&self.name, path).map_err(Error::no_access)?;
        Ok(true)
    }

    // The name may be another file's: a user may have removed the file. In a child that was forked it is the parent's.
    fn let_go(&self) {
        if self.file.ours().is_ok() && self.file.is_at(&self.name) {
            // where it stays it is a second name, which whoever makes a file takes away
            let _ = fs::remove_file(&self.name);
        }
    }
}

impl Drop for New {
    // the file is still locked
    fn drop(&mut self) {
        self.let_go();
    }
}

fn name_while_made(path: &Path) -> PathBuf {
    let mut name = OsString::from(path);
    name.push(".dilluvas-new");
    PathBuf::from(name)
}

// A link by the other name may lead to any file, so it is left alone.
fn is_link(name: &Path) -> Error {
    let told = format!("{} is a link", name.display());
    Error::no_access(io::Error::other(told))
}

fn take_away(name: &Path) -> Result<(), Error> {
    fs::remove_file(name).map_err(Error::no_access)
}

// Whether the file system gives a file no second name.
fn is_of_no_links(error: &io::Error) -> bool {
    matches!(
        error.kind(),
        ErrorKind::PermissionDenied | ErrorKind::Unsupported | ErrorKind::TooManyLinks
    )
}

// Makes an empty file where there is none.
fn put_empty(path: &Path) -> Result<(), Error> {
    match OpenOptions::new().write(true).create_new(true).open(path) {
        Err(error) if error.kind() != ErrorKind::AlreadyExists => Err(Error::no_access(error)),
        _ => Ok(()),
    }
}
