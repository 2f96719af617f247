//! Making the file of a path. None is answered where another took the path meanwhile, so that everything is to begin anew with that.

use super::folder::Folder;
use super::locked::Locked;
use super::new::New;
use crate::error::Error;
use std::fs::{self, Metadata};
use std::io::{self, ErrorKind};
use std::path::Path;

/// Makes a file where a path leads to none.
///
/// Where the file system has no second names an empty file takes the path, and everything begins anew with that. Only there may a crash
/// leave an empty one.
pub(super) fn make_absent<T>(
    path: &Path,
    open: impl FnOnce(Locked) -> Result<T, Error>,
) -> Result<Option<T>, Error> {
    match fs::symlink_metadata(path) {
        _ if path.as_os_str().is_empty() => return Err(leads_nowhere("the path is empty")),
        // where a link leads to no file, none is made
        Ok(found) if found.is_symlink() => return Err(leads_nowhere("it is a link to no file")),
        Ok(_) => return Ok(None),
        Err(error) if error.kind() == ErrorKind::NotFound => {}
        Err(error) => return Err(Error::no_access(error)),
    }
    let folder = Folder::of(path)?;
    let new = New::beside(path, None)?;
    let opened = open(new.file())?;
    new.sync()?;
    if !new.put_at(path)? {
        return Ok(None);
    }
    folder.sync()?;
    Ok(Some(opened))
}

/// Makes a file in the place of an empty one, where a link leads too. That is locked until it has lost its name.
pub(super) fn make_of_empty<T>(
    path: &Path,
    empty: &Locked,
    found: &Metadata,
    open: impl FnOnce(Locked) -> Result<T, Error>,
) -> Result<Option<T>, Error> {
    empty.check_empty()?;
    let path = fs::canonicalize(path).map_err(Error::no_access)?;
    if !empty.is_at(&path) {
        return Ok(None);
    }
    let folder = Folder::of(&path)?;
    let new = New::beside(&path, Some(empty))?;
    new.give_owner_and_mode(found)?;
    let opened = open(new.file())?;
    new.sync()?;
    // who locks no file may have written to it
    if empty.metadata()?.len() > 0 || !new.put_over(&path, empty)? {
        return Ok(None);
    }
    folder.sync()?;
    Ok(Some(opened))
}

fn leads_nowhere(text: &'static str) -> Error {
    Error::no_access(io::Error::new(ErrorKind::NotFound, text))
}
