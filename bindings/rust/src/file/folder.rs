//! Folders, which say which files are there.

use crate::error::Error;
use std::fs::{self, File};
use std::io::ErrorKind;
use std::path::Path;

/// A folder.
pub(crate) struct Folder(File);

impl Folder {
    /// Opens that of a path.
    pub(super) fn of(path: &Path) -> Result<Folder, Error> {
        let folder = File::open(name_of(path)).map_err(Error::no_access)?;
        Ok(Folder(folder))
    }

    /// Makes durable which files it has.
    pub(crate) fn sync(&self) -> Result<(), Error> {
        match self.0.sync_all() {
            // there are systems that sync no folder
            Err(error) if error.kind() != ErrorKind::InvalidInput => Err(Error::write(error)),
            _ => Ok(()),
        }
    }
}

fn name_of(path: &Path) -> &Path {
    let folder = path
        .parent()
        .filter(|folder| !folder.as_os_str().is_empty());
    folder.unwrap_or(Path::new("."))
}

/// Makes the name of a file durable: whoever gave it may have ended before it was.
pub(super) fn sync_name(path: &Path) -> Result<(), Error> {
    match fs::canonicalize(path).and_then(|path| File::open(name_of(&path))) {
        Ok(folder) => Folder(folder).sync(),
        // a folder that may not be read is synced by nobody
        Err(error) if error.kind() == ErrorKind::PermissionDenied => Ok(()),
        Err(error) => Err(Error::write(error)),
    }
}
