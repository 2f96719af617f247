//! New files of the same maps.

use crate::bytes::text_of_path;
use crate::failure::{Failure, Outcome};
use crate::progress::Progress;
use crate::store;
use dilluvas::Error;
use std::fs;
use std::io::ErrorKind;
use std::path::Path;

/// Rewrites a file.
pub fn compact(file: &Path) -> Result<Outcome, Failure> {
    let db = store::open_existing(file)?;
    Progress::new("rewriting", None).begin();
    db.compact()?;
    Ok(Outcome::Done)
}

/// Copies what is flushed of a file, which another process may have open.
pub fn copy(file: &Path, to: &Path) -> Result<Outcome, Failure> {
    let len = fs::metadata(file).map_or(None, |found| Some(found.len()));
    let mut progress = Progress::new("copied bytes:", len);
    let copied = dilluvas::copy_file_with(file, to, |done| progress.tell(done));
    copied.map_err(|error| match is_of_copy(&error) {
        true => Failure::To(text_of_path(to), error),
        false => Failure::Store(error),
    })?;
    Ok(Outcome::Done)
}

// Whether an error is one of the file to which another was to be copied: that one isn't locked, and nothing is written to it.
fn is_of_copy(error: &Error) -> bool {
    match error {
        Error::Held | Error::Write(_) | Error::DiskFull(_) => true,
        Error::NoAccess(cause) => cause.kind() == ErrorKind::AlreadyExists,
        _ => false,
    }
}
