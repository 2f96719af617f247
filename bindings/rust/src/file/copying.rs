//! Copying a file that another process may have open.

use super::frames::{Frames, HEADER, piece, read_up_to};
use super::locked::{Locked, are_one_file, refusal};
use super::open_or_make_locked;
use crate::device::Device;
use crate::error::Error;
use std::fs::{self, File};
use std::io::{self, ErrorKind};
use std::mem;
use std::os::unix::fs::FileExt;
use std::path::Path;

/// Copies a file to a path where there is none, or an empty one, or an older copy of the file, and answers how many bytes the copy has then.
/// The file may be open in this process or another one, which goes on: the copy opens to a first part of all changes, which has what was
/// flushed before the call, and perhaps more. It is durable then.
///
/// A new copy has its name once it is whole. To an older one only that is written which it lacks, behind its end, and counts once it is
/// durable: where the process is killed, or the power fails, the older copy is there or the new one. What it has is compared with the file,
/// byte by byte, so both are read. It is no older copy any more where it was changed itself, or the file was rewritten.
///
/// ```
/// use dilluvas::{Db, Error};
///
/// # fn main() -> Result<(), Error> {
/// # let folder = std::env::temp_dir().join(format!("dilluvas-copy-{}", std::process::id()));
/// # std::fs::create_dir(&folder).unwrap();
/// # let (path, other) = (folder.join("fruit"), folder.join("copy"));
/// let db = Db::open(&path)?;
/// db.map("fruit").insert("lime", "green")?;
/// db.flush()?;
/// dilluvas::copy_file(&path, &other)?;
/// db.map("fruit").insert("lime", "yellow")?;
/// assert_eq!(Db::open(&other)?.map("fruit").get("lime")?, Some(b"green".to_vec()));
///
/// db.flush()?;
/// dilluvas::copy_file(&path, &other)?;
/// assert_eq!(Db::open(&other)?.map("fruit").get("lime")?, Some(b"yellow".to_vec()));
/// # drop(db);
/// # std::fs::remove_dir_all(&folder).unwrap();
/// # Ok(())
/// # }
/// ```
///
/// # Errors
///
/// [`NoAccess`](Error::NoAccess) where the one file can't be read or the other one can't be made, and where that has bytes and is no older
/// copy; [`NoFile`](Error::NoFile); [`Held`](Error::Held) where another process makes the other one, or has it open;
/// [`Corruption`](Error::Corruption) where no cache wrote the file, or its end is cut off; [`Read`](Error::Read), [`Write`](Error::Write),
/// [`OutOfMemory`](Error::OutOfMemory). No new copy is left then, and an older one is what it was, unless the last sync failed: then a crash
/// leaves either.
pub fn copy_file(from: impl AsRef<Path>, to: impl AsRef<Path>) -> Result<u64, Error> {
    copy_file_with(from, to, |_| {})
}

/// The same, and tells now and then how many bytes were copied, those that the copy had among them.
///
/// # Errors
///
/// As of [`copy_file`].
pub fn copy_file_with(
    from: impl AsRef<Path>,
    to: impl AsRef<Path>,
    mut progress: impl FnMut(u64),
) -> Result<u64, Error> {
    let from = open_to_read(from.as_ref())?;
    open_or_make_locked(to.as_ref(), |mut to| {
        if to.size().map_err(Error::read)? == 0 {
            return copy_all(&from, &mut to, &mut progress);
        }
        let end = end_of_older(&from, &to)?;
        copy_behind(&from, &mut to, end, &mut progress)
    })
}

// What is no file isn't opened: that may wait, or do something to it.
fn open_to_read(path: &Path) -> Result<File, Error> {
    if fs::metadata(path).is_ok_and(|found| !found.is_file()) {
        return Err(Error::NoFile);
    }
    File::open(path).map_err(refusal)
}

// Copies a file to one of no bytes, and answers how many it has then.
fn copy_all(
    from: &impl FileExt,
    to: &mut impl Device,
    progress: &mut impl FnMut(u64),
) -> Result<u64, Error> {
    let gate = Frames::of(from)?.each_piece(|at, bytes| {
        to.write_at(at, bytes).map_err(Error::write)?;
        progress(at + bytes.len() as u64);
        Ok(())
    })?;
    to.write_at(gate, &[0]).map_err(Error::write)?;
    to.sync().map_err(Error::write)?;
    Ok(gate + 1)
}

// Where an older copy ends.
struct End {
    // The gate behind which all else goes.
    gate: u64,
    // The last one before that.
    last_open: Option<u64>,
    // What an opening of the copy wrote there: that a batch was abandoned, which goes on in the file.
    is_abandoned: bool,
}

// A frame with the record that a batch was abandoned, whose kind that is.
const ABANDONED: u64 = 34;
const ABANDONED_KIND: u8 = 14;

impl End {
    fn of(copy: &impl FileExt) -> Result<End, Error> {
        let mut frames = Frames::of(copy)?;
        let gate = frames.each_piece(|_, _| Ok(()))?;
        let mut end = End {
            gate,
            last_open: frames.last_open(),
            is_abandoned: false,
        };
        let mut kind = [0];
        if let Some(at) = end.last_open
            && gate - at == ABANDONED
            && read_up_to(copy, at + HEADER as u64, &mut kind)? == 1
            && kind == [ABANDONED_KIND]
        {
            (end.gate, end.last_open, end.is_abandoned) = (at, None, true);
        }
        Ok(end)
    }
}

// The end of an older copy of a file, all of which the file has too.
fn end_of_older(from: &File, to: &Locked) -> Result<End, Error> {
    let to = to.ours().map_err(Error::read)?;
    let found = [from, to].map(File::metadata);
    if let [Ok(from), Ok(to)] = &found
        && are_one_file(from, to)
    {
        return Err(is_other("it is the file itself"));
    }
    end_of_copy(from, to)
}

fn end_of_copy(from: &impl FileExt, to: &impl FileExt) -> Result<End, Error> {
    let end = match End::of(to) {
        Ok(end) if are_same(from, to, end.gate)? => end,
        Ok(_) | Err(Error::Corruption) => {
            return Err(is_other("it has bytes, and is no older copy of the file"));
        }
        Err(error) => return Err(error),
    };
    Ok(end)
}

// Whether two files have the same bytes up to a place.
fn are_same(one: &impl FileExt, other: &impl FileExt, end: u64) -> Result<bool, Error> {
    let (mut bytes, mut others) = (piece()?, piece()?);
    let mut at = 0;
    while at < end {
        let len = usize::try_from(end - at).map_or(bytes.len(), |left| left.min(bytes.len()));
        let read = read_up_to(one, at, &mut bytes[..len])?;
        read_up_to(other, at, &mut others[..len])?;
        if read < len || bytes[..len] != others[..len] {
            return Ok(false);
        }
        at += len as u64;
    }
    Ok(true)
}

// Copies what a file has behind the end of an older copy, and opens the gate there once all that is durable.
fn copy_behind(
    from: &impl FileExt,
    to: &mut impl Device,
    end: End,
    progress: &mut impl FnMut(u64),
) -> Result<u64, Error> {
    if end.is_abandoned {
        to.write_at(end.gate, &[0]).map_err(Error::write)?;
        to.sync().map_err(Error::write)?;
    }
    if let Some(at) = end.last_open {
        // the system may have let it go where an earlier sync failed
        let mut open = [0];
        to.read_at(at, &mut open).map_err(Error::read)?;
        to.write_at(at, &open).map_err(Error::write)?;
    }
    let mut opened = 0;
    let gate = Frames::behind(from, end.gate)?.each_piece(|at, bytes| {
        if at == end.gate {
            opened = mem::take(&mut bytes[0]);
        }
        to.write_at(at, bytes).map_err(Error::write)?;
        progress(at + bytes.len() as u64);
        Ok(())
    })?;
    if gate > end.gate {
        to.write_at(gate, &[0]).map_err(Error::write)?;
        to.sync().map_err(Error::write)?;
        to.write_at(end.gate, &[opened]).map_err(Error::write)?;
    }
    to.sync().map_err(Error::write)?;
    Ok(gate + 1)
}

fn is_other(why: &'static str) -> Error {
    Error::no_access(io::Error::new(ErrorKind::AlreadyExists, why))
}

#[cfg(test)]
mod tests;
