//! How the command opens a file.

use crate::failure::Failure;
use dilluvas::{Cache, Db, Error, FileSettings};
use std::path::Path;

// The interval of ids is never smaller than that of a program over the same file is likely to be: an id would come twice else. A rewriting
// skips twice as many.
const SETTINGS: FileSettings = FileSettings {
    cache_capacity: 64 << 20,
    idgen_persist_interval: 1 << 20,
    segment_size: 1 << 20,
};

/// Opens the maps of an existing file.
pub fn open_existing(file: &Path) -> Result<Db, Failure> {
    Ok(Db::open_existing_with(file, &SETTINGS)?)
}

/// Opens the maps of a file, which is created if it is missing or empty.
pub fn open_or_make(file: &Path) -> Result<Db, Failure> {
    Ok(Db::open_with(file, &SETTINGS)?)
}

/// Opens the pages of an existing file.
pub fn open_pages(file: &Path) -> Result<Cache, Failure> {
    Ok(Cache::open_existing(file, &SETTINGS)?)
}

/// Returns how many bytes the pages of such a file hold: `amplification` counts a segment with them.
pub fn bytes_of_pages(cache: &mut Cache) -> Result<u64, Error> {
    let pages = cache.amplification()?.pages;
    Ok(pages.saturating_sub(SETTINGS.segment_size as u64))
}
