//! Reading all of a file.

use crate::bytes::text_of;
use crate::failure::{Failure, Outcome};
use crate::keys::output;
use crate::progress::Progress;
use crate::store;
use dilluvas::{Cache, Db, Error, Page};
use std::fs::File;
use std::io::{Read, Write};
use std::path::Path;

// What the file of each store begins with.
const OPENING: &[u8; 8] = b"SLPCLOG1";
// Pages 0 and 1 are the cache's own, which are read where it is opened.
const FIRST: u64 = 2;
// A page has a message in the file, which has so many bytes and those of what it holds.
const LEAST_MESSAGE: u64 = 17;

/// Reads every page and then every map, and reports what is damaged.
pub fn verify(file: &Path) -> Result<Outcome, Failure> {
    let mut cache = match store::open_pages(file) {
        Err(Failure::Store(Error::Corruption)) if is_begun(file) => {
            return tell(
                0,
                0,
                &["its frames or its own pages: nothing can be read".to_owned()],
            );
        }
        opened => opened?,
    };
    let bytes = cache.size()?;
    let mut damaged = Vec::new();
    let mut pages = 0u64;
    let mut progress = Progress::new("read pages:", Some(most_pages(bytes)));
    each_page(
        &mut cache,
        bytes,
        &mut progress,
        |page, answer| match answer {
            Ok(()) => {
                pages += 1;
                Ok(())
            }
            Err(error) if is_damage(&error) => {
                damaged.push(format!("page {page}: {error}"));
                Ok(())
            }
            Err(error) => Err(error),
        },
    )?;
    drop(progress);
    let keys = walk(&Db::from(cache), &mut damaged)?;
    tell(pages, keys, &damaged)
}

/// The greatest number of pages in a file of `bytes` bytes. Each page number is below the number of pages that were made.
pub fn most_pages(bytes: u64) -> u64 {
    bytes / LEAST_MESSAGE
}

/// Reads each page of a cache whose log has `bytes` bytes, and calls `on_page` with its number and the result of reading it, until that returns
/// an error.
pub fn each_page(
    cache: &mut Cache,
    bytes: u64,
    progress: &mut Progress,
    mut on_page: impl FnMut(u64, Result<(), Error>) -> Result<(), Error>,
) -> Result<(), Error> {
    let mut page = Page::empty();
    for number in FIRST..FIRST + most_pages(bytes) {
        match cache.get_into(number, &mut page) {
            Ok(true) => on_page(number, Ok(()))?,
            Ok(false) => {}
            Err(error) => on_page(number, Err(error))?,
        }
        progress.tell(number);
    }
    Ok(())
}

// How many keys the maps have.
fn walk(db: &Db, damaged: &mut Vec<String>) -> Result<u64, Error> {
    let mut keys = 0;
    let mut progress = Progress::new("read keys:", None);
    for name in db.map_names()? {
        for pair in db.map(&name).iter() {
            match pair {
                Ok(_) => keys += 1,
                Err(error) if is_damage(&error) => {
                    damaged.push(format!("map {}: {error}", text_of(&name)));
                }
                Err(error) => return Err(error),
            }
            progress.tell(keys);
        }
    }
    Ok(keys)
}

// Whether a file begins as that of a store: it was one then.
fn is_begun(file: &Path) -> bool {
    let mut bytes = [0; OPENING.len()];
    let read = File::open(file).and_then(|mut file| file.read_exact(&mut bytes));
    read.is_ok() && bytes == *OPENING
}

// A device that reads no more what it holds has lost it.
fn is_damage(error: &Error) -> bool {
    matches!(error, Error::Corruption | Error::Read(_))
}

fn tell(pages: u64, keys: u64, damaged: &[String]) -> Result<Outcome, Failure> {
    let mut out = output();
    for line in damaged {
        writeln!(out, "{line}").map_err(Failure::Output)?;
    }
    writeln!(out, "{pages} pages and {keys} keys are whole").map_err(Failure::Output)?;
    out.flush().map_err(Failure::Output)?;
    Ok(match damaged {
        [] => Outcome::Done,
        _ => Outcome::Absent,
    })
}
