//! What a file holds.

use crate::date::date_of;
use crate::failure::{Failure, Outcome};
use crate::keys::output;
use crate::progress::Progress;
use crate::store;
use crate::verify::{each_page, most_pages};
use dilluvas::{Db, Error};
use std::fs;
use std::io::Write;
use std::path::Path;

#[derive(Default)]
struct Counts {
    maps: u64,
    keys: u64,
    key_bytes: u64,
    value_bytes: u64,
}

/// Shows what a file holds, and how much space that takes.
pub fn stat(file: &Path) -> Result<Outcome, Failure> {
    let mut cache = store::open_pages(file)?;
    let (bytes, live) = (cache.size()?, cache.live_bytes()?);
    let mut progress = Progress::new("read pages:", Some(most_pages(bytes)));
    let mut pages = 0u64;
    each_page(&mut cache, bytes, &mut progress, |_, answer| match answer {
        Ok(()) => {
            pages += 1;
            Ok(())
        }
        Err(error) => Err(error),
    })?;
    drop(progress);
    let held = store::bytes_of_pages(&mut cache)?;
    let counts = count(&Db::from(cache))?;
    let rows = [
        ("maps", counts.maps),
        ("keys", counts.keys),
        ("bytes of keys", counts.key_bytes),
        ("bytes of values", counts.value_bytes),
        ("pages", pages),
        ("bytes of the pages", held),
        ("bytes of the file", bytes),
        ("bytes that compact spares", bytes.saturating_sub(live)),
    ];
    let mut out = output();
    for (name, number) in rows {
        writeln!(out, "{name}\t{number}").map_err(Failure::Output)?;
    }
    writeln!(out, "last rewritten\t{}", birth_of(file)).map_err(Failure::Output)?;
    out.flush().map_err(Failure::Output)?;
    Ok(Outcome::Done)
}

fn count(db: &Db) -> Result<Counts, Error> {
    let mut counts = Counts::default();
    let mut progress = Progress::new("counted keys:", None);
    for name in db.map_names()? {
        counts.maps += 1;
        for pair in db.map(&name).iter() {
            let (key, value) = pair?;
            counts.keys += 1;
            counts.key_bytes += key.len() as u64;
            counts.value_bytes += value.len() as u64;
            progress.tell(counts.keys);
        }
    }
    Ok(counts)
}

// A rewriting makes a new file, so the file is as old as the last one.
fn birth_of(file: &Path) -> String {
    let birth = fs::metadata(file).and_then(|found| found.created());
    birth.map_or_else(|_| "unknown".to_owned(), date_of)
}
