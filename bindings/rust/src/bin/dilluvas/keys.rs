//! Keys and values, one by one and in their order.

use crate::bytes::{text_of, write_text};
use crate::failure::{Failure, Outcome};
use crate::store;
use crate::words::Value;
use dilluvas::Db;
use std::io::{self, BufWriter, Read, StdoutLock, Write};
use std::ops::Bound;
use std::path::Path;

/// Writes the value of a key, as it is.
pub fn get(file: &Path, map: &[u8], key: &[u8]) -> Result<Outcome, Failure> {
    let Some(value) = store::open_existing(file)?.map(map).get(key)? else {
        return Ok(Outcome::Absent);
    };
    let mut out = io::stdout().lock();
    out.write_all(&value).map_err(Failure::Output)?;
    out.flush().map_err(Failure::Output)?;
    Ok(Outcome::Done)
}

/// Sets the value of a key, durably.
pub fn set(file: &Path, map: &[u8], key: &[u8], value: Value) -> Result<Outcome, Failure> {
    // the input may take long, so it is read before the file is held
    let value = match value {
        Value::Given(value) => value,
        Value::StandardInput => all_of_input()?,
    };
    let db = store::open_or_make(file)?;
    db.map(map).set(key, value)?;
    db.flush()?;
    Ok(Outcome::Done)
}

/// Deletes a key, durably.
pub fn delete(file: &Path, map: &[u8], key: &[u8]) -> Result<Outcome, Failure> {
    let db = store::open_existing(file)?;
    if !db.map(map).delete(key)? {
        return Ok(Outcome::Absent);
    }
    db.flush()?;
    Ok(Outcome::Done)
}

/// Lists the pairs of a map with keys from `from` to below `to`.
pub fn scan(
    file: &Path,
    map: &[u8],
    from: Option<Vec<u8>>,
    to: Option<Vec<u8>>,
) -> Result<Outcome, Failure> {
    let db = store::open_existing(file)?;
    check_map(&db, map)?;
    let from = from.map_or(Bound::Unbounded, Bound::Included);
    let to = to.map_or(Bound::Unbounded, Bound::Excluded);
    let mut out = output();
    for pair in db.map(map).range::<Vec<u8>>((from, to)) {
        let (key, value) = pair?;
        write_pair(&mut out, &key, &value).map_err(Failure::Output)?;
    }
    out.flush().map_err(Failure::Output)?;
    Ok(Outcome::Done)
}

/// Lists the names of the maps.
pub fn maps(file: &Path) -> Result<Outcome, Failure> {
    let mut out = output();
    for name in store::open_existing(file)?.map_names()? {
        write_text(&mut out, &name).map_err(Failure::Output)?;
        out.write_all(b"\n").map_err(Failure::Output)?;
    }
    out.flush().map_err(Failure::Output)?;
    Ok(Outcome::Done)
}

/// Refuses a name that no map has.
pub fn check_map(db: &Db, map: &[u8]) -> Result<(), Failure> {
    match db.map_names()?.iter().any(|name| name == map) {
        true => Ok(()),
        false => Err(Failure::NoMap(text_of(map))),
    }
}

/// Standard output with a buffer.
pub fn output() -> BufWriter<StdoutLock<'static>> {
    BufWriter::with_capacity(1 << 16, io::stdout().lock())
}

fn write_pair(out: &mut impl Write, key: &[u8], value: &[u8]) -> io::Result<()> {
    write_text(out, key)?;
    out.write_all(b"\t")?;
    write_text(out, value)?;
    out.write_all(b"\n")
}

fn all_of_input() -> Result<Vec<u8>, Failure> {
    let mut value = Vec::new();
    io::stdin()
        .lock()
        .read_to_end(&mut value)
        .map_err(Failure::Input)?;
    Ok(value)
}
