//! Maps as the text that LMDB's `mdb_dump -p` writes, and `mdb_load` reads.

use crate::bytes::write_text;
use crate::failure::{Failure, Outcome};
use crate::keys::{check_map, output};
use crate::progress::Progress;
use crate::store;
use dilluvas::Db;
use std::io::{self, Write};
use std::path::Path;

/// Writes a map, or all.
pub fn dump(file: &Path, map: Option<Vec<u8>>) -> Result<Outcome, Failure> {
    let db = store::open_existing(file)?;
    let names = match map {
        Some(map) => {
            check_map(&db, &map)?;
            vec![map]
        }
        None => db.map_names()?,
    };
    let mut out = output();
    let mut progress = Progress::new("dumped keys:", None);
    let mut keys = 0;
    for name in names {
        dump_map(&db, &name, &mut out, |_| {
            keys += 1;
            progress.tell(keys);
        })?;
    }
    out.flush().map_err(Failure::Output)?;
    Ok(Outcome::Done)
}

fn dump_map(
    db: &Db,
    name: &[u8],
    out: &mut impl Write,
    mut on_key: impl FnMut(&[u8]),
) -> Result<(), Failure> {
    write_header(out, name).map_err(Failure::Output)?;
    for pair in db.map(name).iter() {
        let (key, value) = pair?;
        write_line(out, &key).map_err(Failure::Output)?;
        write_line(out, &value).map_err(Failure::Output)?;
        on_key(&key);
    }
    out.write_all(b"DATA=END\n").map_err(Failure::Output)
}

fn write_header(out: &mut impl Write, name: &[u8]) -> io::Result<()> {
    out.write_all(b"VERSION=3\nformat=print\ndatabase=")?;
    write_text(out, name)?;
    out.write_all(b"\ntype=btree\nHEADER=END\n")
}

fn write_line(out: &mut impl Write, bytes: &[u8]) -> io::Result<()> {
    out.write_all(b" ")?;
    write_text(out, bytes)?;
    out.write_all(b"\n")
}
