//! Loading what was dumped.

use crate::failure::{Failure, Outcome};
use crate::progress::Progress;
use crate::store;
use crate::text::{Header, Text};
use dilluvas::{Access, DbBatch, Error, Map};
use std::io::{self, BufRead, BufReader};
use std::path::Path;
use std::process;

/// Loads the pairs of a text into the maps that it names, or all into one, and makes them durable. They are one batch: if the text is refused,
/// or the process is killed, none of them is there.
pub fn load(file: &Path, map: Option<Vec<u8>>) -> Result<Outcome, Failure> {
    let mut text = Text::new(BufReader::with_capacity(1 << 16, io::stdin().lock()));
    // what is no dump at all makes no file, and holds none while it is waited for
    let first = text.next_header()?;
    let db = store::open_or_make(file)?;
    db.batch(|batch| {
        let loaded = load_into(batch, &mut text, first, map.as_deref());
        loaded.map_err(|why| abandon(file, &why))
    })
    .map_err(Error::from)?;
    db.flush()?;
    Ok(Outcome::Done)
}

// Ends the process inside the batch. One that ends by an error stands, but one that isn't ended counts for nothing: the next opening of the
// file says so.
fn abandon(file: &Path, why: &Failure) -> Error {
    eprintln!("dilluvas: {}: {why}", crate::bytes::text_of_path(file));
    process::exit(crate::ERROR.into())
}

fn load_into<R: BufRead>(
    batch: &DbBatch<'_>,
    text: &mut Text<R>,
    first: Option<Header>,
    into: Option<&[u8]>,
) -> Result<(), Failure> {
    let mut progress = Progress::new("loaded keys:", None);
    let (mut next, mut keys) = (first, 0);
    while let Some(header) = next {
        let name = match (into, &header.name) {
            (Some(name), _) => name,
            (None, Some(name)) => name,
            (None, None) => return Err(text.refusal("a MAP is required, as the dump names none")),
        };
        load_section(&batch.map(name), text, |_| {
            keys += 1;
            progress.tell(keys);
        })?;
        next = text.next_header()?;
    }
    Ok(())
}

fn load_section<R: BufRead, A: Access>(
    map: &Map<A>,
    text: &mut Text<R>,
    mut on_key: impl FnMut(&[u8]),
) -> Result<(), Failure> {
    while let Some((key, value)) = text.next_pair()? {
        map.set(&key, &value)?;
        on_key(&key);
    }
    Ok(())
}
