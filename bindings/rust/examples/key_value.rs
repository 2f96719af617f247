//! Keys and values that a file keeps: `cargo run --example key_value -- FILE set KEY VALUE`, or `get KEY`, `del KEY`, `rename KEY KEY`, `list`.
//!
//! What a command has done is flushed before it ends.

use dilluvas::Db;
use std::error::Error;
use std::io::{self, Write};
use std::{env, process};

const USAGE: &str = "FILE set KEY VALUE | get KEY | del KEY | rename KEY KEY | list";
const NO_KEY: &str = "there is no such key";

type Answer<T> = Result<T, Box<dyn Error>>;

// A change of two keys is a batch, of which a crash leaves all or nothing. Whether there was such a key.
fn rename(db: &Db, from: &str, to: &str) -> Answer<bool> {
    let is_there = db.batch(|batch| {
        let pairs = batch.map("pairs");
        let Some(value) = pairs.remove(from)? else {
            return Ok(false);
        };
        pairs.set(to, value)?;
        Ok(true)
    });
    Ok(is_there?)
}

fn list(db: &Db, out: &mut impl Write) -> Answer<()> {
    for pair in &db.map("pairs") {
        let (key, value) = pair?;
        writeln!(out, "{} {}", key.escape_ascii(), value.escape_ascii())?;
    }
    Ok(())
}

/// Does what the words of a command say.
pub fn run(words: &[&str], out: &mut impl Write) -> Answer<()> {
    let (file, words) = words.split_first().ok_or(USAGE)?;
    let (["set" | "rename", _, _] | ["get" | "del", _] | ["list"]) = words else {
        return Err(USAGE.into());
    };
    let db = Db::open(file)?;
    let pairs = db.map("pairs");
    let is_done = match words {
        ["set", key, value] => pairs.set(key, value).map(|_| true)?,
        ["del", key] => pairs.delete(key)?,
        ["rename", from, to] => rename(&db, from, to)?,
        ["get", key] => match pairs.get(key)? {
            Some(value) => writeln!(out, "{}", value.escape_ascii()).map(|()| true)?,
            None => false,
        },
        _ => list(&db, out).map(|()| true)?,
    };
    if !is_done {
        return Err(NO_KEY.into());
    }
    db.flush()?;
    Ok(())
}

/// Why a command was refused: an error of the store by its name.
pub fn told(refused: &(dyn Error + 'static)) -> String {
    match refused.downcast_ref::<dilluvas::Error>() {
        Some(error) => format!("{error:?}: {error}"),
        None => refused.to_string(),
    }
}

fn main() {
    let words: Vec<String> = env::args().skip(1).collect();
    let words: Vec<&str> = words.iter().map(String::as_str).collect();
    if let Err(refused) = run(&words, &mut io::stdout()) {
        eprintln!("{}", told(&*refused));
        process::exit(1);
    }
}
