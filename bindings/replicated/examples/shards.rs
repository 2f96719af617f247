//! A map that is cut by ranges of its keys over many logs, with a directory of them, and a range that moves to a log of its own.
//!
//! `cargo run --example shards -- CONNINFO` makes one on the server that the connection string names, moves a range while it gives up at each
//! step in turn, and looks at every pair again. docs/SCALE.md says what is atomic and what isn't.

use dilluvas::{Db, Device, Error, FileSettings};
use dilluvas_replicated::{Place, Refusal, Servers};
use std::collections::BTreeMap;
use std::{fmt, io};

// The maps of the directory: the log of each range, by its lowest key, and the moves that have begun.
const RANGES: &str = "ranges";
const MOVES: &str = "moves";
// The maps of a shard: its pairs, and by their lowest keys the ranges that have left it or are about to.
const PAIRS: &str = "pairs";
const GONE: &str = "gone";
// How many pairs a batch of a copy has.
const BATCH: usize = 1000;

/// Why a call of a cut map failed.
#[derive(Debug)]
pub enum Failure {
    Store(Error),
    Engine(Refusal),
    /// The range moves, or has moved: the directory is to be looked at again.
    Moving,
    /// The directory names no log for a key, or has an entry that can't be read.
    Directory,
    /// A test wanted it to give up there.
    GaveUp,
}

impl From<Error> for Failure {
    fn from(error: Error) -> Failure {
        Failure::Store(error)
    }
}

impl From<Refusal> for Failure {
    fn from(refusal: Refusal) -> Failure {
        Failure::Engine(refusal)
    }
}

impl fmt::Display for Failure {
    fn fmt(&self, f: &mut fmt::Formatter<'_>) -> fmt::Result {
        match self {
            Failure::Store(error) => error.fmt(f),
            Failure::Engine(refusal) => refusal.fmt(f),
            other => write!(f, "{other:?}"),
        }
    }
}

/// Where the logs are.
#[derive(Clone)]
pub struct Engine {
    pub conninfo: String,
    pub servers: Servers,
    /// What the names of the logs begin with.
    pub prefix: String,
}

impl Engine {
    fn place(&self, name: &str) -> Place {
        Place::new(&self.conninfo, format!("{}{name}", self.prefix)).servers(self.servers)
    }

    /// Opens a log, from which moment on all earlier openings of it fail.
    pub fn open(&self, name: &str) -> Result<Db, Failure> {
        let device = self.place(name).open_or_make()?;
        Ok(Db::on_device(device, &FileSettings::default())?)
    }

    fn remove(&self, name: &str) -> Result<(), Failure> {
        match self.place(name).remove() {
            Ok(()) | Err(Refusal::NoLog) => Ok(()),
            Err(refusal) => Err(refusal.into()),
        }
    }
}

/// A shard that this process has open.
pub struct Shard {
    db: Db,
}

impl Shard {
    pub fn open(engine: &Engine, log: &str) -> Result<Shard, Failure> {
        engine.open(log).map(|db| Shard { db })
    }

    /// Sets a pair and makes it durable.
    pub fn set(&self, key: &[u8], value: &[u8]) -> Result<(), Failure> {
        self.has(key)?;
        self.db.map(PAIRS).set(key, value)?;
        self.db.flush()?;
        Ok(())
    }

    pub fn get(&self, key: &[u8]) -> Result<Option<Vec<u8>>, Failure> {
        self.has(key)?;
        Ok(self.db.map(PAIRS).get(key)?)
    }

    // Refuses a key of a range that has left, whatever the directory said when it was looked at.
    fn has(&self, key: &[u8]) -> Result<(), Failure> {
        for gone in self.db.map(GONE).range(..=key) {
            let (_, high) = gone?;
            if high.is_empty() || key < &high[..] {
                return Err(Failure::Moving);
            }
        }
        Ok(())
    }
}

/// The directory, which one process has open.
pub struct Directory {
    engine: Engine,
    db: Db,
}

/// The steps of a move, after each of which a test may give up.
pub const STEPS: u32 = 6;

struct Move {
    low: Vec<u8>,
    high: Vec<u8>,
    from: String,
    to: String,
}

impl Directory {
    /// Opens the directory, ends the moves that had begun, and makes the first shard where there is none.
    pub fn open(engine: &Engine) -> Result<Directory, Failure> {
        let db = engine.open("directory")?;
        let engine = engine.clone();
        let directory = Directory { engine, db };
        if directory.db.map(RANGES).is_empty()? {
            directory.db.map(RANGES).set("", "shard 0")?;
            directory.db.flush()?;
        }
        for begun in &directory.db.map(MOVES) {
            let begun = Move::of(begun?).ok_or(Failure::Directory)?;
            directory.go_on(&begun, u32::MAX)?;
        }
        Ok(directory)
    }

    /// The log of a key.
    pub fn log_of(&self, key: &[u8]) -> Result<String, Failure> {
        let (_, log) = self.range_of(key)?;
        Ok(log)
    }

    // The lowest key of the range in which a key is, and its log.
    fn range_of(&self, key: &[u8]) -> Result<(Vec<u8>, String), Failure> {
        let found = self.db.map(RANGES).range(..=key).next_back();
        let (low, log) = found.ok_or(Failure::Directory)??;
        Ok((low, String::from_utf8(log).map_err(|_| Failure::Directory)?))
    }

    /// The lowest keys of the ranges, with their logs.
    pub fn ranges(&self) -> Result<BTreeMap<Vec<u8>, Vec<u8>>, Failure> {
        Ok(self.db.map(RANGES).iter().collect::<Result<_, _>>()?)
    }

    /// Moves the keys from one on, up to the next range, to a log of their own. A test gives up after
    /// `steps` of them.
    pub fn split(&self, low: &[u8], steps: u32) -> Result<(), Failure> {
        let (_, from) = self.range_of(low)?;
        let mut next_ones = self.db.map(RANGES).range(low..);
        let high = match next_ones.next().transpose()? {
            Some((next, _)) if next == low => next_ones.next().transpose()?,
            next => next,
        };
        // no id comes twice, and so no name of a log does
        let begun = Move {
            low: low.to_vec(),
            high: high.map_or(Vec::new(), |(key, _)| key),
            from,
            to: format!("shard {}", self.db.generate_id()?),
        };
        self.db.map(MOVES).set(low, begun.value())?;
        self.db.flush()?;
        give_up_after(1, steps)?;
        self.go_on(&begun, steps)
    }

    // Makes the steps of a move from the second on, whichever of them were made before.
    fn go_on(&self, begun: &Move, steps: u32) -> Result<(), Failure> {
        let is_swapped = self.log_of(&begun.low)? == begun.to;
        if !is_swapped {
            // who has the shard open fails from here on
            let from = self.engine.open(&begun.from)?;
            from.map(GONE).set(&begun.low, &begun.high)?;
            from.flush()?;
            give_up_after(2, steps)?;
            self.engine.remove(&begun.to)?;
            // a rewriting reads the log in large parts, and then no page is read over the wire
            from.compact_to(Memory::default())?;
            copy(&from, &self.engine.open(&begun.to)?, begun)?;
            give_up_after(3, steps)?;
            self.db.map(RANGES).set(&begun.low, &begun.to)?;
            self.db.flush()?;
            give_up_after(4, steps)?;
        }
        clear(&self.engine.open(&begun.from)?, begun)?;
        give_up_after(5, steps)?;
        self.db.map(MOVES).delete(&begun.low)?;
        self.db.flush()?;
        give_up_after(6, steps)
    }
}

impl Move {
    // Both names end by a zero, and the highest key follows.
    fn value(&self) -> Vec<u8> {
        let names = format!("{}\0{}\0", self.from, self.to);
        [names.as_bytes(), &self.high].concat()
    }

    fn of((low, value): (Vec<u8>, Vec<u8>)) -> Option<Move> {
        let mut parts = value.splitn(3, |byte| *byte == 0);
        let mut name = || String::from_utf8(parts.next()?.to_vec()).ok();
        let (from, to) = (name()?, name()?);
        let high = parts.next()?.to_vec();
        Some(Move {
            low,
            high,
            from,
            to,
        })
    }

    // The pairs of the range that a shard has.
    fn pairs(&self, db: &Db) -> dilluvas::Iter {
        let pairs = db.map(PAIRS);
        match self.high.is_empty() {
            true => pairs.range(&self.low[..]..),
            false => pairs.range(&self.low[..]..&self.high[..]),
        }
    }
}

/// Bytes in memory.
#[derive(Default)]
pub struct Memory(Vec<u8>);

impl Device for Memory {
    fn size(&mut self) -> io::Result<u64> {
        Ok(self.0.len() as u64)
    }

    fn read_at(&mut self, at: u64, into: &mut [u8]) -> io::Result<()> {
        let found = self.0.get(at as usize..at as usize + into.len());
        into.copy_from_slice(found.ok_or(io::ErrorKind::UnexpectedEof)?);
        Ok(())
    }

    fn write_at(&mut self, at: u64, bytes: &[u8]) -> io::Result<()> {
        let (at, end) = (at as usize, at as usize + bytes.len());
        self.0.resize(self.0.len().max(end), 0);
        self.0[at..end].copy_from_slice(bytes);
        Ok(())
    }

    fn sync(&mut self) -> io::Result<()> {
        Ok(())
    }
}

// Copies the pairs in batches, and makes them durable.
fn copy(from: &Db, to: &Db, begun: &Move) -> Result<(), Failure> {
    let mut pairs = begun.pairs(from);
    loop {
        let some: Vec<_> = pairs.by_ref().take(BATCH).collect::<Result<_, _>>()?;
        if some.is_empty() {
            to.flush()?;
            return Ok(());
        }
        let set = |batch: &dilluvas::DbBatch<'_>| {
            let map = batch.map(PAIRS);
            some.iter()
                .try_for_each(|(key, value)| map.set(key, value).map(drop))
        };
        to.batch(set).map_err(|refused| refused.error)?;
    }
}

// Takes the pairs of a range that has left out of its old shard. That it has left is kept: who looked at the directory before may come late.
fn clear(from: &Db, begun: &Move) -> Result<(), Failure> {
    for pair in begun.pairs(from) {
        from.map(PAIRS).delete(pair?.0)?;
    }
    from.flush()?;
    Ok(())
}

fn give_up_after(step: u32, steps: u32) -> Result<(), Failure> {
    if step == steps {
        Err(Failure::GaveUp)
    } else {
        Ok(())
    }
}

// The keys and values that it is tried with.
const PAIRS_TRIED: u32 = 200;

fn key_of(number: u32) -> String {
    format!("{number:04}")
}

/// Makes a map of some pairs, moves ranges while it gives up at each step, and looks at all of it: how many logs there are.
pub fn try_all(engine: &Engine) -> Result<usize, Failure> {
    let directory = Directory::open(engine)?;
    let first = Shard::open(engine, &directory.log_of(b"")?)?;
    for number in 0..PAIRS_TRIED {
        first
            .db
            .map(PAIRS)
            .set(key_of(number), number.to_be_bytes())?;
    }
    first.db.flush()?;
    drop(directory);
    for step in 1..=STEPS {
        give_up_at(engine, step, PAIRS_TRIED - 25 * step)?;
        let directory = Directory::open(engine)?;
        assert!(directory.db.map(MOVES).is_empty()?);
        look(engine, &directory)?;
    }
    Ok(Directory::open(engine)?.ranges()?.len())
}

// Moves the keys from a number on, and gives up: the old owner fails, and whoever opens the old shard late learns that the range has left.
fn give_up_at(engine: &Engine, step: u32, low: u32) -> Result<(), Failure> {
    let key = key_of(low);
    let directory = Directory::open(engine)?;
    let owner = Shard::open(engine, &directory.log_of(key.as_bytes())?)?;
    let gave_up = directory.split(key.as_bytes(), step);
    assert!(
        matches!(gave_up, Err(Failure::GaveUp)),
        "{step}: {gave_up:?}"
    );
    drop(directory);
    let late = Shard::open(engine, "shard 0")?;
    let set = late.set(key.as_bytes(), &low.to_be_bytes());
    let is_right = match &set {
        Ok(()) => step == 1,
        Err(failure) => step > 1 && matches!(failure, Failure::Moving),
    };
    assert!(is_right, "{step}: {set:?}");
    let set = owner.set(b"0000", b"superseded");
    let is_superseded = matches!(&set, Err(Failure::Store(Error::Write(_) | Error::Read(_))));
    assert!(is_superseded, "{step}: {set:?}");
    Ok(())
}

// Looks for each pair in the shard that the directory names.
fn look(engine: &Engine, directory: &Directory) -> Result<(), Failure> {
    let mut shards = BTreeMap::new();
    for number in 0..PAIRS_TRIED {
        let key = key_of(number);
        let log = directory.log_of(key.as_bytes())?;
        if !shards.contains_key(&log) {
            shards.insert(log.clone(), Shard::open(engine, &log)?);
        }
        let found = shards[&log].get(key.as_bytes())?;
        assert_eq!(
            found,
            Some(number.to_be_bytes().to_vec()),
            "{number} in {log}"
        );
    }
    Ok(())
}

#[allow(dead_code)] // tests call the above
fn main() -> Result<(), Failure> {
    let Some(conninfo) = std::env::args().nth(1) else {
        eprintln!("usage: shards CONNINFO");
        std::process::exit(2);
    };
    let engine = Engine {
        conninfo,
        servers: Servers::Standby,
        prefix: format!("shards {} ", std::process::id()),
    };
    engine.place("directory").make_tables()?;
    println!("{} logs", try_all(&engine)?);
    Ok(())
}
