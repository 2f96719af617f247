//! A log in a table of PostgreSQL, which a synchronous standby has too.

mod ahead;
mod answer;
mod connection;
mod opening;
mod pending;
mod statements;
mod sys;

pub use opening::{Place, Servers};

use crate::refusal::Refusal;
use ahead::Ahead;
use answer::Params;
use connection::{Connection, Statement};
use dilluvas::Device;
use pending::Pending;
use std::io;
use std::ops::Range;

/// A log in a table of PostgreSQL: what [`Place::open`] answers.
///
/// Writes are kept in memory until [`sync`](Device::sync), which sends all of them in one transaction and waits until the standby has applied
/// it. The transaction changes nothing unless the log has the epoch that this opening gave it, so of two writers the older one fails at its
/// next sync. A read is one statement, which answers nothing to an older writer either. A write that leaves 16 MiB or more pending, as those of
/// a rewriting do, sends them before the sync: until then a crash may leave any of it.
///
/// A connection that was lost, an answer that didn't come in time, and a commit that ended with a warning are errors of the sync, and every
/// later call fails as that one did: it isn't known whether the last transaction was committed. A new opening finds out.
pub struct PostgresDevice {
    connection: Connection,
    log: Log,
    one_server: bool,
    // Of this many bytes the tables are known to have the pieces.
    stored: u64,
    length: u64,
    pending: Pending,
    ahead: Ahead,
    // What a sync failed with.
    failed: Option<Refusal>,
}

// A transaction has about this many bytes at most. An array of them has less than a gigabyte in PostgreSQL.
const MOST_PENDING: usize = 16 << 20;

// A log as this opening holds it.
struct Log {
    id: i64,
    epoch: i64,
    piece: u64,
}

impl PostgresDevice {
    /// The epoch that this opening has: each opening of a log has a greater one.
    #[must_use]
    pub fn epoch(&self) -> i64 {
        self.log.epoch
    }

    fn check(&self) -> Result<(), Refusal> {
        self.failed.clone().map_or(Ok(()), Err)
    }

    // Why a statement found no log of this epoch, or not the pieces that should be there.
    fn why_nothing(&mut self, otherwise: Refusal) -> Refusal {
        let look = Statement::Text(statements::LOOK_AT_EPOCH);
        let ours = self.log.epoch;
        let found = self
            .connection
            .call(look, &Params::default().int8(self.log.id));
        let theirs = match found {
            Ok(rows) if rows.count() == 0 => return Refusal::NoLog,
            Ok(rows) => rows.int8(0, 0),
            Err(refusal) => Err(refusal),
        };
        match theirs {
            Ok(theirs) if theirs > ours => Refusal::Superseded { ours, theirs },
            Ok(theirs) if theirs < ours => Refusal::EpochWentBack { ours, theirs },
            Ok(_) => otherwise,
            Err(refusal) => refusal,
        }
    }

    // Reads bytes that the tables have, and more of them where reads follow one another.
    fn read_stored(&mut self, at: u64, into: &mut [u8]) -> Result<(), Refusal> {
        if self.ahead.copy(at, into) {
            return Ok(());
        }
        let range = at..at + into.len() as u64;
        let end = self.ahead.end_of(&range, self.stored);
        if end == range.end {
            return self.read_tables(at, into);
        }
        let mut bytes = vec![0; (end - at) as usize];
        self.read_tables(at, &mut bytes)?;
        into.copy_from_slice(&bytes[..into.len()]);
        self.ahead.keep(at, bytes);
        Ok(())
    }

    fn read_tables(&mut self, at: u64, into: &mut [u8]) -> Result<(), Refusal> {
        let piece = self.log.piece;
        let end = at + into.len() as u64;
        let params = Params::default()
            .int8(self.log.id)
            .int8(self.log.epoch)
            .int8(at as i64)
            .int8(end as i64)
            .int4(piece as i32);
        let rows = self
            .connection
            .call(Statement::Prepared(statements::READ_NAME), &params)?;
        let (mut place, mut row) = (at, 0);
        while place < end {
            let number = place / piece;
            let next = end.min((number + 1) * piece);
            let room = &mut into[(place - at) as usize..(next - at) as usize];
            let is_there = row < rows.count() && rows.int8(row, 0)? == number as i64;
            let found = if is_there { rows.bytes(row, 2)? } else { &[] };
            if found.len() != room.len() {
                return Err(self.why_nothing(Refusal::BadPiece(number as i64)));
            }
            if rows.int8(row, 1)? > self.log.epoch {
                return Err(Refusal::ImpossibleEpoch(rows.int8(row, 1)?));
            }
            room.copy_from_slice(found);
            (place, row) = (next, row + 1);
        }
        Ok(())
    }

    fn read(&mut self, at: u64, into: &mut [u8]) -> Result<(), Refusal> {
        let piece = self.log.piece;
        let end = at + into.len() as u64;
        if !self.pending.covers(piece, at..end) {
            let stored = end.min(self.stored).saturating_sub(at) as usize;
            if stored > 0 {
                self.read_stored(at, &mut into[..stored])?;
            }
        }
        self.pending.overlay(piece, at, into);
        Ok(())
    }

    // Writes a range of one piece.
    fn write_part(&mut self, number: u64, start: usize, bytes: &[u8]) -> Result<(), Refusal> {
        if let Some(gap) = self.pending.gap(number, start, bytes.len()) {
            let mut between = vec![0; gap.len()];
            self.read(number * self.log.piece + gap.start as u64, &mut between)?;
            self.pending.put(number, gap.start, &between);
        }
        self.pending.put(number, start, bytes);
        Ok(())
    }

    fn write(&mut self, range: Range<u64>, bytes: &[u8]) -> Result<(), Refusal> {
        let piece = self.log.piece;
        let mut at = range.start;
        while at < range.end {
            let next = range.end.min((at / piece + 1) * piece);
            let part = &bytes[(at - range.start) as usize..(next - range.start) as usize];
            self.write_part(at / piece, (at % piece) as usize, part)?;
            at = next;
        }
        self.length = self.length.max(range.end);
        Ok(())
    }

    // Sends all that is pending. Where that fails every later call does.
    fn send(&mut self) -> Result<(), Refusal> {
        let sent = self.commit();
        if let Err(refusal) = &sent {
            self.failed = Some(refusal.clone());
        }
        sent
    }

    fn commit(&mut self) -> Result<(), Refusal> {
        self.ahead.clear();
        let patches = self.pending.patches();
        let params = Params::default()
            .int8(self.log.id)
            .int8(self.log.epoch)
            .int8(self.length as i64)
            .int8s(patches.keys().map(|number| *number as i64))
            .int4s(patches.values().map(|patch| patch.start as i32))
            .byteas(patches.values().map(|patch| &patch.bytes[..]))
            .int8(self.stored.div_ceil(self.log.piece) as i64)
            .bool(self.one_server);
        let committed = self
            .connection
            .call(Statement::Prepared(statements::SYNC_NAME), &params);
        match committed {
            Ok(rows) if rows.count() == 1 && rows.int4(0, 0)? == 1 => {
                self.stored = self.length;
                self.pending.clear();
                Ok(())
            }
            Ok(_) => Err(Refusal::BadAnswer),
            // it divided by zero
            Err(Refusal::Server(state, _)) if state == "22012" => {
                let otherwise = self.why_not_committed();
                Err(self.why_nothing(otherwise))
            }
            Err(refusal) => Err(refusal),
        }
    }

    // Why a commit was refused which had the epoch.
    fn why_not_committed(&mut self) -> Refusal {
        match opening::look_at_server(&mut self.connection, self.one_server) {
            Err(refusal) => refusal,
            Ok(()) => {
                let first = self.pending.patches().keys().next();
                Refusal::BadPiece(first.map_or(-1, |number| *number as i64))
            }
        }
    }
}

// The range of bytes from a place, within what PostgreSQL's numbers hold.
fn range_of(at: u64, len: usize) -> Result<Range<u64>, Refusal> {
    match at.checked_add(len as u64) {
        Some(end) if end <= i64::MAX as u64 => Ok(at..end),
        _ => Err(Refusal::BadLength(i64::MAX)),
    }
}

impl Device for PostgresDevice {
    fn size(&mut self) -> io::Result<u64> {
        Ok(self.length)
    }

    fn read_at(&mut self, at: u64, into: &mut [u8]) -> io::Result<()> {
        self.check()?;
        if range_of(at, into.len())?.end > self.length {
            return Err(io::ErrorKind::UnexpectedEof.into());
        }
        Ok(self.read(at, into)?)
    }

    fn write_at(&mut self, at: u64, bytes: &[u8]) -> io::Result<()> {
        self.check()?;
        let range = range_of(at, bytes.len())?;
        if self.length < at {
            // as in a file: what was never written is zero
            let zeros = vec![0; (at - self.length) as usize];
            self.write(self.length..at, &zeros)?;
        }
        self.write(range, bytes)?;
        if self.pending.size() >= MOST_PENDING {
            self.send()?;
        }
        Ok(())
    }

    fn sync(&mut self) -> io::Result<()> {
        self.check()?;
        if self.pending.is_empty() {
            return Ok(());
        }
        self.send()?;
        Ok(())
    }
}
