//! What was read of the tables further than it was asked for.

use std::ops::Range;

// This much is read at once where long reads follow one another, as those of an opening do: each is a round trip.
const MUCH: u64 = 1 << 20;
const LONG: u64 = 1 << 14;
// Two of them are no further apart than this: an opening passes over what it doesn't need.
const APART: u64 = 1 << 16;

/// Bytes of the tables, which stay as they are until the next commit.
#[derive(Default)]
pub struct Ahead {
    start: u64,
    bytes: Vec<u8>,
    // Where the last read ended.
    last: u64,
}

impl Ahead {
    fn end(&self) -> u64 {
        self.start + self.bytes.len() as u64
    }

    pub fn clear(&mut self) {
        *self = Ahead::default();
    }

    /// Notes a read, and answers how far is to be read for it.
    pub fn end_of(&mut self, range: &Range<u64>, stored: u64) -> u64 {
        let is_long = range.end - range.start >= LONG;
        let follows = is_long && self.last > 0 && range.start.abs_diff(self.last) <= APART;
        self.last = range.end;
        match follows {
            true => range.end.max(range.start.saturating_add(MUCH).min(stored)),
            false => range.end,
        }
    }

    /// Copies what is there of a range, if all of it is.
    pub fn copy(&mut self, at: u64, into: &mut [u8]) -> bool {
        let end = at + into.len() as u64;
        let is_there = self.start <= at && end <= self.end();
        if is_there {
            let from = (at - self.start) as usize;
            into.copy_from_slice(&self.bytes[from..from + into.len()]);
            self.last = end;
        }
        is_there
    }

    /// Keeps bytes that were read from a place on.
    pub fn keep(&mut self, start: u64, bytes: Vec<u8>) {
        (self.start, self.bytes) = (start, bytes);
    }
}

#[cfg(test)]
mod tests {
    use super::Ahead;

    // The reads of an opening, with what is read of the tables for each.
    #[test]
    fn long_reads_that_follow_read_much() {
        let (stored, mut ahead, mut reads) = (3 << 20, Ahead::default(), Vec::new());
        let mut at = 0;
        while at + 65536 < stored {
            let range = at..at + 65536;
            let mut into = vec![0; 65536];
            if !ahead.copy(at, &mut into) {
                let end = ahead.end_of(&range, stored);
                let bytes: Vec<u8> = (at..end).map(|place| (place / 777) as u8).collect();
                reads.push(bytes.len());
                into.copy_from_slice(&bytes[..65536]);
                ahead.keep(at, bytes);
            }
            assert!(
                range
                    .zip(into)
                    .all(|(place, byte)| byte == (place / 777) as u8)
            );
            at += 65536 + 700;
        }
        assert_eq!(reads[..4], [65536, 1 << 20, 1 << 20, 1 << 20]);
        assert_eq!(reads.len(), 5);
        // one that is short, and one that is far away
        assert_eq!(ahead.end_of(&(at..at + 4096), stored), at + 4096);
        assert_eq!(
            ahead.end_of(&(1 << 20..(1 << 20) + 65536), stored),
            (1 << 20) + 65536
        );
    }
}
