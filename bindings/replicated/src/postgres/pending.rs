//! What was written since the last sync, piece by piece.

use std::collections::BTreeMap;
use std::ops::Range;

/// Bytes that are written to a piece: one range of it.
#[derive(Debug, PartialEq, Eq)]
pub struct Patch {
    pub start: usize,
    pub bytes: Vec<u8>,
}

impl Patch {
    fn end(&self) -> usize {
        self.start + self.bytes.len()
    }

    // Writes a range that overlaps this one or touches it.
    fn put(&mut self, start: usize, bytes: &[u8]) {
        if start < self.start {
            let mut longer = vec![0; self.start - start];
            longer.append(&mut self.bytes);
            (self.start, self.bytes) = (start, longer);
        }
        let from = start - self.start;
        if self.bytes.len() < from + bytes.len() {
            self.bytes.resize(from + bytes.len(), 0);
        }
        self.bytes[from..from + bytes.len()].copy_from_slice(bytes);
    }
}

/// The patches, by the numbers of their pieces, and how many bytes they have.
#[derive(Debug, Default)]
pub struct Pending {
    patches: BTreeMap<u64, Patch>,
    size: usize,
}

impl Pending {
    pub fn is_empty(&self) -> bool {
        self.patches.is_empty()
    }

    pub fn size(&self) -> usize {
        self.size
    }

    pub fn clear(&mut self) {
        *self = Pending::default();
    }

    pub fn patches(&self) -> &BTreeMap<u64, Patch> {
        &self.patches
    }

    /// The bytes of a piece that have to be put first, so that what is written to it is one range.
    pub fn gap(&self, number: u64, start: usize, len: usize) -> Option<Range<usize>> {
        let patch = self.patches.get(&number)?;
        if start > patch.end() {
            Some(patch.end()..start)
        } else if start + len < patch.start {
            Some(start + len..patch.start)
        } else {
            None
        }
    }

    /// Writes a range of a piece, which leaves no gap.
    pub fn put(&mut self, number: u64, start: usize, bytes: &[u8]) {
        let new = || Patch {
            start,
            bytes: Vec::new(),
        };
        let patch = self.patches.entry(number).or_insert_with(new);
        self.size -= patch.bytes.len();
        patch.put(start, bytes);
        self.size += patch.bytes.len();
    }

    /// Writes what is pending over what was read at a place.
    pub fn overlay(&self, piece: u64, at: u64, into: &mut [u8]) {
        let end = at + into.len() as u64;
        for (number, patch) in self.patches.range(at / piece..end.div_ceil(piece)) {
            let start = number * piece + patch.start as u64;
            let from = start.max(at);
            let to = (start + patch.bytes.len() as u64).min(end);
            if from < to {
                let bytes = &patch.bytes[(from - start) as usize..(to - start) as usize];
                into[(from - at) as usize..(to - at) as usize].copy_from_slice(bytes);
            }
        }
    }

    /// Whether all of a range is pending.
    pub fn covers(&self, piece: u64, range: Range<u64>) -> bool {
        (range.start / piece..range.end.div_ceil(piece)).all(|number| {
            let first = number * piece;
            let from = range.start.max(first) - first;
            let to = range.end.min(first + piece) - first;
            let patch = self.patches.get(&number);
            patch.is_some_and(|patch| patch.start as u64 <= from && to <= patch.end() as u64)
        })
    }
}

#[cfg(test)]
mod tests {
    use super::Pending;

    // Writes as the device makes them, of a log that has other bytes, against one list of bytes.
    #[test]
    fn patches_are_what_was_written() {
        let (piece, len) = (8, 64);
        let mut seed = 1u64;
        let mut below = |limit: u64| {
            seed = seed
                .wrapping_mul(6364136223846793005)
                .wrapping_add(1442695040888963407);
            (seed >> 33) % limit
        };
        for _ in 0..500 {
            let before: Vec<u8> = (0..len).map(|_| below(256) as u8).collect();
            let (mut model, mut pending) = (before.clone(), Pending::default());
            for _ in 0..below(8) {
                let at = below(len);
                let end = at + 1 + below(len - at);
                let byte = below(256) as u8;
                model[at as usize..end as usize].fill(byte);
                for number in at / piece..end.div_ceil(piece) {
                    let first = number * piece;
                    let start = (at.max(first) - first) as usize;
                    let part = vec![byte; (end.min(first + piece) - first) as usize - start];
                    if let Some(gap) = pending.gap(number, start, part.len()) {
                        let of_piece = &before[first as usize..];
                        pending.put(number, gap.start, &of_piece[gap.clone()]);
                    }
                    pending.put(number, start, &part);
                }
                assert!(pending.covers(piece, at..end));
            }
            let sizes = pending.patches().values().map(|patch| patch.bytes.len());
            assert_eq!(pending.size(), sizes.sum::<usize>());
            let mut after = before.clone();
            pending.overlay(piece, 0, &mut after);
            assert_eq!(after, model);
            let from = below(len);
            let mut part = before[from as usize..].to_vec();
            pending.overlay(piece, from, &mut part);
            assert_eq!(part, model[from as usize..]);
        }
    }
}
