//! Reading the frames of a file that another process may write to.
//!
//! A log writes a frame behind a closed gate, syncs it, and opens that gate then: no byte before the gate changes from there on, and the
//! gate stays open. So whoever has seen a gate open reads the whole frame behind it, whatever is written meanwhile.

use crate::error::Error;
use std::io::ErrorKind;
use std::os::unix::fs::FileExt;

// What each file begins with, behind which its first gate is.
const OPENING: &[u8; 8] = b"SLPCLOG1";
/// A gate and the length of the frame behind it.
pub(super) const HEADER: usize = 9;
// So many bytes are read at once: few in tests, whose frames go over several pieces.
const PIECE: usize = if cfg!(test) { 256 } else { 1 << 20 };

/// The bytes of a file, up to the first gate that is closed.
pub(super) struct Frames<'a, F> {
    file: &'a F,
    // All before was handed on.
    at: u64,
    // Where the next gate stands, which wasn't handed on yet, and the last one that was open.
    gate: u64,
    last_open: Option<u64>,
    // What a piece of the file was, and what it is behind that: a gate that was open then has all behind it by now.
    before: Vec<u8>,
    now: Vec<u8>,
}

impl<'a, F: FileExt> Frames<'a, F> {
    /// All that a file has, which is none of a cache where this answers [`Corruption`](Error::Corruption).
    pub(super) fn of(file: &'a F) -> Result<Frames<'a, F>, Error> {
        let mut opening = [0; OPENING.len()];
        if read_up_to(file, 0, &mut opening)? < opening.len() || opening != *OPENING {
            return Err(Error::Corruption);
        }
        let mut frames = Frames::behind(file, OPENING.len() as u64)?;
        frames.at = 0;
        Ok(frames)
    }

    /// What a file has from a gate on.
    pub(super) fn behind(file: &'a F, gate: u64) -> Result<Frames<'a, F>, Error> {
        Ok(Frames {
            file,
            at: gate,
            gate,
            last_open: None,
            before: piece()?,
            now: piece()?,
        })
    }

    /// Hands the bytes on that stand before the closed gate, piece by piece, each with its place: the gate's place.
    pub(super) fn each_piece(
        &mut self,
        mut on_piece: impl FnMut(u64, &mut [u8]) -> Result<(), Error>,
    ) -> Result<u64, Error> {
        loop {
            let len = read_up_to(self.file, self.at, &mut self.before)?;
            let len = read_up_to(self.file, self.at, &mut self.now[..len])?;
            let is_closed = self.pass(len)?;
            // the next gate's length isn't read yet where it is cut off
            let passed = len.min(usize::try_from(self.gate - self.at).unwrap_or(usize::MAX));
            if passed > 0 {
                on_piece(self.at, &mut self.now[..passed])?;
                self.at += passed as u64;
            }
            if is_closed {
                return Ok(self.gate);
            }
            if passed == 0 {
                return Err(Error::Corruption);
            }
        }
    }

    /// Where the last gate stands that was open, of those that were passed.
    pub(super) fn last_open(&self) -> Option<u64> {
        self.last_open
    }

    // Goes on to the gate behind the last frame whose header was read: whether that is closed.
    fn pass(&mut self, len: usize) -> Result<bool, Error> {
        let end = self.at + len as u64;
        while self.gate < end {
            let at = (self.gate - self.at) as usize;
            if self.before[at] == 0 {
                return Ok(true);
            }
            let Some(header) = self.now[..len].get(at..at + HEADER) else {
                return Ok(false);
            };
            let length = header
                .last_chunk()
                .map_or(0, |bytes| u64::from_le_bytes(*bytes));
            let next = self
                .gate
                .checked_add(length)
                .and_then(|at| at.checked_add(HEADER as u64));
            self.last_open = Some(self.gate);
            match next {
                Some(next) if length > 0 => self.gate = next,
                _ => return Err(Error::Corruption),
            }
        }
        Ok(false)
    }
}

/// Room for a piece of a file.
pub(super) fn piece() -> Result<Vec<u8>, Error> {
    let mut piece = Vec::new();
    piece
        .try_reserve_exact(PIECE)
        .map_err(|_| Error::OutOfMemory)?;
    piece.resize(PIECE, 0);
    Ok(piece)
}

/// Reads as many bytes as there are, at most so many as there is room for.
pub(super) fn read_up_to(file: &impl FileExt, at: u64, into: &mut [u8]) -> Result<usize, Error> {
    let mut len = 0;
    while len < into.len() {
        match file.read_at(&mut into[len..], at + len as u64) {
            Ok(0) => break,
            Ok(read) => len += read,
            Err(error) if error.kind() == ErrorKind::Interrupted => {}
            Err(error) => return Err(Error::read(error)),
        }
    }
    Ok(len)
}
