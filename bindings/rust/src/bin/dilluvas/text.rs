//! Reading the text that `dump` and LMDB's `mdb_dump` write: sections, each with the lines of a header and then of keys and values.

use crate::bytes::{bytes_of, bytes_of_digits};
use crate::failure::Failure;
use dilluvas::Pair;
use std::io::BufRead;

const NO_DIGITS: &str = "a backslash is not followed by two hexadecimal digits";

/// How the bytes of keys and values are written.
#[derive(Clone, Copy)]
enum Format {
    // What is printable is itself.
    Print,
    // Two hexadecimal digits for each.
    Digits,
}

/// The lines of a text.
pub struct Text<R> {
    input: R,
    line: Vec<u8>,
    number: u64,
    format: Format,
}

/// The header of a section.
pub struct Header {
    /// The name of the map, if it has one.
    pub name: Option<Vec<u8>>,
}

impl<R: BufRead> Text<R> {
    pub fn new(input: R) -> Text<R> {
        Text {
            input,
            line: Vec::new(),
            number: 0,
            format: Format::Digits,
        }
    }

    /// Why the line that was read last is refused.
    pub fn refusal(&self, why: &'static str) -> Failure {
        Failure::Line(self.number, why)
    }

    /// Reads the header of the next section, or returns `None` at the end of the text.
    pub fn next_header(&mut self) -> Result<Option<Header>, Failure> {
        if !self.next_line()? {
            return Ok(None);
        }
        if self.line != b"VERSION=3" {
            return Err(self.refusal("a dump begins with VERSION=3"));
        }
        let mut header = Header { name: None };
        self.format = Format::Digits;
        loop {
            if !self.next_line()? {
                return Err(self.refusal("the text ends in a header"));
            }
            if self.line == b"HEADER=END" {
                return Ok(Some(header));
            }
            self.take_header_line(&mut header)?;
        }
    }

    fn take_header_line(&mut self, header: &mut Header) -> Result<(), Failure> {
        let Some(at) = self.line.iter().position(|byte| *byte == b'=') else {
            return Err(self.refusal("a header has lines of NAME=VALUE"));
        };
        match (&self.line[..at], &self.line[at + 1..]) {
            (b"format", b"print") => self.format = Format::Print,
            (b"format", b"bytevalue") => self.format = Format::Digits,
            (b"format", _) => return Err(self.refusal("the format is print or bytevalue")),
            (b"type", b"btree") => {}
            (b"type", _) => return Err(self.refusal("the type is btree")),
            (b"database", name) => match bytes_of(name) {
                Some(name) => header.name = Some(name),
                None => return Err(self.refusal(NO_DIGITS)),
            },
            (b"dupsort" | b"duplicates" | b"integerkey" | b"reversekey" | b"recnum", b"0") => {}
            (b"dupsort" | b"duplicates", _) => {
                return Err(self.refusal("a key of a map has one value, and no duplicates"));
            }
            (b"integerkey" | b"reversekey" | b"recnum", _) => {
                return Err(self.refusal("the keys of a map are in the order of their bytes"));
            }
            // how another store lies on its disk
            _ => {}
        }
        Ok(())
    }

    /// Reads the next pair of a section, or returns `None` at its end.
    pub fn next_pair(&mut self) -> Result<Option<Pair>, Failure> {
        let Some(key) = self.next_bytes()? else {
            return Ok(None);
        };
        match self.next_bytes()? {
            Some(value) => Ok(Some((key, value))),
            None => Err(self.refusal("a key has no value")),
        }
    }

    fn next_bytes(&mut self) -> Result<Option<Vec<u8>>, Failure> {
        if !self.next_line()? {
            return Err(self.refusal("the text ends before DATA=END"));
        }
        if self.line == b"DATA=END" {
            return Ok(None);
        }
        let Some((b' ', text)) = self.line.split_first() else {
            return Err(self.refusal("a key or a value begins with a space"));
        };
        let (bytes, why) = match self.format {
            Format::Print => (bytes_of(text), NO_DIGITS),
            Format::Digits => (bytes_of_digits(text), "two hexadecimal digits are a byte"),
        };
        bytes.map(Some).ok_or_else(|| self.refusal(why))
    }

    // Reads a line without its end, or answers false where there is none.
    fn next_line(&mut self) -> Result<bool, Failure> {
        self.line.clear();
        let read = self.input.read_until(b'\n', &mut self.line);
        self.number += 1;
        if read.map_err(Failure::Input)? == 0 {
            return Ok(false);
        }
        match self.line.pop() {
            Some(b'\n') => Ok(true),
            _ => Err(self.refusal("the line is cut off")),
        }
    }
}
