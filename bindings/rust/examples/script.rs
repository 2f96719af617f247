//! The script of docs/SCRIPT.md over the library: `script mem` over a new log in memory, and `script file PATH` over the log in a file. It reads
//! lines from standard input, and writes for each the reply that the program `sledpc` writes. Two things the library doesn't do: a root
//! page 0 is no root to it, and the line that names one is no command here; and over a file it makes no `gc`, and moves no page.
//!
//! The status is 0 where the script ends, 1 where the file, a stream or the memory fails, and 2 for wrong words.

use dilluvas::{Amplification, Batch, Cache, Error, FileSettings, Page, Settings, Swap, Token};
use std::env;
use std::fmt::Write as _;
use std::io::{self, BufRead, BufWriter, Write};
use std::process::ExitCode;

/// The greatest length of a line, in bytes without its newline.
const LONGEST_LINE: usize = 65_536;

type Pairs = Vec<(Vec<u8>, Vec<u8>)>;

/// What a line asks for.
enum Command {
    Call(Call),
    Pin,
    Seal,
    Cancel,
}

/// A call of a cache.
enum Call {
    Allocate(Pairs),
    Get(u64),
    Set(Token, Vec<u8>, Vec<u8>),
    Del(Token, Vec<u8>),
    Replace(Token, Pairs),
    Free(Token),
    OpenTree(Vec<u8>),
    Root(Vec<u8>),
    CasRoot(Vec<u8>, Option<u64>, Option<u64>),
    GenerateId,
    Flush,
    Size,
    Amplification,
    AttemptGc,
}

// ---- Words.

/// The words of a line that are left, with one space between them.
struct Words<'a> {
    rest: Option<&'a [u8]>,
}

impl<'a> Words<'a> {
    fn next(&mut self) -> Option<&'a [u8]> {
        let (word, rest) = cut_at(self.rest?, b' ');
        self.rest = rest;
        Some(word)
    }

    fn number(&mut self) -> Option<u64> {
        number_of(self.next()?)
    }

    fn token(&mut self) -> Option<Token> {
        let (page, stamp) = (self.number()?, self.number()?);
        Some(Token { page, stamp })
    }

    // A root page, or none for `-`. Page 0 is none to the library.
    fn root(&mut self) -> Option<Option<u64>> {
        match self.next()? {
            b"-" => Some(None),
            word => number_of(word).filter(|page| *page != 0).map(Some),
        }
    }

    fn bytes(&mut self) -> Option<Vec<u8>> {
        bytes_of(self.next()?)
    }

    // All words that are left, as pairs. That their keys ascend isn't tested.
    fn pairs(&mut self) -> Option<Pairs> {
        let mut pairs = Pairs::new();
        while let Some(word) = self.next() {
            let (key, value) = cut_at(word, b'=');
            pairs.push((bytes_of(key)?, bytes_of(value?)?));
        }
        Some(pairs)
    }
}

// What stands in front of the first such byte, and what behind it, if it is there.
fn cut_at(bytes: &[u8], mark: u8) -> (&[u8], Option<&[u8]>) {
    match bytes.iter().position(|byte| *byte == mark) {
        Some(at) => (&bytes[..at], Some(&bytes[at + 1..])),
        None => (bytes, None),
    }
}

// The number of decimal digits without a leading zero.
fn number_of(word: &[u8]) -> Option<u64> {
    match word {
        b"0" => Some(0),
        [b'1'..=b'9', rest @ ..] if rest.iter().all(u8::is_ascii_digit) => {
            str::from_utf8(word).ok()?.parse().ok()
        }
        _ => None,
    }
}

// The bytes of lower-case hexadecimal, or of `-`, which is none.
fn bytes_of(word: &[u8]) -> Option<Vec<u8>> {
    if word == b"-" {
        return Some(Vec::new());
    }
    match word.as_chunks() {
        ([], _) | (_, [_, ..]) => None,
        (digits, []) => digits.iter().map(byte_of).collect(),
    }
}

fn byte_of([high, low]: &[u8; 2]) -> Option<u8> {
    Some(hex_value(*high)? * 16 + hex_value(*low)?)
}

fn hex_value(digit: u8) -> Option<u8> {
    match digit {
        b'0'..=b'9' => Some(digit - b'0'),
        b'a'..=b'f' => Some(digit - b'a' + 10),
        _ => None,
    }
}

// ---- Commands.

fn command_of(line: &[u8]) -> Option<Command> {
    if line.len() > LONGEST_LINE {
        return None;
    }
    let mut words = Words { rest: Some(line) };
    let command = match words.next()? {
        b"pin" => Command::Pin,
        b"seal" => Command::Seal,
        b"cancel" => Command::Cancel,
        name => Command::Call(call_of(name, &mut words)?),
    };
    words.rest.is_none().then_some(command)
}

fn call_of(name: &[u8], words: &mut Words<'_>) -> Option<Call> {
    Some(match name {
        b"alloc" => Call::Allocate(words.pairs()?),
        b"get" => Call::Get(words.number()?),
        b"set" => Call::Set(words.token()?, words.bytes()?, words.bytes()?),
        b"del" => Call::Del(words.token()?, words.bytes()?),
        b"replace" => Call::Replace(words.token()?, words.pairs()?),
        b"free" => Call::Free(words.token()?),
        b"open" => Call::OpenTree(words.bytes()?),
        b"root" => Call::Root(words.bytes()?),
        b"cas" => Call::CasRoot(words.bytes()?, words.root()?, words.root()?),
        b"id" => Call::GenerateId,
        b"flush" => Call::Flush,
        b"size" => Call::Size,
        b"amp" => Call::Amplification,
        b"gc" => Call::AttemptGc,
        _ => return None,
    })
}

// Makes a call, and answers the reply to it.
fn answer(cache: &mut Cache, call: Call) -> Result<String, Error> {
    Ok(match call {
        Call::Allocate(pairs) => {
            let Token { page, stamp } = cache.allocate(lent(&pairs))?;
            format!("page {page} {stamp}")
        }
        Call::Get(page) => cache.get(page)?.map_or("none".into(), page_text),
        Call::Set(token, key, value) => swap_text(cache.set(token, &key, &value)?),
        Call::Del(token, key) => swap_text(cache.del(token, &key)?),
        Call::Replace(token, pairs) => swap_text(cache.replace(token, lent(&pairs))?),
        Call::Free(token) => swap_text(cache.free(token)?),
        Call::OpenTree(name) => format!("page {}", cache.open_tree(&name)?),
        Call::Root(name) => match cache.root(&name)? {
            Some(page) => format!("page {page}"),
            None => "none".into(),
        },
        Call::CasRoot(name, old, new) => match cache.cas_root(&name, old, new)? {
            Ok(()) => "ok".into(),
            Err(Some(page)) => format!("is {page}"),
            Err(None) => "is -".into(),
        },
        Call::GenerateId => format!("id {}", cache.generate_id()?),
        Call::Flush => format!("flushed {}", cache.flush()?),
        Call::Size => format!("size {}", cache.size()?),
        Call::Amplification => {
            let Amplification { log, pages } = cache.amplification()?;
            format!("amp {log} {pages}")
        }
        Call::AttemptGc if cache.attempt_gc()? => "moved".into(),
        Call::AttemptGc => "idle".into(),
    })
}

fn lent(pairs: &Pairs) -> impl Iterator<Item = (&[u8], &[u8])> {
    pairs.iter().map(|(key, value)| (&key[..], &value[..]))
}

// ---- Replies.

fn swap_text(swap: Swap) -> String {
    match swap {
        Swap::Done(token) => format!("ok {}", token.stamp),
        Swap::Stale(token) => format!("stale {}", token.stamp),
        Swap::Gone => "gone".into(),
    }
}

fn page_text(page: Page) -> String {
    let kind = if page.is_index() { "index" } else { "leaf" };
    let mut text = format!("{kind} {}", page.token().stamp);
    for (key, value) in page.pairs() {
        text.push(' ');
        put_bytes(&mut text, key);
        text.push('=');
        match value.try_into() {
            Ok(child) if page.is_index() => put(&mut text, u64::from_le_bytes(child)),
            _ => put_bytes(&mut text, value),
        }
    }
    text
}

fn put(text: &mut String, number: u64) {
    write!(text, "{number}").expect("a string takes all that is written");
}

fn put_bytes(text: &mut String, bytes: &[u8]) {
    const DIGITS: &[u8; 16] = b"0123456789abcdef";
    if bytes.is_empty() {
        text.push('-');
    }
    for byte in bytes {
        text.push(DIGITS[usize::from(byte / 16)].into());
        text.push(DIGITS[usize::from(byte % 16)].into());
    }
}

fn error_text(error: Error) -> String {
    match error {
        Error::Arguments | Error::NoBatch => "error line".into(),
        Error::OutOfMemory => "error memory".into(),
        Error::Read(_) => "error read".into(),
        Error::Write(_) => "error write".into(),
        Error::Corruption => "error corruption".into(),
        other => match other.status() {
            status @ 201.. => format!("error bug {}", status - 200),
            status @ 101.. => format!("error unsupported {}", status - 100),
            status => format!("error status {status}"),
        },
    }
}

// ---- Lines.

/// Where lines were served up to.
enum Stop {
    End,
    Seal,
    Cancel,
}

// Reads the next line without its newline, and answers whether there was one.
fn read_line(input: &mut impl BufRead, line: &mut Vec<u8>) -> io::Result<bool> {
    line.clear();
    let is_there = input.read_until(b'\n', line)? > 0;
    if line.ends_with(b"\n") {
        line.pop();
    }
    Ok(is_there)
}

// Serves lines up to one that closes a batch.
fn serve<R: BufRead, W: Write>(
    cache: &mut Cache,
    input: &mut R,
    output: &mut W,
) -> io::Result<Stop> {
    let mut line = Vec::new();
    while read_line(input, &mut line)? {
        let reply = match command_of(&line) {
            Some(Command::Call(call)) => answer(cache, call).unwrap_or_else(error_text),
            Some(Command::Pin) => match cache.pin() {
                Ok(batch) => {
                    serve_batch(batch, input, output)?;
                    continue;
                }
                Err(error) => error_text(error),
            },
            Some(Command::Seal) => return Ok(Stop::Seal),
            Some(Command::Cancel) => return Ok(Stop::Cancel),
            None => "error line".into(),
        };
        writeln!(output, "{reply}")?;
    }
    Ok(Stop::End)
}

// Replies that a batch is open, and serves the lines up to the one that closes it. It is cancelled where the script ends.
fn serve_batch<R: BufRead, W: Write>(
    mut batch: Batch<'_>,
    input: &mut R,
    output: &mut W,
) -> io::Result<()> {
    writeln!(output, "ok")?;
    let closed = match serve(&mut batch, input, output)? {
        Stop::End => return Ok(()),
        Stop::Seal => batch.seal(),
        Stop::Cancel => {
            drop(batch);
            Ok(())
        }
    };
    let reply = closed.map_or_else(error_text, |()| "ok".into());
    writeln!(output, "{reply}")
}

// Serves all lines. Where no batch is open, one that closes a batch is no command.
fn serve_all<R: BufRead, W: Write>(
    cache: &mut Cache,
    input: &mut R,
    output: &mut W,
) -> io::Result<()> {
    while !matches!(serve(cache, input, output)?, Stop::End) {
        writeln!(output, "error line")?;
    }
    output.flush()
}

// ---- The program.

fn open(path: Option<&str>) -> Result<Cache, Error> {
    match path {
        None => Cache::in_memory(&Settings::default()),
        Some(path) => {
            let settings = FileSettings {
                segment_size: 4096,
                ..FileSettings::default()
            };
            Cache::open(path, &settings)
        }
    }
}

fn run(path: Option<&str>) -> Result<(), Box<dyn std::error::Error>> {
    let mut cache = open(path)?;
    let mut output = BufWriter::new(io::stdout().lock());
    serve_all(&mut cache, &mut io::stdin().lock(), &mut output)?;
    Ok(())
}

fn main() -> ExitCode {
    let words: Vec<String> = env::args().skip(1).collect();
    let words: Vec<&str> = words.iter().map(String::as_str).collect();
    let path = match words[..] {
        ["mem"] => None,
        ["file", path] => Some(path),
        _ => {
            eprintln!("usage: script mem | file PATH");
            return ExitCode::from(2);
        }
    };
    match run(path) {
        Ok(()) => ExitCode::SUCCESS,
        Err(error) => {
            eprintln!("script: {error}");
            ExitCode::FAILURE
        }
    }
}
