//! `dilluvas FILE COMMAND ..`: reads, changes, checks and copies ordered maps in a file.

#![forbid(unsafe_code)]

mod bytes;
mod copying;
mod date;
mod dump;
mod failure;
mod keys;
mod load;
mod progress;
mod stat;
mod store;
mod text;
mod verify;
mod words;

use failure::{Failure, Outcome};
use std::env;
use std::io::{self, Write};
use std::path::Path;
use std::process::ExitCode;
use words::{Command, Request};

// The exit codes beside 0.
const ABSENT: u8 = 1;
const WORDS: u8 = 2;
const ERROR: u8 = 3;

impl Failure {
    fn code(&self) -> u8 {
        match self {
            Failure::NoMap(_) => ABSENT,
            _ => ERROR,
        }
    }
}

fn main() -> ExitCode {
    let answer = match words::parse(env::args_os().skip(1)) {
        Ok(Request::Help) => written(words::HELP),
        Ok(Request::Version) => written(concat!("dilluvas ", env!("CARGO_PKG_VERSION"), "\n")),
        Ok(Request::Run { file, command }) => run(&file, command).map_err(|why| {
            let file = bytes::text_of_path(&file);
            (why, file)
        }),
        Err(why) => {
            eprintln!("dilluvas: {why} (see dilluvas --help)");
            return ExitCode::from(WORDS);
        }
    };
    match answer {
        Ok(Outcome::Done) => ExitCode::SUCCESS,
        Ok(Outcome::Absent) => ExitCode::from(ABSENT),
        // whoever reads the output has had enough
        Err((Failure::Output(error), _)) if error.kind() == io::ErrorKind::BrokenPipe => {
            ExitCode::SUCCESS
        }
        Err((why, file)) => {
            eprintln!("dilluvas: {file}: {why}");
            ExitCode::from(why.code())
        }
    }
}

fn run(file: &Path, command: Command) -> Result<Outcome, Failure> {
    match command {
        Command::Get { map, key } => keys::get(file, &map, &key),
        Command::Set { map, key, value } => keys::set(file, &map, &key, value),
        Command::Delete { map, key } => keys::delete(file, &map, &key),
        Command::Scan { map, from, to } => keys::scan(file, &map, from, to),
        Command::Maps => keys::maps(file),
        Command::Stat => stat::stat(file),
        Command::Verify => verify::verify(file),
        Command::Compact => copying::compact(file),
        Command::Copy { to } => copying::copy(file, &to),
        Command::Dump { map } => dump::dump(file, map),
        Command::Load { map } => load::load(file, map),
    }
}

fn written(text: &str) -> Result<Outcome, (Failure, String)> {
    match io::stdout().write_all(text.as_bytes()) {
        Ok(()) => Ok(Outcome::Done),
        Err(error) => Err((Failure::Output(error), "standard output".to_owned())),
    }
}
