//! What a command ends with.

use dilluvas::Error;
use std::error::Error as _;
use std::fmt;
use std::io;

/// The result of a command that was carried out.
pub enum Outcome {
    Done,
    /// What was asked for isn't there, or a part of the file is damaged.
    Absent,
}

/// Why a command failed.
pub enum Failure {
    /// The store refused a call.
    Store(Error),
    /// The input can't be read.
    Input(io::Error),
    /// The output can't be written.
    Output(io::Error),
    /// A line of the input is not one of a dump: its number, and why.
    Line(u64, &'static str),
    /// There is no map with this name.
    NoMap(String),
    /// The target of a copy, by its path, failed with this error.
    To(String, Error),
}

impl From<Error> for Failure {
    fn from(error: Error) -> Failure {
        Failure::Store(error)
    }
}

// One line, whatever the texts hold.
impl fmt::Display for Failure {
    fn fmt(&self, f: &mut fmt::Formatter<'_>) -> fmt::Result {
        match self {
            Failure::Store(error) => write_error(f, error),
            Failure::Input(error) => write!(f, "standard input can't be read: {error}"),
            Failure::Output(error) => write!(f, "standard output can't be written: {error}"),
            Failure::Line(number, why) => {
                write!(f, "line {number} of the input: {why}; nothing was loaded")
            }
            Failure::NoMap(name) => write!(f, "there is no map {name}"),
            Failure::To(file, error) => {
                write!(f, "{file}: ")?;
                write_error(f, error)
            }
        }
    }
}

fn write_error(f: &mut fmt::Formatter<'_>, error: &Error) -> fmt::Result {
    write!(f, "{error}")?;
    match error.source() {
        Some(cause) => write!(f, ": {cause}"),
        None => Ok(()),
    }
}
