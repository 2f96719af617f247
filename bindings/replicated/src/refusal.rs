//! Why a device refuses.

use std::fmt;
use std::io;
use std::time::Duration;

/// Why a device refused a call. A cache gets it as the cause of [`Error::Read`](dilluvas::Error::Read) or
/// [`Error::Write`](dilluvas::Error::Write): an [`io::Error`] whose `get_ref` is this.
///
/// No text of it has a password, nor the connection string.
#[derive(Clone, Debug, PartialEq, Eq)]
#[non_exhaustive]
pub enum Refusal {
    /// The connection string can't be parsed. What libpq says of that isn't kept, since it quotes the string.
    BadConnectionString,
    /// The connection string has a password. It belongs in the engine's own files (`~/.pgpass`, a service file).
    PasswordGiven,
    /// There is no connection, or it was lost: the text of libpq. What the last sync sent may be durable or not.
    Lost(String),
    /// No answer came in this time, so the connection was given up. What the last sync sent may be durable or not.
    NoAnswer(Duration),
    /// The process was forked since the opening: the connection belongs to its parent.
    Forked,
    /// The server ended the commit with a warning, its SQLSTATE and its text: it wasn't replicated, as far as is known.
    Warned(String, String),
    /// The server refused a statement: the SQLSTATE and the text.
    Server(String, String),
    /// `synchronous_standby_names` is empty, so no commit would wait for a standby.
    NoStandby,
    /// `fsync` is off, so no commit is durable.
    NoFsync,
    /// The server is a standby: it takes no writes.
    InRecovery,
    /// There are no tables of logs there: `Place::make_tables` makes them.
    NoTables,
    /// There is no log of this name.
    NoLog,
    /// The log or its tables have another version of the format. 0: it isn't known which.
    OtherVersion(i32),
    /// Another opening came since.
    Superseded {
        /// The epoch of this opening.
        ours: i64,
        /// The epoch of the newer one.
        theirs: i64,
    },
    /// The log has a smaller epoch than this opening gave it: it is an older state of the log that was opened.
    EpochWentBack {
        /// The epoch of this opening.
        ours: i64,
        /// The epoch that the log has.
        theirs: i64,
    },
    /// The epoch is one that no opening can have written, or can't be raised.
    ImpossibleEpoch(i64),
    /// A piece has this number and can't be used: it is missing, or has another length than the log says.
    BadPiece(i64),
    /// The length of the log, or the size of its pieces, is impossible.
    BadLength(i64),
    /// The server answered something that the statement can't answer.
    BadAnswer,
    /// The block device has no flush, so nothing on it can be made durable.
    NoFlush,
    /// The block device can't be written.
    ReadOnly,
    /// The block device takes no request of fewer bytes than this, and a log writes single bytes.
    BlockSize(i64),
    /// The block device isn't as one of nothing but zeros, so no log is made there.
    NotEmpty,
    /// There is no log on the block device.
    NotALog,
    /// The block device ends here: a log can't get longer.
    Full(u64),
}

impl fmt::Display for Refusal {
    fn fmt(&self, f: &mut fmt::Formatter<'_>) -> fmt::Result {
        match self {
            Refusal::BadConnectionString => f.write_str("the connection string can't be parsed"),
            Refusal::PasswordGiven => f.write_str("the connection string has a password"),
            Refusal::Lost(text) => write!(f, "no connection to the server: {text}"),
            Refusal::NoAnswer(wait) => write!(f, "the server didn't answer in {wait:?}"),
            Refusal::Forked => f.write_str("the connection belongs to the parent of this process"),
            Refusal::Warned(state, text) => write!(f, "committed with a warning, {state}: {text}"),
            Refusal::Server(state, text) => write!(f, "the server refused, {state}: {text}"),
            Refusal::NoStandby => f.write_str("synchronous_standby_names is empty"),
            Refusal::NoFsync => f.write_str("fsync is off"),
            Refusal::InRecovery => f.write_str("the server is a standby"),
            Refusal::NoTables => f.write_str("the server has no tables of logs"),
            Refusal::NoLog => f.write_str("there is no log of this name"),
            Refusal::OtherVersion(0) => f.write_str("the tables have another version"),
            Refusal::OtherVersion(version) => write!(f, "the log has version {version}"),
            Refusal::Superseded { ours, theirs } => {
                write!(f, "a newer writer has epoch {theirs}, this one has {ours}")
            }
            Refusal::EpochWentBack { ours, theirs } => {
                write!(f, "the log has epoch {theirs}, which is before {ours}")
            }
            Refusal::ImpossibleEpoch(epoch) => write!(f, "no opening wrote epoch {epoch}"),
            Refusal::BadPiece(number) => {
                write!(f, "piece {number} is missing or has a wrong length")
            }
            Refusal::BadLength(length) => write!(f, "a log can't have the length {length}"),
            Refusal::BadAnswer => f.write_str("the server's answer has another form"),
            Refusal::NoFlush => f.write_str("the block device has no flush"),
            Refusal::ReadOnly => f.write_str("the block device is read-only"),
            Refusal::BlockSize(bytes) => write!(f, "the block device has blocks of {bytes} bytes"),
            Refusal::NotEmpty => f.write_str("the block device isn't empty"),
            Refusal::NotALog => f.write_str("the block device has no log"),
            Refusal::Full(size) => write!(f, "the block device has {size} bytes"),
        }
    }
}

impl std::error::Error for Refusal {}

impl Refusal {
    fn kind(&self) -> io::ErrorKind {
        match self {
            Refusal::BadConnectionString | Refusal::PasswordGiven => io::ErrorKind::InvalidInput,
            Refusal::Lost(_) => io::ErrorKind::NotConnected,
            Refusal::NoAnswer(_) => io::ErrorKind::TimedOut,
            Refusal::NoTables | Refusal::NoLog => io::ErrorKind::NotFound,
            Refusal::InRecovery | Refusal::ReadOnly => io::ErrorKind::ReadOnlyFilesystem,
            Refusal::OtherVersion(_)
            | Refusal::EpochWentBack { .. }
            | Refusal::ImpossibleEpoch(_)
            | Refusal::BadPiece(_)
            | Refusal::BadLength(_)
            | Refusal::NotALog
            | Refusal::BadAnswer => io::ErrorKind::InvalidData,
            Refusal::Superseded { .. } => io::ErrorKind::StaleNetworkFileHandle,
            Refusal::NotEmpty => io::ErrorKind::AlreadyExists,
            Refusal::Full(_) => io::ErrorKind::StorageFull,
            // 53100 is disk_full
            Refusal::Server(state, _) if state == "53100" => io::ErrorKind::StorageFull,
            _ => io::ErrorKind::Other,
        }
    }

    /// The refusal that caused an error of a cache, where one of this crate did.
    #[must_use]
    pub fn of(error: &dilluvas::Error) -> Option<&Refusal> {
        use dilluvas::Error::{DiskFull, Read, Write};
        let (Read(cause) | Write(cause) | DiskFull(cause)) = error else {
            return None;
        };
        cause.get_ref()?.downcast_ref()
    }
}

impl From<Refusal> for io::Error {
    fn from(refusal: Refusal) -> io::Error {
        io::Error::new(refusal.kind(), refusal)
    }
}
