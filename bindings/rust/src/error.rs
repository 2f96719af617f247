//! Why a call was refused.

use crate::sys;
use std::fmt;
use std::io;
use std::mem;
use std::sync::Arc;

/// Why a call failed. The call has changed nothing, unless its documentation says otherwise or the error is [`Write`](Error::Write).
///
/// [`Read`](Error::Read), [`Write`](Error::Write), [`NoAccess`](Error::NoAccess) and [`DiskFull`](Error::DiskFull) contain the system's error
/// that caused them, which is also their [`source`](std::error::Error::source). Two errors are equal if they are of the same kind: their causes
/// are not compared.
///
/// ```
/// use dilluvas::{Cache, Error, NO_PAIRS, Settings};
///
/// # fn main() -> Result<(), Error> {
/// let mut cache = Cache::in_memory(&Settings::default())?;
/// let mut batch = cache.pin()?;
/// let error = batch.flush().unwrap_err();
/// assert_eq!(error, Error::BatchOpen);
/// assert_eq!(error.status(), 108);
/// assert!(error.to_string().starts_with("a batch is open"));
/// // nothing changed: the batch goes on
/// batch.allocate(NO_PAIRS)?;
/// batch.seal()?;
/// # Ok(())
/// # }
/// ```
///
/// A program can look at the system's error:
///
/// ```
/// use dilluvas::{Db, Error};
/// use std::io::ErrorKind;
///
/// match Db::open("/no/such/folder/file") {
///     Err(Error::NoAccess(cause)) => assert_eq!(cause.kind(), ErrorKind::NotFound),
///     other => unreachable!("{other:?}"),
/// }
/// ```
#[derive(Clone, Debug)]
#[non_exhaustive]
pub enum Error {
    /// An argument is invalid: the keys of the pairs are not in ascending order, or a leaf cannot hold the pairs. [`compact_to`] returns this
    /// for a device that already has bytes.
    ///
    /// [`compact_to`]: crate::Cache::compact_to
    Arguments,
    /// No batch is open.
    NoBatch,
    /// The page is an index, whose pairs have no values.
    Index,
    /// The call is not available over a file or another device.
    NotOverFile,
    /// The key is longer than 2^31 - 1 bytes.
    KeyTooLong,
    /// The value is longer than 2^31 - 1 bytes.
    ValueTooLong,
    /// An allocation failed. The call may be retried.
    OutOfMemory,
    /// A read failed. The call may be retried. A forked child gets this error where a call would read its parent's file.
    Read(Arc<io::Error>),
    /// A write or a sync failed, in this call or in an earlier one. Every later call fails with this error too, until the file or device is
    /// reopened. Everything that was flushed is there then, and some of the later changes may be. A write beyond the process's limit on the
    /// length of files (`RLIMIT_FSIZE`) fails with this error and raises no signal. So does a write or a sync of its parent's file in a forked
    /// child.
    Write(Arc<io::Error>),
    /// The file or a page is damaged, or was not written by Dilluvas; or the pages are not those of a map.
    Corruption,
    /// The path names a directory, or something else that is not a regular file; or a file of the system, such as those in `/proc`, which
    /// stores nothing. [`compact`](crate::Cache::compact) returns this for a cache on another device.
    NoFile,
    /// The file cannot be opened for reading and writing, or cannot be created.
    NoAccess(Arc<io::Error>),
    /// The file is open in another process, or already open in this one. A forked child gets this error too if a thread of its parent was
    /// inside a call of the [`Db`](crate::Db) at the fork, since that call never ends in the child.
    Held,
    /// The page is reserved for the cache: 0, 1 or 2^64 - 667.
    ReservedId,
    /// The capacity of the cache is below 256.
    CapacityTooSmall,
    /// The interval of ids is 0, and must be at least 1.
    IntervalZero,
    /// The size of a segment is 0, and must be at least 1.
    SegmentZero,
    /// All 2^37 pages are in use.
    PagesUsedUp,
    /// All ids below 2^64 are used up.
    IdsUsedUp,
    /// The stamp of the page is 2^64 - 1, so the page cannot change any more.
    StampUsedUp,
    /// A batch is open: seal or cancel it first. Until then a flush, a second pin, an id that needs a new counter, and a rewrite fail with this
    /// error.
    BatchOpen,
    /// There are already 2^24 other names.
    TooManyNames,
    /// The name is longer than 2^31 - 1 bytes.
    NameTooLong,
    /// The log is full: it has no room for the change.
    LogFull,
    /// The disk has no room for the change, and nothing was changed. All earlier changes can still be read and flushed, and new ones can be made
    /// once there is room. A rewrite fails with this error if the disk has no room for the new file.
    DiskFull(Arc<io::Error>),
    /// The page does not accept the change: it is an index, the key is out of its range, or the leaf is full.
    LinkRefused,
    /// This thread is already inside another call of the same [`Db`](crate::Db), and would wait for itself forever. In the closure of
    /// [`Db::batch`](crate::Db::batch), use the maps of the batch.
    Reentrant,
    /// A status that no other variant stands for, by its number. An open cache returns none.
    Unknown(u32),
}

// The numbers of the statuses that tell those which the system didn't cause.
static STATUSES: [(u32, Error); 22] = [
    (7, Error::Arguments),
    (8, Error::NoBatch),
    (9, Error::Index),
    (10, Error::NotOverFile),
    (11, Error::KeyTooLong),
    (12, Error::ValueTooLong),
    (16, Error::OutOfMemory),
    (19, Error::Corruption),
    (32, Error::NoFile),
    (34, Error::Held),
    (101, Error::ReservedId),
    (102, Error::CapacityTooSmall),
    (103, Error::IntervalZero),
    (104, Error::SegmentZero),
    (105, Error::PagesUsedUp),
    (106, Error::IdsUsedUp),
    (107, Error::StampUsedUp),
    (108, Error::BatchOpen),
    (109, Error::TooManyNames),
    (110, Error::NameTooLong),
    (111, Error::LogFull),
    (203, Error::LinkRefused),
];

impl Error {
    /// The error of a status. The library reads and writes nothing itself, so it has no cause of a failed read or write.
    pub(crate) fn of(status: u32) -> Error {
        let untold = || Arc::new(io::Error::other("the library doesn't say why"));
        match status {
            sys::READ => Error::Read(untold()),
            sys::WRITE => Error::Write(untold()),
            status => {
                let row = STATUSES.iter().find(|(number, _)| *number == status);
                row.map_or(Error::Unknown(status), |(_, error)| error.clone())
            }
        }
    }

    /// The error of a status of a call that reads and writes by itself, where the system said why.
    pub(crate) fn caused(status: u32, cause: io::Error) -> Error {
        match status {
            sys::READ => Error::read(cause),
            sys::WRITE => Error::write(cause),
            sys::DISK_FULL => Error::disk_full(cause),
            status => Error::of(status),
        }
    }

    pub(crate) fn read(cause: io::Error) -> Error {
        Error::Read(Arc::new(cause))
    }

    pub(crate) fn write(cause: io::Error) -> Error {
        Error::Write(Arc::new(cause))
    }

    pub(crate) fn disk_full(cause: io::Error) -> Error {
        Error::DiskFull(Arc::new(cause))
    }

    /// [`DiskFull`](Error::DiskFull) for a failed write on which nothing depends, if the disk had no room for it; otherwise this error.
    pub(crate) fn or_disk_full(self) -> Error {
        match self {
            Error::Write(cause) if is_of_room(&cause) => Error::DiskFull(cause),
            error => error,
        }
    }

    pub(crate) fn no_access(cause: io::Error) -> Error {
        Error::NoAccess(Arc::new(cause))
    }

    /// Returns its status number, as in `dilluvas.h`. [`Reentrant`](Error::Reentrant) has none there, and returns 0.
    #[must_use]
    pub fn status(&self) -> u32 {
        match self {
            Error::Unknown(status) => *status,
            Error::Read(_) => sys::READ,
            Error::Write(_) => sys::WRITE,
            Error::NoAccess(_) => sys::NO_ACCESS,
            Error::DiskFull(_) => sys::DISK_FULL,
            told => {
                let row = STATUSES.iter().find(|(_, error)| error == told);
                row.map_or(0, |(number, _)| *number)
            }
        }
    }

    fn cause(&self) -> Option<&Arc<io::Error>> {
        match self {
            Error::Read(cause)
            | Error::Write(cause)
            | Error::NoAccess(cause)
            | Error::DiskFull(cause) => Some(cause),
            _ => None,
        }
    }
}

/// Whether the system refused something for lack of room.
pub(crate) fn is_of_room(error: &io::Error) -> bool {
    matches!(
        error.kind(),
        io::ErrorKind::StorageFull | io::ErrorKind::QuotaExceeded
    )
}

/// `Ok` if the status of a call says that it was done, otherwise its error.
pub(crate) fn done(status: u32) -> Result<(), Error> {
    match status {
        sys::OK => Ok(()),
        status => Err(Error::of(status)),
    }
}

impl PartialEq for Error {
    fn eq(&self, other: &Error) -> bool {
        match (self, other) {
            (Error::Unknown(status), Error::Unknown(other)) => status == other,
            _ => mem::discriminant(self) == mem::discriminant(other),
        }
    }
}

impl Eq for Error {}

impl fmt::Display for Error {
    fn fmt(&self, f: &mut fmt::Formatter<'_>) -> fmt::Result {
        if *self == Error::Reentrant {
            return f.write_str(
                "this thread is already inside another call of the same store: in a batch, use the maps of the batch",
            );
        }
        let (mut text, mut needed) = ([0; 128], 0);
        let text = match sys::text(self.status(), &mut text, &mut needed) {
            sys::OK => &text[..needed],
            _ => &[],
        };
        f.write_str(&String::from_utf8_lossy(text))
    }
}

impl std::error::Error for Error {
    fn source(&self) -> Option<&(dyn std::error::Error + 'static)> {
        let cause = self.cause()?;
        Some(&**cause)
    }
}

/// Lets a function that returns an [`io::Result`] use `?` on the calls of a cache. The kind is that of the cause, if the system caused the
/// error.
///
/// ```
/// use dilluvas::Error;
/// use std::io;
///
/// let error = io::Error::from(Error::Corruption);
/// assert_eq!(error.kind(), io::ErrorKind::InvalidData);
/// let inner = error.get_ref().and_then(|inner| inner.downcast_ref());
/// assert_eq!(inner, Some(&Error::Corruption));
/// ```
impl From<Error> for io::Error {
    fn from(error: Error) -> io::Error {
        let kind = match &error {
            Error::OutOfMemory => io::ErrorKind::OutOfMemory,
            Error::Corruption => io::ErrorKind::InvalidData,
            Error::Held => io::ErrorKind::ResourceBusy,
            error => error
                .cause()
                .map_or(io::ErrorKind::Other, |cause| cause.kind()),
        };
        io::Error::new(kind, error)
    }
}
