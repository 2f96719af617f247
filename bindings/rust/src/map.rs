//! An ordered map from bytes to bytes.

mod access;
mod calls;
mod iter;
mod ordered;
mod values;

pub use access::Access;
pub(crate) use access::Sealed;
pub use calls::Pair;
pub(crate) use calls::{Calls, USUAL_ROOM};
pub use iter::Iter;
pub use values::CompareAndSwapError;

use crate::db::Db;
use std::fmt;
use std::sync::Arc;

/// An ordered map of a [`Db`], from bytes to bytes: what [`Db::map`] returns, and in a batch [`DbBatch::map`](crate::DbBatch::map).
///
/// Keys are in byte order. A key and a value can be any bytes, from none to 2^31 - 1 of them. Keys that are the
/// [`to_be_bytes`](u64::to_be_bytes) of numbers are in the order of the numbers.
///
/// A `Map` has a name and the `Db`, and no state of its own: a clone is the same map, and so is another `Map` with that name.
///
/// ```
/// use dilluvas::{Db, Error};
///
/// # fn main() -> Result<(), Error> {
/// let db = Db::in_memory()?;
/// let fruit = db.map("fruit");
/// assert_eq!(fruit.insert("lime", "yellow")?, None);
/// assert_eq!(fruit.insert("lime", "green")?, Some(b"yellow".to_vec()));
/// fruit.insert("apple", "red")?;
/// for pair in &fruit {
///     let (key, value) = pair?;
///     println!("{} is {}", key.escape_ascii(), value.escape_ascii());
/// }
/// assert_eq!(fruit.remove("lime")?, Some(b"green".to_vec()));
/// # Ok(())
/// # }
/// ```
///
/// # Errors
///
/// Each call can fail with its own errors, and with these, after which the map is as it was: [`Read`](crate::Error::Read) and
/// [`OutOfMemory`](crate::Error::OutOfMemory), for which the call may be retried; [`Corruption`](crate::Error::Corruption) if pages of the map
/// can't be read; [`Reentrant`](crate::Error::Reentrant) in the closure of [`Db::batch`]. After [`Write`](crate::Error::Write) the change may
/// be there once the file is reopened. A change fails with [`DiskFull`](crate::Error::DiskFull) if the disk has no room for it.
#[derive(Clone)]
pub struct Map<A = Db> {
    access: A,
    name: Arc<[u8]>,
}

impl<A: Access> Map<A> {
    pub(crate) fn new(access: A, name: &[u8]) -> Map<A> {
        Map {
            access,
            name: name.into(),
        }
    }

    /// Returns its name.
    ///
    /// ```
    /// use dilluvas::{Db, Error};
    ///
    /// let db = Db::in_memory()?;
    /// assert_eq!(db.map("fruit").name(), b"fruit");
    /// # Ok::<(), Error>(())
    /// ```
    #[must_use]
    pub fn name(&self) -> &[u8] {
        &self.name
    }
}

impl<A> fmt::Debug for Map<A> {
    fn fmt(&self, f: &mut fmt::Formatter<'_>) -> fmt::Result {
        let name = self.name.escape_ascii().to_string();
        f.debug_struct("Map")
            .field("name", &name)
            .finish_non_exhaustive()
    }
}
