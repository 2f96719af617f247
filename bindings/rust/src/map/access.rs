//! What the calls of a map go through.

use super::calls::Calls;
use crate::error::Error;

/// What a [`Map`](crate::Map) belongs to: a [`Db`](crate::Db), whose lock each call takes, or a [`DbBatch`](crate::DbBatch), which already
/// holds it. Nothing else implements it.
///
/// A function that is generic over it works with both:
///
/// ```
/// use dilluvas::{Access, Db, Error, Map};
///
/// fn count_up<A: Access>(counts: &Map<A>, word: &str) -> Result<(), Error> {
///     let count = counts.get(word)?.map_or(0, |bytes| bytes[0]);
///     counts.set(word, [count + 1])?;
///     Ok(())
/// }
///
/// let db = Db::in_memory()?;
/// count_up(&db.map("words"), "lime")?;
/// db.batch(|batch| {
///     count_up(&batch.map("words"), "lime")?;
///     count_up(&batch.map("words"), "plum")
/// })?;
/// assert_eq!(db.map("words").get("lime")?, Some(vec![2]));
/// # Ok::<(), Error>(())
/// ```
pub trait Access: Clone + Sealed {}

/// What no other crate implements.
pub trait Sealed {
    /// Makes calls with no call of another thread in between.
    fn with<T>(&self, calls: impl FnOnce(&mut Calls<'_>) -> Result<T, Error>) -> Result<T, Error>;
}
