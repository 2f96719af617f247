//! What calls return.

/// A page number, and a stamp that the page had.
///
/// A change names the token that it expects, and is not made if the page has another one.
#[derive(Clone, Copy, Debug, PartialEq, Eq, Hash)]
pub struct Token {
    /// The page.
    pub page: u64,
    /// The stamp.
    pub stamp: u64,
}

/// The result of changing a page.
///
/// ```
/// use dilluvas::{Cache, Settings, Swap};
///
/// # fn main() -> Result<(), dilluvas::Error> {
/// let mut cache = Cache::in_memory(&Settings::default())?;
/// let old = cache.allocate([("color", "red")])?;
/// let new = cache.set(old, "color", "blue")?.done().expect("the token is the page's");
/// // the page has another token since
/// match cache.set(old, "color", "green")? {
///     Swap::Done(_) | Swap::Gone => unreachable!("the token is stale"),
///     Swap::Stale(present) => assert_eq!(present, new),
/// }
/// let freed = cache.free(new)?.done();
/// assert!(freed.is_some());
/// assert_eq!(cache.del(new, "color")?, Swap::Gone);
/// # Ok(())
/// # }
/// ```
#[derive(Clone, Copy, Debug, PartialEq, Eq)]
#[must_use = "the page may have another token, and then nothing changed"]
pub enum Swap {
    /// The page was changed, and this is its new token.
    Done(Token),
    /// The token was stale: nothing changed, and this is the current token.
    Stale(Token),
    /// There is no such page.
    Gone,
}

impl Swap {
    /// Returns the new token, if the page was changed.
    #[must_use = "none says that nothing changed"]
    pub fn done(self) -> Option<Token> {
        match self {
            Swap::Done(token) => Some(token),
            Swap::Stale(_) | Swap::Gone => None,
        }
    }
}

/// How much space a cache takes.
#[derive(Clone, Copy, Debug, PartialEq, Eq)]
pub struct Amplification {
    /// The size of the log, in bytes.
    pub log: u64,
    /// How many bytes the contents of the pages would take, including one segment; `u64::MAX` means that many or more.
    pub pages: u64,
}
