//! The settings of a cache.

/// The settings of a cache over a log in memory.
///
/// ```
/// use dilluvas::{Cache, Settings};
///
/// let settings = Settings { cache_capacity: 1 << 24, ..Settings::default() };
/// let cache = Cache::in_memory(&settings)?;
/// # Ok::<(), dilluvas::Error>(())
/// ```
// The library reads it: its fields are those of dilluvas.h, in that order.
#[repr(C)]
#[derive(Clone, Copy, Debug, PartialEq, Eq)]
pub struct Settings {
    /// The capacity of the cache: bytes of messages whose pages stay in memory as nodes, at least 256.
    pub cache_capacity: u64,
    /// How many ids one counter covers, at least 1.
    pub idgen_persist_interval: u64,
    /// The size of a segment of the log, in bytes, at least 1.
    pub segment_size: usize,
    /// Payloads of more bytes than this are kept next to the log, as blobs.
    pub blob_limit: usize,
    /// One page is due to be moved for every `clean_every` messages that are appended, and none if this is 0.
    pub clean_every: u64,
}

impl Default for Settings {
    fn default() -> Settings {
        Settings {
            cache_capacity: 1 << 20,
            idgen_persist_interval: 10,
            segment_size: 4096,
            blob_limit: 512,
            clean_every: 16,
        }
    }
}

/// The settings of a cache over a file or another device. It may be opened with other settings than those with which it was created, except for
/// a smaller interval of ids.
// The library reads it, as above.
#[repr(C)]
#[derive(Clone, Copy, Debug, PartialEq, Eq)]
pub struct FileSettings {
    /// The capacity of the cache: bytes of messages whose pages stay in memory as nodes, at least 256.
    pub cache_capacity: u64,
    /// How many ids one counter covers, at least 1: an opening skips at most twice as many. Never make it smaller over the same file: an id
    /// could then be returned twice.
    pub idgen_persist_interval: u64,
    /// Once this many bytes are pending, they are written, which takes two syncs. At least 1.
    pub segment_size: usize,
}

impl Default for FileSettings {
    fn default() -> FileSettings {
        FileSettings {
            cache_capacity: 1 << 20,
            idgen_persist_interval: 10,
            segment_size: 1 << 20,
        }
    }
}
