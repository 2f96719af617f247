//! Ordered maps from bytes to bytes, in a file: a safe Rust API over a library whose calls are proved to keep their contracts.
//!
//! ```
//! use dilluvas::Db;
//!
//! # fn main() -> Result<(), dilluvas::Error> {
//! # let folder = std::env::temp_dir().join(format!("dilluvas-{}", std::process::id()));
//! # std::fs::create_dir(&folder).unwrap();
//! # let path = folder.join("fruit.db");
//! let db = Db::open(&path)?;
//! let fruit = db.map("fruit");
//! fruit.insert("lime", "green")?;
//! assert_eq!(fruit.get("lime")?, Some(b"green".to_vec()));
//! db.flush()?;
//! # drop(db);
//! # std::fs::remove_dir_all(&folder).unwrap();
//! # Ok(())
//! # }
//! ```
//!
//! A [`Db`] has any number of [`Map`]s, each with a name, in a file or in memory, and threads can share it. What was flushed survives a crash.
//! [`Db::batch`] makes changes of which a crash leaves all or nothing. [`Map::range`] and [`Map::iter`] iterate over a map in key order, from
//! both ends, even while it changes. The file grows with each change until it is rewritten: by a flush that finds much of it obsolete
//! ([`CompactAt`]), or by [`Db::compact`].
//!
//! # Pages
//!
//! Below the maps is a page cache, for other kinds of stores. A page holds some keys and values, and has a stamp that each change raises by
//! one:
//!
//! ```
//! use dilluvas::{Cache, NO_PAIRS, Settings, Swap};
//!
//! # fn main() -> Result<(), dilluvas::Error> {
//! let mut cache = Cache::in_memory(&Settings::default())?;
//! let token = cache.allocate(NO_PAIRS)?;
//! let Swap::Done(_) = cache.set(token, "key", "value")? else {
//!     unreachable!("no other call changed the page")
//! };
//! let page = cache.get(token.page)?.expect("it was allocated");
//! assert_eq!(page.get("key"), Some(&b"value"[..]));
//! cache.flush()?;
//! # Ok(())
//! # }
//! ```
//!
//! [`Cache::open`] opens a cache over a file, and [`Cache::on_device`] over anything that reads, writes and syncs bytes. [`Cache::pin`] opens a
//! [`Batch`], of which a crash leaves all or nothing once it is sealed. A log only grows, until [`Cache::compact`] rewrites it.
//!
//! Every method takes `&mut self`: a [`Cache`] can move to another thread, but only one thread at a time uses it. It is `Send`, and not `Sync`.
//!
//! Maps are stored on pages too. A [`Cache`] over their file may read these pages, but must not change them.

#![deny(unsafe_code)]
#![warn(missing_docs)]

mod answer;
mod batch;
mod cache;
mod db;
mod device;
mod error;
mod file;
mod map;
mod page;
mod settings;
mod sys;

pub use answer::{Amplification, Swap, Token};
pub use batch::Batch;
pub use cache::Cache;
pub use db::{CompactAt, Db, DbBatch, NotSealed};
pub use device::Device;
pub use error::Error;
pub use file::{copy_file, copy_file_with};
pub use map::{Access, CompareAndSwapError, Iter, Map, Pair};
pub use page::{NO_PAIRS, Page, Pairs};
pub use settings::{FileSettings, Settings};
