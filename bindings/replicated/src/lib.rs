//! Devices for [`dilluvas`] over engines that keep bytes on several machines. A [`Device`](dilluvas::Device) reads, writes and syncs bytes; the
//! replication, the election of a primary and the failover are the engine's own.
//!
//! - [`PostgresDevice`]: a log in a table of PostgreSQL with a synchronous standby. Each sync is one transaction.
//! - `NbdDevice`, with the feature `nbd`: a log on a network block device, as nbdkit and qemu serve them. Each sync is a flush.
//!
//! # What a proof asks, and what PostgreSQL promises
//!
//! The theorems on a caller's file (`docs/PROOFS.md`, *A file of the caller's*) have one premise, that the file keeps its word. This table has
//! what that is, what this crate does for it, and the sentence of PostgreSQL 15's documentation on which that rests. The sentences are promises of
//! the engine: nothing here proves them.
//!
//! | what a file owes | what gives it | what PostgreSQL's documentation says |
//! |---|---|---|
//! | What was written is there from then on. | A read is one statement, under what is pending in memory. | 13.2.1 *Read Committed Isolation Level*: "a `SELECT` query sees a snapshot of the database as of the instant the query begins to run" |
//! | After a sync a crash of the primary leaves all that was written before. | A sync is one transaction, and answers after its commit has. | 3.4 *Transactions*: "once a transaction is completed and acknowledged by the database system, it has indeed been permanently recorded and won't be lost even if a crash ensues shortly thereafter" |
//! | So does a failover. | The session has `synchronous_commit = remote_apply`, and each commit checks it, `fsync`, and that `synchronous_standby_names` isn't empty. | 20.5.1 *Settings*: "commits will wait until replies from the current synchronous standby(s) indicate they have received the commit record of the transaction and applied it, so that it has become visible to queries on the standby(s), and also written to durable storage on the standbys" |
//! | A sync that failed is reported as one. | A lost connection, a late answer and a commit that ends with a warning are errors, and every later call fails. | 27.2.8.4 *Planning for High Availability*: "the application will not receive explicit acknowledgment of the successful commit of a transaction until the WAL data is known to be safely received by all the synchronous standbys" |
//! | Until a sync, a crash may leave any bytes in what was written. | A crash leaves all of a transaction or nothing of it, which is less. | 3.4 *Transactions*: "a single, all-or-nothing operation" |
//! | What an opening reads is durable once the opening is. | The opening first raises the epoch in a commit of its own. Every sync of the log updates the same row, so all commits that it can read come before that one in the write-ahead log. | 27.2.8.4: "Some transactions may not show as committed on the standby, even though they show as committed on the primary" |
//! | Nobody else writes. | Each sync updates the log's row `WHERE epoch = ` its own, and changes nothing where there is none. | 13.2.1: "The search condition of the command (the `WHERE` clause) is re-evaluated to see if the updated version of the row still matches the search condition" |
//!
//! # What is left to whoever runs the engine
//!
//! - **The standby that is promoted is the synchronous one** of the last commits. With several, as in `FIRST 1 (s1, s2)` or `ANY 1 (s1, s2)`, the
//!   one with the longest write-ahead log is promoted. Another one lacks commits that were answered.
//! - **The old primary gets no more answers.** A primary whose only synchronous standby was promoted waits for ever. One of several standbys that
//!   goes on with the old primary lets it commit, and then there are two histories. 27.3 *Failover* says so: "you must have a mechanism for
//!   informing the old primary that it is no longer the primary".
//! - **`synchronous_standby_names` isn't emptied** while a commit waits: PostgreSQL answers that commit as a success, though no standby has it. The next
//!   sync is refused.
//! - **`fsync` is on at the standby** too, which can't be seen from the primary.
//! - **Nobody changes the tables** but this crate, and a restored backup isn't used beside the server that it came from.
//!
//! # Errors
//!
//! A [`Refusal`] says why a call failed. A cache has it as the cause of its error, where [`Refusal::of`] finds it.

#![warn(missing_docs)]

#[cfg(feature = "nbd")]
mod nbd;
mod postgres;
mod refusal;

#[cfg(feature = "nbd")]
pub use nbd::NbdDevice;
pub use postgres::{Place, PostgresDevice, Servers};
pub use refusal::Refusal;
