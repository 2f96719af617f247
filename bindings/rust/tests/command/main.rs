//! The command `dilluvas FILE COMMAND ..`, as a process of its own.

mod attacked;
mod copies;
#[path = "../folder/mod.rs"]
mod folder;
mod followers;
mod keys;
mod killed;
mod page;
mod run;
#[path = "../seed/mod.rs"]
mod seed;
mod texts;
mod whole;
mod words;
