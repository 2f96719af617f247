//! Errors that the system causes, as tests name them: what caused one isn't compared.
#![allow(dead_code)] // each test that includes it uses a part

use dilluvas::Error;
use std::io;
use std::sync::Arc;

fn some_cause() -> Arc<io::Error> {
    Arc::new(io::Error::other("any"))
}

pub fn read() -> Error {
    Error::Read(some_cause())
}

pub fn write() -> Error {
    Error::Write(some_cause())
}

pub fn no_access() -> Error {
    Error::NoAccess(some_cause())
}
