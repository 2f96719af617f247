//! What a statement is given, and what it answers: binary, in the byte order of the network.

use super::sys;
use crate::refusal::Refusal;
use std::ffi::{CStr, c_char, c_int};
use std::ptr::NonNull;
use std::slice;

// The types of the members of arrays, by the numbers of `pg_type`.
const BYTEA: u32 = 17;
const INT8: u32 = 20;
const INT4: u32 = 23;

/// The values of a statement's parameters, in order.
#[derive(Default)]
pub struct Params(Vec<Vec<u8>>);

type Parts = (Vec<*const c_char>, Vec<c_int>, Vec<c_int>);

impl Params {
    pub fn int8(mut self, value: i64) -> Params {
        self.0.push(value.to_be_bytes().to_vec());
        self
    }

    pub fn int4(mut self, value: i32) -> Params {
        self.0.push(value.to_be_bytes().to_vec());
        self
    }

    pub fn bool(mut self, value: bool) -> Params {
        self.0.push(vec![u8::from(value)]);
        self
    }

    pub fn text(mut self, value: &str) -> Params {
        self.0.push(value.as_bytes().to_vec());
        self
    }

    pub fn int8s(self, values: impl ExactSizeIterator<Item = i64>) -> Params {
        self.array(INT8, values.map(i64::to_be_bytes))
    }

    pub fn int4s(self, values: impl ExactSizeIterator<Item = i32>) -> Params {
        self.array(INT4, values.map(i32::to_be_bytes))
    }

    pub fn byteas<'a>(self, values: impl ExactSizeIterator<Item = &'a [u8]>) -> Params {
        self.array(BYTEA, values)
    }

    fn array<T: AsRef<[u8]>>(
        mut self,
        kind: u32,
        values: impl ExactSizeIterator<Item = T>,
    ) -> Params {
        // one dimension, without nulls, whose members count from 1
        let mut bytes = Vec::new();
        for number in [1, 0, kind, values.len() as u32, 1] {
            bytes.extend(number.to_be_bytes());
        }
        for value in values {
            bytes.extend((value.as_ref().len() as u32).to_be_bytes());
            bytes.extend(value.as_ref());
        }
        self.0.push(bytes);
        self
    }

    /// The places, lengths and formats, as libpq takes them.
    pub(super) fn parts(&self) -> Result<Parts, Refusal> {
        let lengths: Result<Vec<c_int>, _> =
            self.0.iter().map(|value| value.len().try_into()).collect();
        let lengths = lengths.map_err(|_| Refusal::BadLength(i64::MAX))?;
        let values = self.0.iter().map(|value| value.as_ptr().cast()).collect();
        Ok((values, lengths, vec![1; self.0.len()]))
    }
}

/// The rows that a statement answered.
pub struct Rows(NonNull<sys::RawResult>);

impl Rows {
    pub(super) fn new(raw: *mut sys::RawResult) -> Option<Rows> {
        NonNull::new(raw).map(Rows)
    }

    /// Itself, unless it is an error.
    pub(super) fn checked(self) -> Result<Rows, Refusal> {
        let raw = self.0.as_ptr();
        // SAFETY: the result is there, and the texts are its own
        unsafe {
            match sys::PQresultStatus(raw) {
                sys::COMMAND_OK | sys::TUPLES_OK => Ok(self),
                sys::FATAL_ERROR => Err(Refusal::Server(
                    text_of(sys::PQresultErrorField(raw, sys::SQLSTATE)),
                    text_of(sys::PQresultErrorField(raw, sys::MESSAGE)),
                )),
                _ => Err(Refusal::BadAnswer),
            }
        }
    }

    pub fn count(&self) -> usize {
        // SAFETY: the result is there
        unsafe { sys::PQntuples(self.0.as_ptr()) as usize }
    }

    /// The bytes of a value that isn't null.
    pub fn bytes(&self, row: usize, column: usize) -> Result<&[u8], Refusal> {
        let (raw, row, column) = (self.0.as_ptr(), row as c_int, column as c_int);
        // SAFETY: libpq answers null for a place that isn't there, and else as many bytes as it says
        unsafe {
            if sys::PQgetisnull(raw, row, column) != 0 {
                return Err(Refusal::BadAnswer);
            }
            let at = sys::PQgetvalue(raw, row, column);
            let len = sys::PQgetlength(raw, row, column) as usize;
            Ok(slice::from_raw_parts(at.cast(), len))
        }
    }

    pub fn int8(&self, row: usize, column: usize) -> Result<i64, Refusal> {
        let bytes = self.bytes(row, column)?.try_into();
        bytes
            .map(i64::from_be_bytes)
            .map_err(|_| Refusal::BadAnswer)
    }

    pub fn int4(&self, row: usize, column: usize) -> Result<i32, Refusal> {
        let bytes = self.bytes(row, column)?.try_into();
        bytes
            .map(i32::from_be_bytes)
            .map_err(|_| Refusal::BadAnswer)
    }

    pub fn bool(&self, row: usize, column: usize) -> Result<bool, Refusal> {
        match self.bytes(row, column)? {
            [value] => Ok(*value != 0),
            _ => Err(Refusal::BadAnswer),
        }
    }
}

impl Drop for Rows {
    fn drop(&mut self) {
        // SAFETY: the result is there, and nothing has a part of it now
        unsafe { sys::PQclear(self.0.as_ptr()) }
    }
}

/// A text of libpq's, or none where it is null.
///
/// # Safety
///
/// It is null, or ends by a zero and lives during the call.
pub(super) unsafe fn text_of(text: *const c_char) -> String {
    if text.is_null() {
        return String::new();
    }
    // SAFETY: the caller's
    unsafe { CStr::from_ptr(text) }
        .to_string_lossy()
        .into_owned()
}
