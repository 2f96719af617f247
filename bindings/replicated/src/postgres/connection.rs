//! A connection to a server, of which each answer is waited for no longer than is said.

use super::answer::{Params, Rows, text_of};
use super::sys;
use crate::refusal::Refusal;
use std::ffi::{CStr, CString, c_int, c_short, c_void};
use std::process;
use std::ptr::{self, NonNull};
use std::time::{Duration, Instant};

/// What is sent: a statement's text, or the name of one that was prepared.
#[derive(Clone, Copy)]
pub enum Statement<'a> {
    Text(&'a str),
    Prepared(&'a str),
}

/// A connection. Once one call failed for want of an answer, each later one does: it never connects again.
pub struct Connection {
    raw: NonNull<sys::RawConnection>,
    // The receiver of notices has a pointer to them.
    warnings: NonNull<Vec<(String, String)>>,
    wait: Option<Duration>,
    lost: Option<Refusal>,
    process: u32,
}

// SAFETY: libpq lets one thread at a time use a connection, whichever it is, and each method takes `&mut self`.
unsafe impl Send for Connection {}

impl Connection {
    pub fn new(conninfo: &str, wait: Option<Duration>) -> Result<Connection, Refusal> {
        let conninfo = CString::new(conninfo).map_err(|_| Refusal::BadConnectionString)?;
        refuse_password(&conninfo)?;
        // SAFETY: a string that ends by a zero
        let raw = unsafe { sys::PQconnectdb(conninfo.as_ptr()) };
        let raw = NonNull::new(raw).ok_or_else(|| Refusal::Lost("no memory".into()))?;
        let warnings = NonNull::from(Box::leak(Box::default()));
        let mut connection = Connection {
            raw,
            warnings,
            wait,
            lost: None,
            process: process::id(),
        };
        // SAFETY: the list of warnings lives until the connection is dropped
        unsafe {
            if sys::PQstatus(raw.as_ptr()) != sys::CONNECTION_OK
                || sys::PQsetnonblocking(raw.as_ptr(), 1) != 0
            {
                return Err(connection.lose());
            }
            sys::PQsetNoticeReceiver(raw.as_ptr(), note_warning, warnings.as_ptr().cast());
        }
        Ok(connection)
    }

    /// Sends a statement and waits until the server has ended its transaction. A statement that ended with a warning is refused.
    pub fn call(&mut self, statement: Statement<'_>, params: &Params) -> Result<Rows, Refusal> {
        if self.process != process::id() {
            return Err(Refusal::Forked);
        }
        if let Some(lost) = &self.lost {
            return Err(lost.clone());
        }
        // SAFETY: nothing else uses the list, which libpq writes to within its calls alone
        unsafe { self.warnings.as_mut() }.clear();
        self.send(statement, params)?;
        let deadline = self.wait.map(|wait| Instant::now() + wait);
        let rows = self.answer(deadline);
        // SAFETY: as above
        let warning = unsafe { self.warnings.as_mut() }.pop();
        let rows = rows?;
        // SAFETY: the connection is open
        let (status, transaction) = unsafe {
            let raw = self.raw.as_ptr();
            (sys::PQstatus(raw), sys::PQtransactionStatus(raw))
        };
        if status != sys::CONNECTION_OK || transaction != sys::TRANSACTION_IDLE {
            return Err(self.lose());
        }
        match warning {
            Some((state, text)) => Err(Refusal::Warned(state, text)),
            None => Ok(rows),
        }
    }

    fn send(&mut self, statement: Statement<'_>, params: &Params) -> Result<(), Refusal> {
        let (Statement::Text(text) | Statement::Prepared(text)) = statement;
        let text = CString::new(text).map_err(|_| Refusal::BadAnswer)?;
        let (values, lengths, formats) = params.parts()?;
        let count = values.len() as c_int;
        let raw = self.raw.as_ptr();
        // SAFETY: each list has as many members as there are parameters, whose lengths are those of their bytes
        let sent = unsafe {
            match statement {
                Statement::Text(_) => sys::PQsendQueryParams(
                    raw,
                    text.as_ptr(),
                    count,
                    ptr::null(),
                    values.as_ptr(),
                    lengths.as_ptr(),
                    formats.as_ptr(),
                    1,
                ),
                Statement::Prepared(_) => sys::PQsendQueryPrepared(
                    raw,
                    text.as_ptr(),
                    count,
                    values.as_ptr(),
                    lengths.as_ptr(),
                    formats.as_ptr(),
                    1,
                ),
            }
        };
        if sent == 1 { Ok(()) } else { Err(self.lose()) }
    }

    // All results of what was sent, of which the first error or the last answer counts.
    fn answer(&mut self, deadline: Option<Instant>) -> Result<Rows, Refusal> {
        let mut answer = None;
        while let Some(rows) = self.next_result(deadline)? {
            match answer {
                Some(Err(_)) => {}
                _ => answer = Some(rows.checked()),
            }
        }
        match answer {
            // an error without a SQLSTATE is libpq's own: the connection was lost
            Some(Err(Refusal::Server(state, _))) if state.is_empty() => Err(self.lose()),
            Some(answer) => answer,
            None => Err(self.lose()),
        }
    }

    fn next_result(&mut self, deadline: Option<Instant>) -> Result<Option<Rows>, Refusal> {
        let raw = self.raw.as_ptr();
        loop {
            // SAFETY: the connection is open
            let (unsent, is_busy) = unsafe { (sys::PQflush(raw), sys::PQisBusy(raw) != 0) };
            if unsent >= 0 && !is_busy {
                // SAFETY: as above
                return Ok(Rows::new(unsafe { sys::PQgetResult(raw) }));
            }
            if unsent < 0 {
                return Err(self.lose());
            }
            self.wait_for(unsent > 0, deadline)?;
            // SAFETY: as above
            if unsafe { sys::PQconsumeInput(raw) } == 0 {
                return Err(self.lose());
            }
        }
    }

    // Waits until the socket can be read, or be written to where that is wanted.
    fn wait_for(&mut self, also_write: bool, deadline: Option<Instant>) -> Result<(), Refusal> {
        let write: c_short = if also_write { sys::POLLOUT } else { 0 };
        let left = deadline.map(|end| end.saturating_duration_since(Instant::now()));
        if let (Some(Duration::ZERO), Some(wait)) = (left, self.wait) {
            let refusal = Refusal::NoAnswer(wait);
            self.lost = Some(refusal.clone());
            return Err(refusal);
        }
        let timeout = left.map_or(-1, |left| {
            left.as_millis().saturating_add(1).min(1 << 30) as c_int
        });
        let mut socket = sys::PollFd {
            // SAFETY: the connection is open
            fd: unsafe { sys::PQsocket(self.raw.as_ptr()) },
            events: sys::POLLIN | write,
            revents: 0,
        };
        if socket.fd < 0 {
            return Err(self.lose());
        }
        // SAFETY: one socket. One that is interrupted is waited for again.
        unsafe { sys::poll(&mut socket, 1, timeout) };
        Ok(())
    }

    // Takes the connection for lost, for what libpq says.
    fn lose(&mut self) -> Refusal {
        // SAFETY: the connection is open, and the text is its own
        let text = unsafe { text_of(sys::PQerrorMessage(self.raw.as_ptr())) };
        let lost = Refusal::Lost(text.trim().to_string());
        self.lost.get_or_insert(lost).clone()
    }
}

impl Drop for Connection {
    fn drop(&mut self) {
        // the parent goes on with a connection that a forked child has too
        if self.process != process::id() {
            return;
        }
        // SAFETY: both were made in `new`, and nothing has them now
        unsafe {
            sys::PQfinish(self.raw.as_ptr());
            drop(Box::from_raw(self.warnings.as_ptr()));
        }
    }
}

// Refuses a connection string with a password in it, and one that libpq would refuse by quoting it.
fn refuse_password(conninfo: &CStr) -> Result<(), Refusal> {
    let mut text = ptr::null_mut();
    // SAFETY: the text and the options are given back below
    let options = unsafe { sys::PQconninfoParse(conninfo.as_ptr(), &mut text) };
    if options.is_null() {
        // SAFETY: null or libpq's
        unsafe { sys::PQfreemem(text.cast()) };
        return Err(Refusal::BadConnectionString);
    }
    let mut has_password = false;
    // SAFETY: the list ends by an option without a keyword
    unsafe {
        let mut option = options;
        while !(*option).keyword.is_null() {
            let keyword = CStr::from_ptr((*option).keyword).to_bytes();
            has_password |= keyword.ends_with(b"password") && !(*option).val.is_null();
            option = option.add(1);
        }
        sys::PQconninfoFree(options);
    }
    if has_password {
        Err(Refusal::PasswordGiven)
    } else {
        Ok(())
    }
}

// Keeps a notice that is a warning.
extern "C" fn note_warning(list: *mut c_void, result: *const sys::RawResult) {
    // SAFETY: the list is that of the connection, and the texts are the result's
    unsafe {
        if text_of(sys::PQresultErrorField(result, sys::SEVERITY)) == "WARNING" {
            let list: &mut Vec<(String, String)> = &mut *list.cast();
            list.push((
                text_of(sys::PQresultErrorField(result, sys::SQLSTATE)),
                text_of(sys::PQresultErrorField(result, sys::MESSAGE)),
            ));
        }
    }
}
