//! The functions of libpq that this crate calls, as `libpq-fe.h` of PostgreSQL 15 declares them, and `poll`.

use std::ffi::{c_char, c_int, c_short, c_uint, c_ulong, c_void};

#[repr(C)]
pub struct RawConnection {
    _private: [u8; 0],
}

#[repr(C)]
pub struct RawResult {
    _private: [u8; 0],
}

#[repr(C)]
pub struct ConnectionOption {
    pub keyword: *const c_char,
    pub envvar: *const c_char,
    pub compiled: *const c_char,
    pub val: *const c_char,
    pub label: *const c_char,
    pub dispchar: *const c_char,
    pub dispsize: c_int,
}

#[repr(C)]
pub struct PollFd {
    pub fd: c_int,
    pub events: c_short,
    pub revents: c_short,
}

pub type NoticeReceiver = extern "C" fn(*mut c_void, *const RawResult);

pub const CONNECTION_OK: c_int = 0;
pub const TRANSACTION_IDLE: c_int = 0;
pub const COMMAND_OK: c_int = 1;
pub const TUPLES_OK: c_int = 2;
pub const FATAL_ERROR: c_int = 7;
pub const POLLIN: c_short = 1;
pub const POLLOUT: c_short = 4;

// The fields of an error or a notice.
pub const SEVERITY: c_int = b'V' as c_int;
pub const SQLSTATE: c_int = b'C' as c_int;
pub const MESSAGE: c_int = b'M' as c_int;

unsafe extern "C" {
    pub fn PQconninfoParse(
        conninfo: *const c_char,
        errmsg: *mut *mut c_char,
    ) -> *mut ConnectionOption;
    pub fn PQconninfoFree(options: *mut ConnectionOption);
    pub fn PQfreemem(ptr: *mut c_void);
    pub fn PQconnectdb(conninfo: *const c_char) -> *mut RawConnection;
    pub fn PQfinish(conn: *mut RawConnection);
    pub fn PQstatus(conn: *const RawConnection) -> c_int;
    pub fn PQtransactionStatus(conn: *const RawConnection) -> c_int;
    pub fn PQerrorMessage(conn: *const RawConnection) -> *const c_char;
    pub fn PQsocket(conn: *const RawConnection) -> c_int;
    pub fn PQsetnonblocking(conn: *mut RawConnection, arg: c_int) -> c_int;
    pub fn PQsetNoticeReceiver(
        conn: *mut RawConnection,
        receiver: NoticeReceiver,
        arg: *mut c_void,
    ) -> Option<NoticeReceiver>;
    pub fn PQsendQueryParams(
        conn: *mut RawConnection,
        command: *const c_char,
        count: c_int,
        types: *const c_uint,
        values: *const *const c_char,
        lengths: *const c_int,
        formats: *const c_int,
        result_format: c_int,
    ) -> c_int;
    pub fn PQsendQueryPrepared(
        conn: *mut RawConnection,
        name: *const c_char,
        count: c_int,
        values: *const *const c_char,
        lengths: *const c_int,
        formats: *const c_int,
        result_format: c_int,
    ) -> c_int;
    pub fn PQflush(conn: *mut RawConnection) -> c_int;
    pub fn PQconsumeInput(conn: *mut RawConnection) -> c_int;
    pub fn PQisBusy(conn: *mut RawConnection) -> c_int;
    pub fn PQgetResult(conn: *mut RawConnection) -> *mut RawResult;
    pub fn PQclear(res: *mut RawResult);
    pub fn PQresultStatus(res: *const RawResult) -> c_int;
    pub fn PQresultErrorField(res: *const RawResult, field: c_int) -> *const c_char;
    pub fn PQntuples(res: *const RawResult) -> c_int;
    pub fn PQgetvalue(res: *const RawResult, row: c_int, column: c_int) -> *const c_char;
    pub fn PQgetlength(res: *const RawResult, row: c_int, column: c_int) -> c_int;
    pub fn PQgetisnull(res: *const RawResult, row: c_int, column: c_int) -> c_int;

    pub fn poll(fds: *mut PollFd, count: c_ulong, timeout: c_int) -> c_int;
}
