//! The same pages in LMDB, through its C interface: a row for each stamp and each pair, in one tree. All between two flushes is one
//! transaction.

use crate::store::{FIRST, Pages, Pairs, Store};
use std::ffi::{CString, c_char, c_int, c_uint, c_void};
use std::path::Path;
use std::ptr::{null, null_mut};

#[repr(C)]
struct Val {
    size: usize,
    data: *mut c_void,
}

type Env = *mut c_void;
type Txn = *mut c_void;
type Cursor = *mut c_void;

const SET: c_uint = 15;
const NEXT: c_uint = 8;
const NOT_FOUND: c_int = -30798;
const NO_LOCK: c_uint = 0x40_0000;
const NO_SYNC: c_uint = 0x1_0000;
const WRITE_MAP: c_uint = 0x8_0000;
const COMPACT: c_uint = 1;

unsafe extern "C" {
    fn mdb_env_create(env: *mut Env) -> c_int;
    fn mdb_env_set_mapsize(env: Env, size: usize) -> c_int;
    fn mdb_env_open(env: Env, path: *const c_char, flags: c_uint, mode: c_uint) -> c_int;
    fn mdb_env_copy2(env: Env, path: *const c_char, flags: c_uint) -> c_int;
    fn mdb_env_close(env: Env);
    fn mdb_txn_begin(env: Env, parent: Txn, flags: c_uint, txn: *mut Txn) -> c_int;
    fn mdb_txn_commit(txn: Txn) -> c_int;
    fn mdb_txn_abort(txn: Txn);
    fn mdb_dbi_open(txn: Txn, name: *const c_char, flags: c_uint, table: *mut c_uint) -> c_int;
    fn mdb_cursor_open(txn: Txn, table: c_uint, cursor: *mut Cursor) -> c_int;
    fn mdb_cursor_close(cursor: Cursor);
    fn mdb_cursor_get(cursor: Cursor, key: *mut Val, data: *mut Val, op: c_uint) -> c_int;
    fn mdb_cursor_put(cursor: Cursor, key: *mut Val, data: *mut Val, flags: c_uint) -> c_int;
    fn mdb_cursor_del(cursor: Cursor, flags: c_uint) -> c_int;
}

fn check(status: c_int) {
    assert_eq!(status, 0, "LMDB answered an error");
}

fn given(bytes: &[u8]) -> Val {
    Val {
        size: bytes.len(),
        data: bytes.as_ptr() as *mut c_void,
    }
}

fn nothing() -> Val {
    Val {
        size: 0,
        data: null_mut(),
    }
}

// The bytes that a cursor found. They stand until the next change of the table.
fn taken<'a>(found: &Val) -> &'a [u8] {
    unsafe { std::slice::from_raw_parts(found.data as *const u8, found.size) }
}

// The key of a page's stamp, and, with a pair's key behind it, of that pair.
fn row(page: u64, key: &[u8]) -> Vec<u8> {
    let mut row = Vec::with_capacity(8 + key.len());
    row.extend_from_slice(&page.to_be_bytes());
    row.extend_from_slice(key);
    row
}

fn path_of(folder: &Path) -> CString {
    CString::new(folder.as_os_str().as_encoded_bytes()).expect("no zero is in it")
}

/// LMDB over a folder.
pub struct Lmdb {
    env: Env,
    txn: Txn,
    cursor: Cursor,
    // of each page, as the program knows them
    stamps: Vec<u64>,
    bytes: Vec<u8>,
}

impl Lmdb {
    /// With `syncs` a commit is durable. Without, the file is written through a map of memory.
    pub fn open(folder: &Path, syncs: bool) -> Lmdb {
        let path = path_of(folder);
        let kind = if syncs { 0 } else { NO_SYNC | WRITE_MAP };
        let mut env = null_mut();
        unsafe {
            check(mdb_env_create(&mut env));
            check(mdb_env_set_mapsize(env, 4 << 30));
            check(mdb_env_open(env, path.as_ptr(), NO_LOCK | kind, 0o600));
        }
        let mut lmdb = Lmdb {
            env,
            txn: null_mut(),
            cursor: null_mut(),
            stamps: Vec::new(),
            bytes: Vec::new(),
        };
        lmdb.begin();
        lmdb
    }

    /// Copies what is committed to another folder, with compaction. Nothing is synced.
    pub fn copy(&self, folder: &Path) {
        let path = path_of(folder);
        check(unsafe { mdb_env_copy2(self.env, path.as_ptr(), COMPACT) });
    }

    fn begin(&mut self) {
        let mut table = 0;
        unsafe {
            check(mdb_txn_begin(self.env, null_mut(), 0, &mut self.txn));
            check(mdb_dbi_open(self.txn, null(), 0, &mut table));
            check(mdb_cursor_open(self.txn, table, &mut self.cursor));
        }
    }

    // The row of a key, by `SET`, or the one behind the cursor, by `NEXT`, whose key is put in place of it.
    fn seek(&mut self, key: &mut Val, kind: c_uint) -> Option<Val> {
        let mut data = nothing();
        match unsafe { mdb_cursor_get(self.cursor, key, &mut data, kind) } {
            NOT_FOUND => None,
            status => {
                check(status);
                Some(data)
            }
        }
    }

    fn stamp(&mut self, page: u64) -> u64 {
        let key = row(page, b"");
        let found = self.seek(&mut given(&key), SET).expect("the page is there");
        u64::from_le_bytes(taken(&found).try_into().expect("a stamp has eight bytes"))
    }

    fn put(&mut self, page: u64, key: &[u8], value: &[u8]) {
        let key = row(page, key);
        check(unsafe { mdb_cursor_put(self.cursor, &mut given(&key), &mut given(value), 0) });
    }

    // The stamp of a page that is changed: it is read, compared and raised.
    fn raise(&mut self, page: u64) {
        let stamp = self.stamp(page);
        assert_eq!(stamp, self.stamps[(page - FIRST) as usize]);
        self.stamps[(page - FIRST) as usize] = stamp + 1;
        self.put(page, b"", &(stamp + 1).to_le_bytes());
    }

    // Goes over the rows of a page's pairs. The cursor is at each as it is visited.
    fn scan(&mut self, page: u64, mut visit: impl FnMut(Cursor, &[u8], &[u8])) {
        let start = row(page, b"");
        let mut key = given(&start);
        self.seek(&mut key, SET);
        while let Some(data) = self.seek(&mut key, NEXT) {
            let found = taken(&key);
            if !found.starts_with(&start) {
                return;
            }
            visit(self.cursor, &found[8..], taken(&data));
        }
    }
}

impl Pages for Lmdb {
    fn allocate(&mut self, pairs: &Pairs) -> u64 {
        let page = FIRST + self.stamps.len() as u64;
        self.stamps.push(1);
        self.put(page, b"", &1u64.to_le_bytes());
        for (key, value) in pairs {
            self.put(page, key, value);
        }
        page
    }

    fn read(&mut self, page: u64) -> usize {
        let mut bytes = std::mem::take(&mut self.bytes);
        bytes.clear();
        self.scan(page, |_, key, value| {
            bytes.extend_from_slice(key);
            bytes.extend_from_slice(value);
        });
        self.bytes = bytes;
        self.bytes.len()
    }

    fn flush(&mut self) {
        unsafe {
            mdb_cursor_close(self.cursor);
            check(mdb_txn_commit(self.txn));
        }
        self.begin();
    }
}

impl Store for Lmdb {
    fn value(&mut self, page: u64, key: &[u8], value: &mut Vec<u8>) {
        let key = row(page, key);
        let found = self.seek(&mut given(&key), SET).expect("the key is there");
        value.extend_from_slice(taken(&found));
    }

    fn set(&mut self, page: u64, key: &[u8], value: &[u8]) {
        self.raise(page);
        self.put(page, key, value);
    }

    fn replace(&mut self, page: u64, pairs: &Pairs) {
        self.raise(page);
        // behind a deletion the cursor is at the next row
        self.scan(page, |cursor, _, _| {
            check(unsafe { mdb_cursor_del(cursor, 0) })
        });
        for (key, value) in pairs {
            self.put(page, key, value);
        }
    }
}

impl Drop for Lmdb {
    fn drop(&mut self) {
        unsafe {
            mdb_cursor_close(self.cursor);
            mdb_txn_abort(self.txn);
            mdb_env_close(self.env);
        }
    }
}
