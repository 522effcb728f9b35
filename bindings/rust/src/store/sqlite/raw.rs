//! The calls of libsqlite3 that the store makes, as `sqlite3.h` declares them.

use std::ffi::{c_char, c_int, c_uchar, c_void};

pub(super) const OK: c_int = 0;
pub(super) const CONSTRAINT: c_int = 19;
pub(super) const ROW: c_int = 100;
pub(super) const DONE: c_int = 101;

pub(super) const INTEGER: c_int = 1;
pub(super) const FLOAT: c_int = 2;
pub(super) const TEXT: c_int = 3;
pub(super) const NULL: c_int = 5;

pub(super) const OPEN_READWRITE: c_int = 0x2;
pub(super) const OPEN_CREATE: c_int = 0x4;
pub(super) const OPEN_FULLMUTEX: c_int = 0x1_0000;

/// `sqlite3`.
#[repr(C)]
pub(super) struct Sqlite3 {
    opaque: [u8; 0],
}

/// `sqlite3_stmt`.
#[repr(C)]
pub(super) struct Statement {
    opaque: [u8; 0],
}

/// A function of each row.
pub(super) type Callback =
    unsafe extern "C" fn(*mut c_void, c_int, *mut *mut c_char, *mut *mut c_char) -> c_int;

/// Returns `SQLITE_TRANSIENT`, by which SQLite copies a text: the address -1 in place of a function that frees it.
pub(super) fn transient() -> *const c_void {
    std::ptr::without_provenance(usize::MAX)
}

#[link(name = "sqlite3")]
unsafe extern "C" {
    pub(super) fn sqlite3_open_v2(
        path: *const c_char,
        database: *mut *mut Sqlite3,
        flags: c_int,
        system: *const c_char,
    ) -> c_int;
    pub(super) fn sqlite3_close_v2(database: *mut Sqlite3) -> c_int;
    pub(super) fn sqlite3_busy_timeout(database: *mut Sqlite3, milliseconds: c_int) -> c_int;
    pub(super) fn sqlite3_errmsg(database: *mut Sqlite3) -> *const c_char;
    pub(super) fn sqlite3_errcode(database: *mut Sqlite3) -> c_int;
    pub(super) fn sqlite3_changes(database: *mut Sqlite3) -> c_int;
    pub(super) fn sqlite3_exec(
        database: *mut Sqlite3,
        text: *const c_char,
        callback: Option<Callback>,
        argument: *mut c_void,
        message: *mut *mut c_char,
    ) -> c_int;
    pub(super) fn sqlite3_prepare_v2(
        database: *mut Sqlite3,
        text: *const c_char,
        length: c_int,
        statement: *mut *mut Statement,
        tail: *mut *const c_char,
    ) -> c_int;
    pub(super) fn sqlite3_bind_int64(statement: *mut Statement, place: c_int, value: i64) -> c_int;
    pub(super) fn sqlite3_bind_text(
        statement: *mut Statement,
        place: c_int,
        text: *const c_char,
        length: c_int,
        free: *const c_void,
    ) -> c_int;
    pub(super) fn sqlite3_step(statement: *mut Statement) -> c_int;
    pub(super) fn sqlite3_reset(statement: *mut Statement) -> c_int;
    pub(super) fn sqlite3_finalize(statement: *mut Statement) -> c_int;
    pub(super) fn sqlite3_column_count(statement: *mut Statement) -> c_int;
    pub(super) fn sqlite3_column_type(statement: *mut Statement, column: c_int) -> c_int;
    pub(super) fn sqlite3_column_int64(statement: *mut Statement, column: c_int) -> i64;
    pub(super) fn sqlite3_column_text(statement: *mut Statement, column: c_int) -> *const c_uchar;
    pub(super) fn sqlite3_column_bytes(statement: *mut Statement, column: c_int) -> c_int;
}
