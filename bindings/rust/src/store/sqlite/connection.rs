//! A connection to an SQLite file, by the C interface of libsqlite3.

use super::raw;
use std::{
    ffi::{CStr, CString, c_int},
    fmt,
    os::unix::ffi::OsStrExt,
    path::Path,
    ptr::{self, NonNull},
    slice,
    time::Duration,
};

/// An error of SQLite.
#[derive(Clone, PartialEq, Eq, Debug)]
pub(super) struct SqliteError {
    code: c_int,
    why: String,
}

impl SqliteError {
    /// Returns an error that SQLite has not reported.
    pub(super) fn of(why: impl Into<String>) -> SqliteError {
        let why = why.into();
        SqliteError { code: 0, why }
    }

    /// Reports whether a constraint forbids a row, so that the same statement would fail again.
    pub(super) fn is_constraint(&self) -> bool {
        self.code & 0xff == raw::CONSTRAINT
    }
}

impl fmt::Display for SqliteError {
    fn fmt(&self, f: &mut fmt::Formatter<'_>) -> fmt::Result {
        f.write_str(&self.why)
    }
}

/// A value in a row.
#[derive(Clone, PartialEq, Eq, Debug)]
pub(super) enum Value {
    Integer(i64),
    Text(String),
    /// A value of another type, by the name of that.
    Other(&'static str),
}

impl fmt::Display for Value {
    fn fmt(&self, f: &mut fmt::Formatter<'_>) -> fmt::Result {
        match self {
            Value::Integer(value) => value.fmt(f),
            Value::Text(text) => write!(f, "{text:?}"),
            Value::Other(kind) => f.write_str(kind),
        }
    }
}

/// A value for a parameter of a statement.
#[derive(Clone, Copy, Debug)]
pub(super) enum Parameter<'a> {
    Integer(i64),
    Text(&'a str),
}

/// An open database, which is closed when this is dropped. What it has not committed is then discarded.
struct Database(NonNull<raw::Sqlite3>);

// SAFETY: any thread may use a connection that is opened with `FULLMUTEX`.
unsafe impl Send for Database {}

impl Database {
    fn open(path: &Path) -> Result<Database, SqliteError> {
        let path = CString::new(path.as_os_str().as_bytes());
        let path = path.map_err(|_| SqliteError::of("the path has a zero byte"))?;
        let mut handle = ptr::null_mut();
        let flags = raw::OPEN_READWRITE | raw::OPEN_CREATE | raw::OPEN_FULLMUTEX;
        // SAFETY: the path ends with a zero byte, and both pointers are valid for the call.
        let code = unsafe { raw::sqlite3_open_v2(path.as_ptr(), &mut handle, flags, ptr::null()) };
        let handle = NonNull::new(handle).ok_or_else(|| SqliteError::of("out of memory"))?;
        let database = Database(handle);
        database.check(code).map(|()| database)
    }

    /// Returns the last error.
    fn error(&self) -> SqliteError {
        // SAFETY: the handle is open. The message is copied before another call can change it.
        let (code, why) = unsafe {
            let why = CStr::from_ptr(raw::sqlite3_errmsg(self.0.as_ptr()));
            (raw::sqlite3_errcode(self.0.as_ptr()), why)
        };
        let why = why.to_string_lossy().into_owned();
        SqliteError { code, why }
    }

    fn check(&self, code: c_int) -> Result<(), SqliteError> {
        match code {
            raw::OK => Ok(()),
            _ => Err(self.error()),
        }
    }
}

impl Drop for Database {
    fn drop(&mut self) {
        // SAFETY: the handle is open, its statements have been finalized, and it is not used again.
        let _ = unsafe { raw::sqlite3_close_v2(self.0.as_ptr()) };
    }
}

/// A compiled statement. Its database is open as long as it exists: `Connection` drops the statements first.
struct Statement(NonNull<raw::Statement>);

// SAFETY: a statement belongs to the thread that its database belongs to.
unsafe impl Send for Statement {}

impl Statement {
    fn prepare(database: &Database, text: &str) -> Result<Statement, SqliteError> {
        let length = c_int::try_from(text.len()).expect("a short statement");
        let mut handle = ptr::null_mut();
        let (text, tail) = (text.as_ptr().cast(), ptr::null_mut());
        // SAFETY: the text has the given length, and the pointers are valid for the call.
        let code = unsafe {
            raw::sqlite3_prepare_v2(database.0.as_ptr(), text, length, &mut handle, tail)
        };
        database.check(code)?;
        let handle = NonNull::new(handle).ok_or_else(|| SqliteError::of("an empty statement"))?;
        Ok(Statement(handle))
    }

    fn bind(&mut self, database: &Database, row: &[Parameter<'_>]) -> Result<(), SqliteError> {
        for (place, parameter) in (1..).zip(row) {
            // SAFETY: the statement is not finalized. SQLite copies the text, which has the given length.
            let code = unsafe {
                match parameter {
                    Parameter::Integer(value) => {
                        raw::sqlite3_bind_int64(self.0.as_ptr(), place, *value)
                    }
                    Parameter::Text(text) => raw::sqlite3_bind_text(
                        self.0.as_ptr(),
                        place,
                        text.as_ptr().cast(),
                        c_int::try_from(text.len()).unwrap_or(c_int::MAX),
                        raw::transient(),
                    ),
                }
            };
            database.check(code)?;
        }
        Ok(())
    }

    /// Reports whether the statement has another row.
    fn step(&mut self, database: &Database) -> Result<bool, SqliteError> {
        // SAFETY: the statement is not finalized.
        match unsafe { raw::sqlite3_step(self.0.as_ptr()) } {
            raw::ROW => Ok(true),
            raw::DONE => Ok(false),
            _ => Err(database.error()),
        }
    }

    /// Ends an execution, so that the statement can be executed again.
    fn reset(&mut self) {
        // SAFETY: the statement is not finalized. The code is that of the last step.
        let _ = unsafe { raw::sqlite3_reset(self.0.as_ptr()) };
    }

    /// Returns the row of the last step.
    fn row(&mut self) -> Vec<Value> {
        let handle = self.0.as_ptr();
        // SAFETY: the statement is not finalized.
        let columns = unsafe { raw::sqlite3_column_count(handle) };
        let value = |column| {
            // SAFETY: the statement has a row with this column. A text is copied before another call can change it; its
            // length is asked for after the text, as SQLite demands.
            unsafe {
                match raw::sqlite3_column_type(handle, column) {
                    raw::INTEGER => Value::Integer(raw::sqlite3_column_int64(handle, column)),
                    raw::TEXT => {
                        let text = raw::sqlite3_column_text(handle, column);
                        let length = raw::sqlite3_column_bytes(handle, column);
                        match text.is_null() {
                            true => Value::Other("a text for which there is no memory"),
                            false => {
                                let bytes = slice::from_raw_parts(text, length as usize);
                                Value::Text(String::from_utf8_lossy(bytes).into_owned())
                            }
                        }
                    }
                    raw::FLOAT => Value::Other("a real number"),
                    raw::NULL => Value::Other("null"),
                    _ => Value::Other("a blob"),
                }
            }
        };
        (0..columns).map(value).collect()
    }
}

impl Drop for Statement {
    fn drop(&mut self) {
        // SAFETY: the statement is not finalized, and is not used again. The code is that of the last step.
        let _ = unsafe { raw::sqlite3_finalize(self.0.as_ptr()) };
    }
}

/// A connection with the statements that it has compiled. These are dropped first.
pub(super) struct Connection {
    compiled: Vec<(&'static str, Statement)>,
    database: Database,
}

impl Connection {
    /// Opens a file, which is created if there is none. The timeout is how long a statement waits for another program's lock.
    pub(super) fn open(path: &Path, timeout: Duration) -> Result<Connection, SqliteError> {
        let database = Database::open(path)?;
        let milliseconds = c_int::try_from(timeout.as_millis()).unwrap_or(c_int::MAX);
        // SAFETY: the handle is open.
        let code = unsafe { raw::sqlite3_busy_timeout(database.0.as_ptr(), milliseconds) };
        database.check(code)?;
        Ok(Connection {
            compiled: Vec::new(),
            database,
        })
    }

    /// Executes statements without parameters.
    pub(super) fn execute(&self, text: &str) -> Result<(), SqliteError> {
        let text = CString::new(text).expect("a statement has no zero byte");
        let (none, nowhere) = (ptr::null_mut(), ptr::null_mut());
        // SAFETY: the handle is open, the text ends with a zero byte, and no callback is passed.
        let code = unsafe {
            raw::sqlite3_exec(self.database.0.as_ptr(), text.as_ptr(), None, none, nowhere)
        };
        self.database.check(code)
    }

    /// Executes a statement that changes rows, and returns their number. It is compiled once.
    pub(super) fn change(
        &mut self,
        text: &'static str,
        row: &[Parameter<'_>],
    ) -> Result<usize, SqliteError> {
        let known = self.compiled.iter().position(|(known, _)| *known == text);
        let place = match known {
            Some(place) => place,
            None => {
                let statement = Statement::prepare(&self.database, text)?;
                self.compiled.push((text, statement));
                self.compiled.len() - 1
            }
        };
        let (database, statement) = (&self.database, &mut self.compiled[place].1);
        statement.bind(database, row)?;
        let stepped = statement.step(database);
        statement.reset();
        stepped?;
        // SAFETY: the handle is open.
        let changes = unsafe { raw::sqlite3_changes(database.0.as_ptr()) };
        Ok(usize::try_from(changes).unwrap_or_default())
    }

    /// Returns the rows of a statement without parameters.
    pub(super) fn rows(&self, text: &str) -> Result<Vec<Vec<Value>>, SqliteError> {
        let mut statement = Statement::prepare(&self.database, text)?;
        let mut rows = Vec::new();
        while statement.step(&self.database)? {
            rows.push(statement.row());
        }
        Ok(rows)
    }

    /// Returns the first row of a statement without parameters.
    pub(super) fn row(&self, text: &str) -> Result<Vec<Value>, SqliteError> {
        let first = self.rows(text)?.into_iter().next();
        first.ok_or_else(|| SqliteError::of(format!("`{text}` has no row")))
    }
}
