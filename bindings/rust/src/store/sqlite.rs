//! A store in an SQLite file, in write-ahead mode.
//!
//! With [`Synchronous::Full`] an update returns once the log is on the disk. With [`Synchronous::Normal`] it survives the
//! process, but a loss of power may lose the last seconds: whole updates, from the end.
//!
//! After a failed COMMIT its frames may remain in the log, and a recovery after a crash might apply them. So `resolve` empties
//! the log, or writes another commit over them, before it reads the number of the last write.
//!
//! The tables are those of the Python package, so both can open a file, one after the other.

mod connection;
mod raw;

use super::{Change, Store, StoreError};
use crate::Error;
use connection::{Connection, Parameter, SqliteError, Value};
use std::{
    ffi::{OsString, c_int},
    fmt,
    fs::{File, OpenOptions},
    io,
    os::fd::AsRawFd,
    path::{Path, PathBuf},
    time::Duration,
};

const TABLES: &str = "
create table if not exists esr_items (name text primary key, value integer not null) without rowid;
create table if not exists esr_bank (
    one integer primary key check (one = 1), epoch integer not null, last integer not null, fence integer not null);
insert or ignore into esr_bank values (1, 0, 0, 0);
";
const ITEMS: &str = "select name, value from esr_items";
const SET_ITEM: &str = "update esr_items set value = ? where name = ? and value = ?";
const SET_LAST: &str = "update esr_bank set last = ? where epoch = ?";

/// When SQLite waits for the disk: see its documentation of `pragma synchronous`.
///
/// ```
/// use esr::{SqliteStore, Synchronous};
///
/// let quick = SqliteStore::new("shop.db").synchronous(Synchronous::Normal);
/// ```
#[derive(Clone, Copy, PartialEq, Eq, Debug, Default)]
pub enum Synchronous {
    /// An update survives the process. A loss of power may lose the last seconds: whole updates, from the end.
    Normal,
    /// An update survives a loss of power, if the disk does not lose what it has confirmed.
    #[default]
    Full,
    /// Like `Full`, and the folder of the file is synchronized as well.
    Extra,
}

impl Synchronous {
    fn pragma(self) -> &'static str {
        match self {
            Synchronous::Normal => "pragma synchronous = normal",
            Synchronous::Full => "pragma synchronous = full",
            Synchronous::Extra => "pragma synchronous = extra",
        }
    }
}

/// Keeps the values of a bank in the tables `esr_items` and `esr_bank` of an SQLite file.
///
/// ```
/// use esr::{Bank, SqliteStore};
///
/// # let path = std::env::temp_dir().join(format!("esr-example-{}.db", std::process::id()));
/// let shop = || Bank::builder().item("pens", 40).store(SqliteStore::new(&path)).open();
/// shop()?.transact(0, |sale| sale.add("pens", -1))?;
/// // the bank has been dropped, and another one opens the file
/// assert_eq!(shop()?.value("pens")?, 39);
/// # for end in ["db", "db.lock"] { std::fs::remove_file(path.with_extension(end)).unwrap(); }
/// # Ok::<(), esr::Error>(())
/// ```
pub struct SqliteStore {
    path: PathBuf,
    synchronous: Synchronous,
    timeout: Duration,
    connection: Option<Connection>,
    /// The file whose lock gives an early message if another bank has the store open.
    lock: Option<File>,
    epoch: i64,
}

impl SqliteStore {
    /// Returns a store in the file of this path, which is created if there is none. Another file has `.lock` after the path.
    ///
    /// ```
    /// let store = esr::SqliteStore::new("shop.db");
    /// assert_eq!(format!("{store:?}"), "SqliteStore { path: \"shop.db\", .. }");
    /// ```
    #[must_use]
    pub fn new(path: impl Into<PathBuf>) -> SqliteStore {
        SqliteStore {
            path: path.into(),
            synchronous: Synchronous::default(),
            timeout: Duration::from_secs(5),
            connection: None,
            lock: None,
            epoch: 0,
        }
    }

    /// Sets when SQLite waits for the disk: [`Synchronous::Full`] by default.
    ///
    /// ```
    /// let store = esr::SqliteStore::new("shop.db").synchronous(esr::Synchronous::Normal);
    /// ```
    #[must_use]
    pub fn synchronous(mut self, synchronous: Synchronous) -> SqliteStore {
        self.synchronous = synchronous;
        self
    }

    /// Sets how long it waits for another program's lock on the file: 5 seconds by default.
    ///
    /// ```
    /// let store = esr::SqliteStore::new("shop.db").timeout(std::time::Duration::from_secs(1));
    /// ```
    #[must_use]
    pub fn timeout(mut self, timeout: Duration) -> SqliteStore {
        self.timeout = timeout;
        self
    }

    fn named(&self, why: impl fmt::Display) -> String {
        format!("{}: {why}", self.path.display())
    }

    fn unfit(&self, why: impl fmt::Display) -> Error {
        Error::StoreUnfit {
            why: self.named(why),
        }
    }

    fn superseded(&self) -> StoreError {
        StoreError::Final(format!(
            "{} has been opened by another bank",
            self.path.display()
        ))
    }

    fn take_lock(&mut self) -> Result<(), Error> {
        let mut path = OsString::from(&self.path);
        path.push(".lock");
        let mut options = OpenOptions::new();
        options.read(true).write(true).create(true).truncate(false);
        let file = options.open(path).map_err(|why| self.unfit(why))?;
        match try_lock(&file) {
            Ok(()) => self.lock = Some(file),
            Err(why) if why.kind() == io::ErrorKind::WouldBlock => {
                let why = format!("{} is open in another bank", self.path.display());
                return Err(Error::StoreInUse { why });
            }
            Err(why) => return Err(self.unfit(why)),
        }
        Ok(())
    }

    fn connect(&mut self) -> Result<Connection, SqliteError> {
        // the old one is closed first: it discards what it has not committed
        self.connection = None;
        let connection = Connection::open(&self.path, self.timeout)?;
        let mode = connection.row("pragma journal_mode = wal")?;
        if !matches!(mode.first(), Some(Value::Text(mode)) if mode == "wal") {
            return Err(SqliteError::of(
                "the file does not support write-ahead mode",
            ));
        }
        connection.execute(self.synchronous.pragma())?;
        Ok(connection)
    }

    fn open_file(&mut self, items: &[(&str, i64)]) -> Result<Vec<(String, i64)>, Error> {
        let mut connection = self.connect().map_err(|why| self.unfit(why))?;
        let begun = SqliteStore::begin_epoch(&mut connection, items);
        let (epoch, rows) = begun.map_err(|why| self.unfit(why))?;
        let values = self.values_of(rows)?;
        // The file gets all its pages now, so a log on a full disk can always be emptied into it.
        let ended = connection
            .execute("commit")
            .and_then(|()| connection.row("pragma wal_checkpoint(truncate)"));
        ended.map_err(|why| self.unfit(why))?;
        (self.epoch, self.connection) = (epoch, Some(connection));
        Ok(values)
    }

    /// Begins a transaction, adds the items that the file does not have, and begins a new epoch. Returns it with all rows.
    fn begin_epoch(
        connection: &mut Connection,
        items: &[(&str, i64)],
    ) -> Result<(i64, Vec<Vec<Value>>), SqliteError> {
        connection.execute(TABLES)?;
        connection.execute("begin immediate")?;
        for (name, value) in items {
            let row = [Parameter::Text(name), Parameter::Integer(*value)];
            connection.change("insert or ignore into esr_items values (?, ?)", &row)?;
        }
        connection.execute("update esr_bank set epoch = epoch + 1, last = 0")?;
        let epoch = integer(&connection.row("select epoch from esr_bank")?, 0)?;
        Ok((epoch, connection.rows(ITEMS)?))
    }

    fn values_of(&self, rows: Vec<Vec<Value>>) -> Result<Vec<(String, i64)>, Error> {
        let values = rows.into_iter().map(|row| match &row[..] {
            [Value::Text(name), Value::Integer(value)] => Ok((name.clone(), *value)),
            [name, value] => Err(self.unfit(format!(
                "item {name} has the value {value}, and must have an integer"
            ))),
            _ => Err(self.unfit("the table esr_items has other columns")),
        });
        values.collect()
    }

    /// Executes all of a write but its COMMIT.
    fn prepare(
        &self,
        connection: &mut Connection,
        number: u64,
        changes: &[Change<'_>],
    ) -> Result<(), StoreError> {
        let failed = |why: SqliteError| self.not_written(&why);
        connection.execute("begin immediate").map_err(failed)?;
        let mut is_as_left = true;
        for Change { name, old, new } in changes {
            let [old, new] = [*old, *new].map(Parameter::Integer);
            let row = [new, Parameter::Text(name), old];
            is_as_left &= connection.change(SET_ITEM, &row).map_err(failed)? == 1;
        }
        let row = [number as i64, self.epoch].map(Parameter::Integer);
        if connection.change(SET_LAST, &row).map_err(failed)? != 1 {
            return Err(self.superseded());
        }
        match is_as_left {
            true => Ok(()),
            false => Err(self.foreign(connection, changes)),
        }
    }

    fn not_written(&self, why: &SqliteError) -> StoreError {
        let text = self.named(why);
        match why.is_constraint() {
            true => StoreError::Final(text),
            false => StoreError::NotWritten(text),
        }
    }

    /// Returns the error that another program wrote to items.
    fn foreign(&self, connection: &Connection, changes: &[Change<'_>]) -> StoreError {
        let rows = connection
            .execute("rollback")
            .and_then(|()| connection.rows(ITEMS));
        let rows = match rows {
            Ok(rows) => rows,
            Err(why) => return self.not_written(&why),
        };
        let mut said = Vec::new();
        for Change { name, old, .. } in changes {
            let is_named =
                |row: &&Vec<Value>| matches!(&row[..], [Value::Text(text), _] if text == name);
            match rows.iter().find(is_named).and_then(|row| row.get(1)) {
                Some(value) if *value == Value::Integer(*old) => {}
                Some(value) => said.push(format!("{name} is {value} and was {old}")),
                None => said.push(format!("{name} is gone and was {old}")),
            }
        }
        let why = format!("another program wrote to the store: {}", said.join(", "));
        StoreError::Final(self.named(why))
    }

    /// Makes the state permanent that a connection reads: empties the log, or commits over the frames of a failed COMMIT that
    /// it may contain.
    fn bury(connection: &Connection) -> Result<(), SqliteError> {
        let emptied = connection.row("pragma wal_checkpoint(truncate)");
        if emptied.and_then(|row| integer(&row, 0)) == Ok(0) {
            return Ok(());
        }
        connection.execute("update esr_bank set fence = fence + 1")
    }

    /// Returns the epoch and the number of the last write, once they are permanent.
    fn last_write(&mut self) -> Result<(i64, i64), SqliteError> {
        let connection = self.connect()?;
        SqliteStore::bury(&connection)?;
        let row = connection.row("select epoch, last from esr_bank")?;
        let found = (integer(&row, 0)?, integer(&row, 1)?);
        self.connection = Some(connection);
        Ok(found)
    }
}

fn integer(row: &[Value], column: usize) -> Result<i64, SqliteError> {
    match row.get(column) {
        Some(Value::Integer(value)) => Ok(*value),
        _ => Err(SqliteError::of("the table esr_bank has no such integer")),
    }
}

impl Store for SqliteStore {
    fn open(&mut self, items: &[(&str, i64)]) -> Result<Vec<(String, i64)>, Error> {
        if self.path == Path::new("") || self.path == Path::new(":memory:") {
            let why = "a store needs the path of a file".into();
            return Err(Error::StoreUnfit { why });
        }
        self.take_lock()?;
        let values = self.open_file(items);
        if values.is_err() {
            self.close();
        }
        values
    }

    fn write(&mut self, number: u64, changes: &[Change<'_>]) -> Result<(), StoreError> {
        let mut connection = match self.connection.take() {
            Some(connection) => connection,
            None => self.connect().map_err(|why| self.not_written(&why))?,
        };
        // a connection whose write fails is closed, which discards the write if it has not committed
        self.prepare(&mut connection, number, changes)?;
        let committed = connection.execute("commit");
        committed.map_err(|why| StoreError::Unknown(self.named(why)))?;
        self.connection = Some(connection);
        Ok(())
    }

    fn resolve(&mut self, number: u64) -> Result<bool, StoreError> {
        let found = self.last_write();
        let (epoch, last) = found.map_err(|why| StoreError::Unknown(self.named(why)))?;
        if epoch != self.epoch {
            return Err(self.superseded());
        }
        Ok(last >= number as i64)
    }

    fn close(&mut self) {
        self.connection = None;
        self.lock = None;
    }
}

impl fmt::Debug for SqliteStore {
    fn fmt(&self, f: &mut fmt::Formatter<'_>) -> fmt::Result {
        f.debug_struct("SqliteStore")
            .field("path", &self.path)
            .finish_non_exhaustive()
    }
}

/// Takes the lock of a file without waiting. It is released when the file is closed. (`File::try_lock` is newer than this
/// package's compiler.)
fn try_lock(file: &File) -> io::Result<()> {
    const EXCLUSIVE: c_int = 2;
    const WITHOUT_WAITING: c_int = 4;
    unsafe extern "C" {
        fn flock(descriptor: c_int, operation: c_int) -> c_int;
    }
    // SAFETY: the descriptor is open as long as the file is borrowed.
    match unsafe { flock(file.as_raw_fd(), EXCLUSIVE | WITHOUT_WAITING) } {
        0 => Ok(()),
        _ => Err(io::Error::last_os_error()),
    }
}
