//! A bank with a store in an SQLite file. A copy of the file and its log, taken while the bank is open, is what a crash of the
//! process would leave.
#![cfg(feature = "sqlite")]

use esr::{Bank, BankBuilder, Error, Options, SqliteStore, Synchronous};
use std::{
    env,
    ffi::{CString, c_char, c_int, c_void},
    fs,
    path::{Path, PathBuf},
    process, ptr,
    sync::atomic::{AtomicU32, Ordering},
    thread,
    time::{Duration, Instant},
};

const OPENING: [(&str, i64); 3] = [("checking", 500), ("savings", 1500), ("pocket", 0)];

/// A folder that is removed when this is dropped.
struct Folder(PathBuf);

impl Folder {
    fn new() -> Folder {
        static FOLDERS: AtomicU32 = AtomicU32::new(0);
        let number = FOLDERS.fetch_add(1, Ordering::Relaxed);
        let path = env::temp_dir().join(format!("esr-store-{}-{number}", process::id()));
        fs::create_dir(&path).expect("a new folder");
        Folder(path)
    }

    fn path(&self, name: &str) -> PathBuf {
        self.0.join(name)
    }
}

impl Drop for Folder {
    fn drop(&mut self) {
        let _ = fs::remove_dir_all(&self.0);
    }
}

/// Another program's connection to the file.
struct Program(*mut c_void);

#[link(name = "sqlite3")]
unsafe extern "C" {
    fn sqlite3_open(path: *const c_char, database: *mut *mut c_void) -> c_int;
    fn sqlite3_exec(
        database: *mut c_void,
        text: *const c_char,
        callback: *const c_void,
        argument: *const c_void,
        message: *const c_void,
    ) -> c_int;
    fn sqlite3_close(database: *mut c_void) -> c_int;
}

impl Program {
    fn open(path: &Path) -> Program {
        let path = CString::new(path.to_str().unwrap()).unwrap();
        let mut database = ptr::null_mut();
        // SAFETY: the path ends with a zero byte.
        assert_eq!(unsafe { sqlite3_open(path.as_ptr(), &mut database) }, 0);
        Program(database)
    }

    fn execute(&self, text: &str) {
        let text = CString::new(text).unwrap();
        let none = ptr::null();
        // SAFETY: the connection is open, and the text ends with a zero byte.
        let code = unsafe { sqlite3_exec(self.0, text.as_ptr(), none, none, none) };
        assert_eq!(code, 0, "{text:?}");
    }
}

impl Drop for Program {
    fn drop(&mut self) {
        // SAFETY: the connection is open, and not used again.
        unsafe { sqlite3_close(self.0) };
    }
}

fn builder(path: &Path) -> BankBuilder {
    Bank::builder().items(OPENING).store(SqliteStore::new(path))
}

fn transfer(bank: &Bank, amount: i64) -> Result<(), Error> {
    bank.transact(1_000_000, |update| {
        update.add("checking", -amount)?;
        update.add("savings", amount).map(drop)
    })
}

/// Returns the values that a crash of the process would leave.
fn after_crash(folder: &Folder, path: &Path) -> Vec<i64> {
    let copy = folder.path("copy.db");
    for end in ["", "-wal"] {
        let from = format!("{}{end}", path.display());
        if Path::new(&from).exists() {
            fs::copy(&from, format!("{}{end}", copy.display())).unwrap();
        }
    }
    let bank = Bank::builder().items([("pocket", -1), ("checking", -1)]);
    let bank = bank.store(SqliteStore::new(&copy)).open().unwrap();
    let snapshot = bank.snapshot().unwrap();
    let values = OPENING.map(|(name, _)| snapshot[name]).to_vec();
    drop(bank);
    for end in ["", "-wal", "-shm", ".lock"] {
        let _ = fs::remove_file(format!("{}{end}", copy.display()));
    }
    values
}

/// Each answered update survives a crash of the process at that moment.
#[test]
fn answered_updates_survive_a_crash() {
    for synchronous in [Synchronous::Normal, Synchronous::Full, Synchronous::Extra] {
        let folder = Folder::new();
        let path = folder.path("bank.db");
        let store = SqliteStore::new(&path).synchronous(synchronous);
        let bank = Bank::builder().items(OPENING).store(store).open().unwrap();
        for turn in 1..=5 {
            transfer(&bank, 10).unwrap();
            let name = Options::limit(100).name("deposit");
            bank.transact_stepwise(name, |update| update.add("pocket", 1))
                .unwrap();
            let expected = [500 - 10 * turn, 1500 + 10 * turn, turn];
            assert_eq!(after_crash(&folder, &path), expected);
        }
        drop(bank);
        let bank = builder(&path).open().unwrap();
        assert_eq!(bank.snapshot_in_order().unwrap(), [450, 1550, 5]);
        assert_eq!(bank.store_opening().unwrap().replaced, 3);
    }
}

/// Threads lose nothing.
#[test]
fn threads_lose_nothing() {
    let folder = Folder::new();
    let path = folder.path("bank.db");
    let bank = builder(&path).open().unwrap();
    thread::scope(|scope| {
        for _ in 0..4 {
            scope.spawn(|| (0..25).for_each(|_| transfer(&bank, 1).unwrap()));
        }
    });
    assert_eq!(after_crash(&folder, &path), [400, 1600, 0]);
    let metrics = bank.metrics();
    assert_eq!(metrics.store_updates, 100);
    assert!((25..=100).contains(&metrics.store_writes));
}

/// A second bank is refused as long as the first is open.
#[test]
fn a_file_is_open_in_one_bank() {
    let folder = Folder::new();
    let path = folder.path("bank.db");
    let bank = builder(&path).open().unwrap();
    let error = builder(&path).open().unwrap_err();
    assert!(matches!(error, Error::StoreInUse { .. }), "{error:?}");
    assert!(
        error
            .to_string()
            .ends_with("bank.db is open in another bank")
    );
    transfer(&bank, 100).unwrap();
    drop(bank);
    assert_eq!(builder(&path).open().unwrap().value("checking"), Ok(400));
}

/// A file that cannot be a store is named.
#[test]
fn unfit_files() {
    let folder = Folder::new();
    let (path, bank) = (folder.path("text.db"), folder.path("bank.db"));
    fs::write(&path, "no database".repeat(1000)).unwrap();
    for path in [
        "",
        ":memory:",
        "/nowhere/bank.db",
        "zero\0byte",
        path.to_str().unwrap(),
    ] {
        let error = builder(Path::new(path)).open().unwrap_err();
        assert!(
            matches!(error, Error::StoreUnfit { .. }),
            "{path}: {error:?}"
        );
    }
    drop(builder(&bank).open().unwrap());
    for (value, said) in [
        (
            "'much'",
            "item \"savings\" has the value \"much\", and must have an integer",
        ),
        (
            "0.5",
            "item \"savings\" has the value a real number, and must have an integer",
        ),
        (
            "x'00'",
            "item \"savings\" has the value a blob, and must have an integer",
        ),
        (
            "1000000000001",
            "item \"savings\" of the store has the value 1000000000001",
        ),
    ] {
        let statement = format!("update esr_items set value = {value} where name = 'savings'");
        Program::open(&bank).execute(&statement);
        let error = builder(&bank).open().unwrap_err().to_string();
        assert!(error.contains(said), "{error}");
    }
    Program::open(&bank).execute("update esr_items set value = 1 where name = 'savings'");
    assert_eq!(builder(&bank).open().unwrap().value("savings"), Ok(1));
}

/// A write of another program, a constraint, and another bank that has opened the file stop the bank at once.
#[test]
fn final_errors_stop_the_bank_at_once() {
    let begun = Instant::now();
    let folder = Folder::new();
    let foreign = "update esr_items set value = 9 where name = 'savings'";
    let constraint = "create trigger t before update on esr_items when new.value < 0
        begin select raise(abort, 'no debts'); end";
    let gone = "delete from esr_items where name = 'savings'";
    for (number, (statement, amount, said)) in [
        (
            foreign,
            1,
            "another program wrote to the store: savings is 9 and was 1500; reopen",
        ),
        (constraint, 501, "no debts; reopen it from the store"),
        (
            gone,
            1,
            "another program wrote to the store: savings is gone and was 1500; reopen",
        ),
    ]
    .into_iter()
    .enumerate()
    {
        let path = folder.path(&format!("bank{number}.db"));
        let bank = builder(&path).open().unwrap();
        Program::open(&path).execute(statement);
        let error = transfer(&bank, amount).unwrap_err();
        assert!(error.to_string().contains(said), "{error}");
        assert!(matches!(
            error,
            Error::StoreStopped {
                may_be_written: false,
                ..
            }
        ));
        drop(bank);
        assert_eq!(builder(&path).open().unwrap().value("checking"), Ok(500));
    }
    let path = folder.path("bank.db");
    let bank = builder(&path).open().unwrap();
    fs::remove_file(folder.path("bank.db.lock")).unwrap(); // the early message fails
    let other = builder(&path).open().unwrap();
    let error = transfer(&bank, 1).unwrap_err().to_string();
    assert!(
        error.contains("bank.db has been opened by another bank"),
        "{error}"
    );
    transfer(&other, 100).unwrap();
    assert_eq!(after_crash(&folder, &path), [400, 1600, 0]);
    assert!(
        begun.elapsed() < Duration::from_secs(9),
        "the bank tried again"
    );
}

/// While another program has the file locked, callers wait, as long as patience lasts.
#[test]
fn a_locked_file_is_waited_for() {
    let folder = Folder::new();
    let path = folder.path("bank.db");
    let store = || SqliteStore::new(&path).timeout(Duration::from_millis(5));
    let bank = Bank::builder()
        .items(OPENING)
        .store(store())
        .open()
        .unwrap();
    let program = Program::open(&path);
    program.execute("begin immediate");
    let begun = Instant::now();
    thread::scope(|scope| {
        let update = scope.spawn(|| transfer(&bank, 100));
        thread::sleep(Duration::from_millis(200));
        assert_eq!(bank.value("checking"), Ok(500));
        program.execute("rollback");
        update.join().unwrap().unwrap();
    });
    assert!(begun.elapsed() >= Duration::from_millis(200));
    assert_eq!(after_crash(&folder, &path), [400, 1600, 0]);
    drop(bank);
    let builder = Bank::builder().items(OPENING).store(store());
    let bank = builder
        .store_patience(Duration::from_millis(50))
        .open()
        .unwrap();
    program.execute("begin immediate");
    let error = transfer(&bank, 100).unwrap_err();
    assert!(error.to_string().contains("database is locked"), "{error}");
    assert!(matches!(
        error,
        Error::StoreStopped {
            may_be_written: false,
            ..
        }
    ));
    assert!(matches!(
        bank.value("checking"),
        Err(Error::StoreStopped { .. })
    ));
    program.execute("rollback");
    drop(bank);
    assert_eq!(after_crash(&folder, &path), [400, 1600, 0]);
}
