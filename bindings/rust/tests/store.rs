//! A bank with a store in memory that fails on command or holds its writes back.

use esr::{
    Bank, BankBuilder, BankUpdate, Change, Error, MAX_TRANSACTIONS, Options, Patience, Store,
    StoreError,
};
use std::{
    collections::{BTreeMap, VecDeque},
    panic::{self, AssertUnwindSafe},
    sync::{
        Arc, Condvar, Mutex, MutexGuard,
        atomic::{AtomicBool, AtomicU64, Ordering},
        mpsc::{RecvTimeoutError, channel},
    },
    thread,
    time::{Duration, Instant},
};

/// What the next call of `write` does.
#[derive(Clone, Copy, PartialEq, Eq, Debug)]
enum Fault {
    None,
    /// It fails before its COMMIT.
    Before,
    /// It fails, and would fail again.
    Final,
    /// Its COMMIT fails, and the store does not have it.
    Lost,
    /// Its COMMIT fails, and the store has it.
    Kept,
    /// It panics after its COMMIT.
    Panics,
}

#[derive(Default)]
struct Inner {
    values: BTreeMap<String, i64>,
    /// The numbers of the writes that the store has, and their changes.
    numbers: Vec<u64>,
    groups: Vec<Vec<(String, i64, i64)>>,
    faults: VecDeque<Fault>,
    /// How often `resolve` fails.
    silent: u32,
    open_error: Option<Error>,
    is_held: bool,
    opens: u32,
    writes: u32,
    resolves: u32,
    closes: u32,
}

/// No write is held longer, so that a test that fails ends.
const LONGEST: Duration = Duration::from_secs(20);

/// A store in memory that fails on command, and whose writes wait while it is held.
#[derive(Clone, Default)]
struct Fake(Arc<(Mutex<Inner>, Condvar)>);

impl Fake {
    fn lock(&self) -> MutexGuard<'_, Inner> {
        self.0
            .0
            .lock()
            .unwrap_or_else(|poisoned| poisoned.into_inner())
    }

    fn value(&self, name: &str) -> i64 {
        self.lock().values[name]
    }

    fn total(&self) -> i64 {
        self.lock().values.values().sum()
    }

    fn fail(&self, faults: &[Fault], silent: u32) {
        let mut inner = self.lock();
        inner.faults = faults.iter().copied().collect();
        inner.silent = silent;
    }

    fn hold(&self, is_held: bool) {
        self.lock().is_held = is_held;
        self.0.1.notify_all();
    }

    /// Waits until the given number of writes has begun.
    fn wait_for_writes(&self, count: u32) {
        let inner = self.lock();
        let waiting = |inner: &mut Inner| inner.writes < count;
        let waited = self.0.1.wait_timeout_while(inner, LONGEST, waiting);
        assert!(!waited.unwrap().1.timed_out(), "no write begins");
    }
}

impl Store for Fake {
    fn open(&mut self, items: &[(&str, i64)]) -> Result<Vec<(String, i64)>, Error> {
        let mut inner = self.lock();
        inner.opens += 1;
        if let Some(error) = inner.open_error.take() {
            return Err(error);
        }
        for (name, value) in items {
            inner.values.entry((*name).into()).or_insert(*value);
        }
        inner.numbers.clear();
        Ok(inner.values.clone().into_iter().collect())
    }

    fn write(&mut self, number: u64, changes: &[Change<'_>]) -> Result<(), StoreError> {
        let mut inner = self.lock();
        inner.writes += 1;
        self.0.1.notify_all();
        let is_held = |inner: &mut Inner| inner.is_held;
        let (mut inner, _) = self
            .0
            .1
            .wait_timeout_while(inner, LONGEST, is_held)
            .unwrap();
        let fault = inner.faults.pop_front().unwrap_or(Fault::None);
        match fault {
            Fault::Before => return Err(StoreError::NotWritten("disk full".into())),
            Fault::Final => return Err(StoreError::Final("a constraint".into())),
            Fault::Lost => return Err(StoreError::Unknown("no reply".into())),
            Fault::None | Fault::Kept | Fault::Panics => {}
        }
        assert!(inner.numbers.iter().all(|known| *known < number));
        for change in changes {
            let value = inner.values.get_mut(change.name).expect("a known item");
            assert_eq!(*value, change.old, "{change:?}");
            assert_ne!(change.old, change.new, "{change:?}");
            *value = change.new;
        }
        inner.numbers.push(number);
        let group = changes.iter().map(|c| (c.name.to_owned(), c.old, c.new));
        inner.groups.push(group.collect());
        drop(inner);
        match fault {
            Fault::Kept => Err(StoreError::Unknown("no reply".into())),
            Fault::Panics => panic!("a defect of the store"),
            _ => Ok(()),
        }
    }

    fn resolve(&mut self, number: u64) -> Result<bool, StoreError> {
        let mut inner = self.lock();
        inner.resolves += 1;
        if inner.silent > 0 {
            inner.silent -= 1;
            return Err(StoreError::Unknown("no connection".into()));
        }
        Ok(inner.numbers.contains(&number))
    }

    fn close(&mut self) {
        self.lock().closes += 1;
    }
}

const OPENING: [(&str, i64); 3] = [("checking", 500), ("savings", 1500), ("pocket", 0)];

fn builder(store: &Fake) -> BankBuilder {
    Bank::builder().items(OPENING).store(store.clone())
}

fn open(store: &Fake) -> Bank {
    builder(store).open().expect("the store is fit")
}

/// Opens a bank whose callers do not wait for a store that fails.
fn open_impatient(store: &Fake) -> Bank {
    let builder = builder(store).store_patience(Duration::ZERO);
    let short = Patience::of(Duration::from_millis(100));
    builder.patience(short).open().expect("the store is fit")
}

fn move_by(update: &mut BankUpdate<'_, '_>, amount: i64) -> Result<(), Error> {
    update.add("checking", -amount)?;
    update.add("savings", amount).map(drop)
}

fn transfer(bank: &Bank, amount: i64) -> Result<(), Error> {
    bank.transact(1_000_000, |update| move_by(update, amount))
}

fn values(bank: &Bank) -> [i64; 3] {
    OPENING.map(|(name, _)| bank.value(name).expect("the bank runs"))
}

fn stopped(why: &str, may_be_written: bool) -> Error {
    Error::StoreStopped {
        why: why.into(),
        may_be_written,
    }
}

/// The values of the store replace those of the builder, and its other items follow.
#[test]
fn values_are_those_of_the_store_after_reopening() {
    let store = Fake::default();
    let bank = open(&store);
    let opening = bank.store_opening().expect("it has a store");
    assert_eq!((opening.replaced, opening.others), (0, 0));
    transfer(&bank, 100).unwrap();
    drop(bank);
    let builder = Bank::builder()
        .item("purse", 3)
        .weighted_item("checking", 7, 2);
    let bank = builder.store(store.clone()).open().unwrap();
    let opening = bank.store_opening().expect("it has a store");
    let said = "the store replaces 1 opening values, and has 2 more items";
    assert_eq!(opening.to_string(), said);
    assert_eq!(bank.snapshot_in_order().unwrap(), [3, 400, 0, 1600]);
    let snapshot = bank.snapshot().unwrap();
    assert_eq!((snapshot["purse"], snapshot["savings"]), (3, 1600));
    assert_eq!(store.value("purse"), 3);
    // its items have the weights of the builder, and 1
    let charged = |name: &'static str| {
        bank.transact_stepwise(100, |update| {
            update.add(name, 1)?;
            let (_, report) = bank.report_unaudited(100, |report| report.read(name))?;
            Ok((update.charged(), bank.audit(report)?.distance))
        })
    };
    assert_eq!(
        (charged("checking"), charged("savings")),
        (Ok((2, 2)), Ok((1, 1)))
    );
}

/// When an update returns, the store has its last value of each item, by each way to run it.
#[test]
fn updates_are_written_before_they_return() {
    let store = Fake::default();
    let bank = open(&store);
    let body = |update: &mut BankUpdate<'_, '_>| {
        update.write("pocket", 1)?;
        let value = update.add("pocket", 6)?;
        move_by(update, 10)?;
        Ok(value)
    };
    type Way<'a> = &'a dyn Fn() -> Result<i64, Error>;
    let ways: [Way<'_>; 4] = [
        &|| bank.transact(100, body),
        &|| bank.try_transact(100, body),
        &|| bank.transact_stepwise(100, body),
        &|| bank.try_transact_stepwise(100, body),
    ];
    for (way, n) in ways.into_iter().zip(1..) {
        assert_eq!(way(), Ok(7));
        let stored = ["checking", "savings", "pocket"].map(|name| store.value(name));
        assert_eq!(stored, [500 - 10 * n, 1500 + 10 * n, 7]);
        assert_eq!(values(&bank), stored);
    }
    assert_eq!(bank.metrics().store_updates, 4);
    let text = bank.metrics().to_prometheus();
    assert!(text.contains("\nesr_store_writes_total 4\n"), "{text}");
    assert!(text.contains("\nesr_store_updates_total 4\n"), "{text}");
}

/// Bodies that fail, reports, and updates that only read write nothing.
#[test]
fn other_calls_write_nothing() {
    let store = Fake::default();
    let bank = open(&store);
    let fails = |update: &mut BankUpdate<'_, '_>| {
        move_by(update, 10)?;
        Err::<(), _>(Error::BadNames)
    };
    assert_eq!(bank.transact(100, fails), Err(Error::BadNames));
    assert_eq!(bank.transact_stepwise(100, fails), Err(Error::BadNames));
    let panics = |update: &mut BankUpdate<'_, '_>| {
        move_by(update, 10)?;
        panic!("a defect of the body")
    };
    for is_stepwise in [false, true] {
        let call = || -> Result<(), Error> {
            match is_stepwise {
                false => bank.transact(100, panics),
                true => bank.transact_stepwise(100, panics),
            }
        };
        assert!(panic::catch_unwind(AssertUnwindSafe(call)).is_err());
    }
    let sum = bank.report(0, |report| report.read_all(["checking", "savings"]));
    assert_eq!(sum.unwrap().0, [500, 1500]);
    assert_eq!(bank.transact(0, |update| update.read("savings")), Ok(1500));
    // nor does an update that leaves each value as it was
    bank.transact(0, |update| update.write("pocket", 0))
        .unwrap();
    let metrics = bank.metrics();
    assert_eq!((metrics.store_writes, metrics.store_updates), (0, 1));
    assert_eq!(store.lock().writes, 0);
}

/// Each write fails in turn, in each way that can pass: the store has each update once, and the callers only notice time.
#[test]
fn each_write_fails_in_turn() {
    const UPDATES: usize = 4;
    let faults = [Fault::Before, Fault::Lost, Fault::Kept, Fault::Panics];
    let cases = faults
        .into_iter()
        .flat_map(|fault| (0..UPDATES).map(move |n| (fault, n)));
    for (case, (fault, failing)) in cases.enumerate() {
        let store = Fake::default();
        let bank = open(&store);
        let mut before = vec![Fault::None; failing];
        before.push(fault);
        store.fail(&before, (case % 3) as u32);
        for n in 1..=UPDATES as i64 {
            transfer(&bank, 1 << n).unwrap();
            let moved = (2 << n) - 2;
            assert_eq!(
                store.value("checking"),
                500 - moved,
                "{fault:?} at {failing}"
            );
        }
        let is_written_at_once = matches!(fault, Fault::Kept | Fault::Panics);
        let inner = store.lock();
        let writes = UPDATES + usize::from(!is_written_at_once);
        assert_eq!(
            (inner.writes as usize, inner.groups.len()),
            (writes, UPDATES)
        );
        let resolves = if fault == Fault::Before {
            0
        } else {
            1 + case % 3
        };
        assert_eq!(inner.resolves as usize, resolves, "{fault:?} at {failing}");
    }
}

/// When patience has ended, or a write can never succeed, the bank stops, says so in each call, and shows no value. What the
/// error says of the update is true.
#[test]
fn a_stopped_bank_says_so_in_each_call() {
    for (fault, silent, why, may_be_written) in [
        (Fault::Before, 0, "disk full", false),
        (Fault::Final, 0, "a constraint", false),
        (Fault::Lost, 0, "no reply", false),
        (Fault::Lost, 9, "no connection", true),
        (Fault::Kept, 9, "no connection", true),
    ] {
        let store = Fake::default();
        let bank = open_impatient(&store);
        transfer(&bank, 10).unwrap();
        let (_, report) = bank
            .report_unaudited(0, |report| report.read("pocket"))
            .unwrap();
        store.fail(&[fault], silent);
        let expected = stopped(why, may_be_written);
        assert_eq!(transfer(&bank, 100), Err(expected.clone()), "{fault:?}");
        let text = expected.to_string();
        assert!(text.starts_with("the bank has stopped"), "{text}");
        assert_eq!(text.contains("unknown"), may_be_written, "{text}");
        refuse_each_call(&bank, report, &stopped(why, false));
        assert!(bank.active().is_empty());
        drop(bank);
        store.fail(&[], 0);
        let is_kept = fault == Fault::Kept;
        assert_eq!(values(&open(&store))[0], 490 - 100 * i64::from(is_kept));
        assert_eq!((store.total(), store.lock().closes), (2000, 2));
    }
}

fn refuse_each_call(bank: &Bank, report: esr::Report, expected: &Error) {
    let reads = |update: &mut BankUpdate<'_, '_>| update.read("checking").map(drop);
    let fails = |_: &mut BankUpdate<'_, '_>| -> Result<(), Error> { Err(Error::BadNames) };
    let calls: [&dyn Fn() -> Result<(), Error>; 18] = [
        &|| transfer(bank, 1),
        &|| bank.transact(0, reads),
        &|| bank.transact(0, fails),
        &|| bank.try_transact(0, fails),
        &|| bank.transact_stepwise(0, reads),
        &|| bank.transact_stepwise(0, fails),
        &|| bank.report(0, |report| report.read("pocket")).map(drop),
        &|| bank.report_unaudited(0, |_| Ok(())).map(drop),
        &|| bank.value("checking").map(drop),
        &|| bank.snapshot().map(drop),
        &|| bank.counts().map(drop),
        &|| bank.totals().map(drop),
        &|| bank.bundle(report).map(drop),
        &|| bank.snapshot_in_order().map(drop),
        &|| bank.audit(report).map(drop),
        &|| {
            bank.explain(report)
                .and_then(|_| bank.picture(report))
                .map(drop)
        },
        &|| bank.script().map(drop),
        &|| bank.ledger().map(drop),
    ];
    for (number, call) in calls.iter().enumerate() {
        assert_eq!(call().as_ref(), Err(expected), "call {number}");
    }
}

/// A transaction that is active when the bank stops reads nothing more and does not commit, and its body's own error is not
/// what its caller gets.
#[test]
fn a_transaction_that_is_active_when_the_bank_stops() {
    let store = Fake::default();
    let bank = open_impatient(&store);
    store.fail(&[Fault::Before], 0);
    let result = bank.transact_stepwise(100, |update| {
        update.add("pocket", 1)?;
        assert_eq!(transfer(&bank, 10), Err(stopped("disk full", false)));
        assert_eq!(update.read("pocket"), Err(stopped("disk full", false)));
        Ok(())
    });
    assert_eq!(result, Err(stopped("disk full", false)));
    let bank = open_impatient(&store);
    store.fail(&[Fault::Lost], 1);
    let result = bank.report(100, |report| {
        report.read("pocket")?;
        assert_eq!(transfer(&bank, 10), Err(stopped("no connection", true)));
        Err::<(), _>(Error::BadNames)
    });
    // (that is not an update, of which the store could have something)
    assert!(
        matches!(result, Err(Error::StoreStopped { .. })),
        "{result:?}"
    );
    assert_eq!(bank.active(), vec![]);
    drop(bank);
    assert_eq!(store.total(), 2000);
    assert_eq!(store.value("checking"), 500);
}

/// A write that would fail again stops the bank at once.
#[test]
fn a_final_error_is_not_tried_again() {
    let store = Fake::default();
    let bank = open(&store);
    store.fail(&[Fault::Final], 0);
    assert_eq!(transfer(&bank, 100), Err(stopped("a constraint", false)));
    assert_eq!((store.value("checking"), store.lock().writes), (500, 1));
}

/// A store that fails for a while is waited for.
#[test]
fn callers_wait_as_long_as_patience_lasts() {
    let store = Fake::default();
    let patience = Duration::from_millis(300);
    let bank = builder(&store).store_patience(patience).open().unwrap();
    store.fail(&[Fault::Before; 3], 0);
    let begun = Instant::now();
    transfer(&bank, 100).unwrap();
    assert!(begun.elapsed() >= Duration::from_millis(10 + 20 + 40));
    assert_eq!(store.value("checking"), 400);
    store.fail(&[Fault::Lost], u32::MAX);
    let begun = Instant::now();
    assert_eq!(transfer(&bank, 100), Err(stopped("no connection", true)));
    assert!(begun.elapsed() >= patience);
    assert!(store.lock().resolves > 2);
}

/// Updates that wait when the bank stops are never written, and their callers get to know that.
#[test]
fn updates_that_wait_when_the_bank_stops() {
    let store = Fake::default();
    let bank = open_impatient(&store);
    store.hold(true);
    store.fail(&[Fault::Kept], 1);
    thread::scope(|scope| {
        let first = scope.spawn(|| transfer(&bank, 1));
        store.wait_for_writes(1);
        let others: Vec<_> = (0..3)
            .map(|_| scope.spawn(|| transfer(&bank, 10)))
            .collect();
        while bank.metrics().updates < 4 {
            thread::sleep(Duration::from_millis(1));
        }
        store.hold(false);
        assert_eq!(first.join().unwrap(), Err(stopped("no connection", true)));
        for other in others {
            assert_eq!(other.join().unwrap(), Err(stopped("no connection", false)));
        }
    });
    drop(bank);
    assert_eq!((store.value("checking"), store.lock().writes), (499, 1));
    assert_eq!(store.lock().closes, 1);
}

/// Runs a call while a committed transfer of 100 is on its way to the store. The call must not return before the store has it.
fn waits<T: Send>(name: &str, call: impl FnOnce(&Bank) -> T + Send) -> T {
    let store = Fake::default();
    let bank = open(&store);
    store.hold(true);
    let returned = AtomicBool::new(false);
    thread::scope(|scope| {
        let ahead = scope.spawn(|| transfer(&bank, 100));
        store.wait_for_writes(1);
        // its hold of the lock has ended, so bodies see it
        assert_eq!(bank.metrics().updates, 1, "{name}");
        assert_eq!(values(&bank), [500, 1500, 0], "{name}");
        let behind = scope.spawn(|| {
            let result = call(&bank);
            returned.store(true, Ordering::SeqCst);
            result
        });
        thread::sleep(Duration::from_millis(60));
        let is_early = returned.load(Ordering::SeqCst);
        store.hold(false);
        ahead.join().unwrap().unwrap();
        let result = behind.join().unwrap();
        assert!(
            !is_early,
            "{name} returned before the store had what it saw"
        );
        result
    })
}

/// No update returns before the store has it and all that it has read.
#[test]
fn updates_wait_for_the_store() {
    let read = |update: &mut BankUpdate<'_, '_>| update.read("checking");
    let more = |update: &mut BankUpdate<'_, '_>| update.add("checking", -100);
    assert_eq!(waits("transact", |bank| bank.transact(1000, more)), Ok(300));
    assert_eq!(
        waits("stepwise", |bank| bank.transact_stepwise(1000, more)),
        Ok(300)
    );
    assert_eq!(waits("reads", |bank| bank.transact(0, read)), Ok(400));
    assert_eq!(
        waits("stepwise reads", |bank| bank.transact_stepwise(0, read)),
        Ok(400)
    );
    let error = |update: &mut BankUpdate<'_, '_>| -> Result<(), Box<dyn std::error::Error>> {
        Err(update.read("checking")?.to_string().into())
    };
    let text = |result: Result<(), Box<dyn std::error::Error>>| result.unwrap_err().to_string();
    let failed = waits("an error", |bank| text(bank.try_transact(0, error)));
    assert_eq!(failed, "400");
    let failed = waits("a stepwise error", |bank| {
        text(bank.try_transact_stepwise(0, error))
    });
    assert_eq!(failed, "400");
    let refused = waits("a refusal", |bank| {
        bank.transact(1000, |update| update.add("checking", i64::MAX))
    });
    assert!(matches!(refused, Err(Error::Refused(_))), "{refused:?}");
    for is_stepwise in [false, true] {
        let panicked = waits("a panic", |bank| {
            let body = |update: &mut BankUpdate<'_, '_>| -> Result<(), Error> {
                panic!("{}", update.read("checking")?)
            };
            panic::catch_unwind(AssertUnwindSafe(|| match is_stepwise {
                false => bank.transact(0, body),
                true => bank.transact_stepwise(0, body),
            }))
        });
        let text = panicked.unwrap_err().downcast::<String>().unwrap();
        assert_eq!(*text, "400");
    }
}

/// No report returns before the store has the updates that its finding places before it.
#[test]
fn reports_wait_for_the_store() {
    for is_strict in [false, true] {
        let (value, finding) = waits("report", |bank| match is_strict {
            false => bank.report(0, |report| report.read("checking")),
            true => bank.strict_report(0, |report| report.read("checking")),
        })
        .unwrap();
        assert_eq!((value, finding.distance, finding.before.len()), (400, 0, 1));
    }
    let read = waits("unaudited", |bank| {
        bank.report_unaudited(0, |report| report.read("checking"))
            .unwrap()
            .0
    });
    assert_eq!(read, 400);
    let failed = waits("a report's error", |bank| {
        let result = bank.try_report(0, |report| {
            let text = report.read("checking")?.to_string();
            Err::<(), _>(Box::<dyn std::error::Error>::from(text))
        });
        result.unwrap_err().to_string()
    });
    assert_eq!(failed, "400");
    assert!(waits("script", Bank::script).unwrap().contains("commit t1"));
    assert!(waits("ledger", Bank::ledger).unwrap().contains("committed"));
}

/// A transaction whose patience ends waits too: its error has the value that it was to write.
#[test]
fn the_end_of_patience_waits_for_the_store() {
    let refused = waits("the end of patience", |bank| {
        let short = Options::limit(1000).patience(Patience::of(Duration::ZERO));
        bank.transact_stepwise(1000, |update| {
            update.write("pocket", 1)?;
            let inner = || bank.transact_stepwise(short.clone(), |inner| inner.add("pocket", 1));
            let result = thread::scope(|scope| scope.spawn(inner).join().unwrap());
            Ok((result, bank.value("checking")?))
        })
    });
    let (inner, checking) = refused.unwrap();
    assert!(matches!(inner, Err(Error::Refused(_))), "{inner:?}");
    assert_eq!(checking, 400, "the inner update returned early");
}

/// Updates of one item that wait together share a write.
#[test]
fn updates_share_writes() {
    const THREADS: u64 = 8;
    let store = Fake::default();
    let bank = open(&store);
    store.hold(true);
    thread::scope(|scope| {
        for _ in 0..THREADS {
            scope.spawn(|| bank.transact(10, |update| update.add("pocket", 1)).unwrap());
        }
        while bank.metrics().updates < THREADS {
            thread::sleep(Duration::from_millis(1));
        }
        store.hold(false);
    });
    let metrics = bank.metrics();
    assert_eq!((bank.value("pocket"), store.value("pocket")), (Ok(8), 8));
    assert_eq!((metrics.store_updates, metrics.updates), (THREADS, THREADS));
    assert!(metrics.store_writes <= 2, "{}", metrics.store_writes);
}

/// Threads transfer while writes fail in all ways that can pass. Each answered update is in the store at once, every total is
/// exact, and no report is off by more than its distance.
#[test]
fn threads_lose_nothing_while_writes_fail() {
    const THREADS: usize = 6;
    const TURNS: i64 = 60;
    let store = Fake::default();
    let bank = open(&store);
    let faults = [
        Fault::None,
        Fault::Lost,
        Fault::None,
        Fault::Before,
        Fault::Kept,
        Fault::Panics,
    ];
    store.fail(&faults.repeat(4), 5);
    let is_done = AtomicBool::new(false);
    thread::scope(|scope| {
        let reporter = scope.spawn(|| {
            while !is_done.load(Ordering::SeqCst) {
                assert_eq!(bank.snapshot().unwrap().values().sum::<i64>(), 2000);
                let names = OPENING.map(|(name, _)| name);
                let read = bank.report(1_000_000, |report| report.read_all(names));
                let (values, finding) = read.unwrap();
                assert!(values.iter().sum::<i64>().abs_diff(2000) <= finding.distance);
            }
        });
        let tellers: Vec<_> = (0..THREADS)
            .map(|k| {
                let (bank, store) = (&bank, &store);
                scope.spawn(move || {
                    for turn in 0..TURNS {
                        let is_stepwise = turn % 4 == 0;
                        let body = |update: &mut BankUpdate<'_, '_>| {
                            update.add("savings", -1)?;
                            update.add("pocket", 1)
                        };
                        let had = match is_stepwise {
                            true => bank.transact_stepwise(1000, body),
                            false => bank.transact(1000, body),
                        };
                        let stored = store.value("pocket");
                        assert!(stored >= had.unwrap(), "teller {k} was ahead of the store");
                    }
                })
            })
            .collect();
        let ended: Vec<_> = tellers.into_iter().map(|teller| teller.join()).collect();
        is_done.store(true, Ordering::SeqCst);
        reporter.join().unwrap();
        assert!(ended.iter().all(Result::is_ok));
    });
    let moved = THREADS as i64 * TURNS;
    assert_eq!((store.total(), store.value("pocket")), (2000, moved));
    assert_eq!(values(&bank), [500, 1500 - moved, moved]);
}

/// The work before a renewal waits until the store has an update that committed before it.
#[test]
fn the_work_before_a_renewal_waits_for_the_store() {
    let store = Fake::default();
    let (sender, receiver) = channel();
    let (sender, closing) = (Mutex::new(sender), store.clone());
    let builder = builder(&store).before_renewal(move |_| {
        let stored = closing.value("pocket");
        sender.lock().unwrap().send(stored).unwrap();
    });
    let bank = builder.open().unwrap();
    // a tenth of the numbers is reserved: the next update is the last one of this history
    while bank.counts().unwrap().transactions_left > u64::from(MAX_TRANSACTIONS / 10) + 1 {
        bank.transact(0, |update| update.read("pocket")).unwrap();
    }
    store.hold(true);
    let add = || bank.transact(1, |update| update.add("pocket", 1)).unwrap();
    thread::scope(|scope| {
        scope.spawn(add);
        store.wait_for_writes(1);
        scope.spawn(add);
        let early = receiver.recv_timeout(Duration::from_millis(200));
        store.hold(false);
        assert_eq!(early, Err(RecvTimeoutError::Timeout), "it did not wait");
        assert_eq!(receiver.recv(), Ok(1));
    });
    assert_eq!((bank.renewals(), store.value("pocket")), (1, 2));
}

/// A renewal keeps the values, and the work before it sees only updates that the store has.
#[test]
fn renewals_wait_for_the_store() {
    const TURNS: u64 = 66_000;
    const THREADS: u64 = 8;
    let store = Fake::default();
    let (sender, receiver) = channel();
    let sender = Mutex::new(sender);
    let closing = store.clone();
    let builder = Bank::builder().item("hits", 0).store(store.clone());
    let builder = builder.before_renewal(move |history| {
        let stored = closing.value("hits");
        let script = history.script().unwrap();
        let commits = script.lines().filter(|line| line.starts_with("commit"));
        let commits = commits.count() as i64;
        sender.lock().unwrap().send((commits, stored)).unwrap();
    });
    let bank = builder.open().unwrap();
    let left = AtomicU64::new(TURNS);
    let is_left = || {
        let taken = left.fetch_update(Ordering::SeqCst, Ordering::SeqCst, |left| {
            left.checked_sub(1)
        });
        taken.is_ok()
    };
    thread::scope(|scope| {
        for _ in 0..THREADS {
            scope.spawn(|| {
                while is_left() {
                    bank.transact(1, |update| update.add("hits", 1)).unwrap();
                }
            });
        }
    });
    let (commits, stored) = receiver.recv().expect("it was renewed");
    assert_eq!(
        commits, stored,
        "the work saw updates that the store did not have"
    );
    assert!(bank.renewals() > 0 && commits > 50_000);
    assert_eq!(
        (bank.value("hits"), store.value("hits")),
        (Ok(66_000), 66_000)
    );
}

/// A store that does not open as that of a bank is named and closed, and a builder that no bank can have leaves it alone.
#[test]
fn unfit_stores() {
    let store = Fake::default();
    for error in [
        Error::StoreUnfit {
            why: "no database".into(),
        },
        Error::StoreInUse {
            why: "open in another bank".into(),
        },
    ] {
        store.lock().open_error = Some(error.clone());
        assert_eq!(builder(&store).open().unwrap_err(), error);
    }
    assert_eq!(store.lock().opens, 2);
    assert_eq!(store.lock().closes, 0);
    store.lock().values.insert("old".into(), 1_000_000_000_001);
    let error = builder(&store).open().unwrap_err().to_string();
    assert!(
        error.starts_with("unfit store: item \"old\" of the store has the value 1000000000001")
    );
    assert_eq!(store.lock().closes, 1);
    store.lock().values.clear();
    for (builder, said) in [
        (builder(&store).item("checking", 3), "two items of one name"),
        (
            builder(&store).item("large", i64::MAX),
            "value out of range",
        ),
        (
            builder(&store).weighted_item("heavy", 0, 2_000),
            "weight out of range",
        ),
    ] {
        let error = builder.open().unwrap_err().to_string();
        assert!(error.starts_with(said), "{error}");
    }
    assert_eq!(store.lock().opens, 3);
    assert!(store.lock().values.is_empty());
}

/// A store that forgets an item of the builder is unfit.
#[test]
fn a_store_that_forgets_an_item() {
    struct Forgetful;
    impl Store for Forgetful {
        fn open(&mut self, items: &[(&str, i64)]) -> Result<Vec<(String, i64)>, Error> {
            Ok(items[1..]
                .iter()
                .map(|(name, value)| (name.to_string(), *value))
                .collect())
        }
        fn write(&mut self, _: u64, _: &[Change<'_>]) -> Result<(), StoreError> {
            Ok(())
        }
        fn resolve(&mut self, _: u64) -> Result<bool, StoreError> {
            Ok(true)
        }
        fn close(&mut self) {}
    }
    let error = Bank::builder()
        .items(OPENING)
        .store(Forgetful)
        .open()
        .unwrap_err();
    assert_eq!(
        error.to_string(),
        "unfit store: the store has no item \"checking\""
    );
}
