//! An observer is called exactly when something happens, without the bank's lock, and its counts are those of the metrics.

use esr::{
    Audited, Bank, Ended, Error, MAX_TRANSACTIONS, Metrics, Observed, Observer, Options, Outcome,
    Patience, Refused, Renewed,
};
use std::{
    panic,
    sync::{
        Arc, Barrier, Mutex, OnceLock,
        atomic::{AtomicBool, Ordering},
        mpsc::{Receiver, Sender, channel},
    },
    thread,
    time::Duration,
};

/// Writes a line for each call.
#[derive(Clone, Default)]
struct Log {
    lines: Arc<Mutex<Vec<String>>>,
}

impl Log {
    fn write(&self, line: String) {
        self.lines.lock().unwrap().push(line);
    }

    fn take(&self) -> Vec<String> {
        std::mem::take(&mut *self.lines.lock().unwrap())
    }
}

impl Observer for Log {
    fn begun(&self, txn: &Observed<'_>) {
        let name = txn.name.unwrap_or("-");
        self.write(format!(
            "{} begun: {} {name} {}",
            txn.id,
            txn.kind(),
            txn.limit
        ));
    }

    fn blocked(&self, txn: &Observed<'_>, refused: &Refused) {
        self.write(format!("{} blocked: {refused}", txn.id));
    }

    fn deadlocked(&self, txn: &Observed<'_>, refused: &Refused) {
        let item = refused.item.as_deref().unwrap_or("-");
        self.write(format!("{} deadlocked: {item}", txn.id));
    }

    fn restarted(&self, txn: &Observed<'_>, why: &Error) {
        self.write(format!("{} restarted: {why}", txn.id));
    }

    fn ended(&self, txn: &Observed<'_>, ended: &Ended) {
        let (outcome, runs) = (ended.outcome.as_str(), ended.runs);
        let mode = if ended.is_optimistic {
            " optimistically"
        } else {
            ""
        };
        assert!(ended.waited <= ended.time);
        self.write(format!("{} {outcome}{mode}, runs {runs}", txn.id));
    }

    fn audited(&self, audited: &Audited<'_>) {
        let (finding, is_background) = (audited.finding, audited.is_background);
        let place = if is_background { " in background" } else { "" };
        self.write(format!("audited{place}: {finding}"));
    }

    fn renewed(&self, renewed: &Renewed) {
        assert!(!renewed.time.is_zero());
        self.write(format!("renewed: carried {}", renewed.carried));
    }

    fn renewal_failed(&self, why: &str) {
        self.write(format!("renewal failed: {why}"));
    }
}

fn logged(background_audits: bool) -> (Bank, Log) {
    let log = Log::default();
    let builder = Bank::builder().items([("checking", 500), ("savings", 1500)]);
    let builder = builder.background_audits(background_audits);
    let bank = builder.observer(log.clone()).open();
    (bank.expect("two accounts are within the limits"), log)
}

fn impatient(limit: u64) -> Options {
    Options::limit(limit).patience(Patience::of(Duration::ZERO))
}

/// An update and each kind of report, and audits on either engine.
#[test]
fn transactions_and_audits() -> Result<(), Error> {
    for is_background in [false, true] {
        let (bank, log) = logged(is_background);
        bank.transact(Options::limit(9).name("fee"), |u| u.add("checking", -1))?;
        bank.transact_stepwise(100, |u| {
            u.add("savings", 10)?;
            bank.report(Options::limit(30).name("sum"), |r| r.read("savings"))
        })?;
        bank.strict_report(7, |r| r.read("checking"))?;
        let (_, report) = bank.report_unaudited(8, |r| r.read("checking"))?;
        bank.audit(report)?;
        let audited = ["audited", "audited in background"][usize::from(is_background)];
        let expected = [
            "1 begun: update fee 9",
            "1 committed optimistically, runs 1",
            "2 begun: update - 100",
            "3 begun: report sum 30",
            &format!("{audited}: distance 10 import 10 before -"),
            "3 committed, runs 1",
            "2 committed, runs 1",
            "4 begun: strict report - 7",
            &format!("{audited}: distance 0 import 0 before 1,2"),
            "4 committed, runs 1",
            "5 begun: report - 8",
            "5 committed, runs 1",
            &format!("{audited}: distance 0 import 0 before 1"),
        ];
        assert_eq!(log.take(), expected);
    }
    Ok(())
}

/// A body that fails or panics, in each kind of transaction, and a transaction that cannot begin.
#[test]
fn failures_and_panics() {
    let (bank, log) = logged(false);
    let quiet = panic::take_hook();
    panic::set_hook(Box::new(|_| {}));
    let fail = || Err::<(), _>(Error::BadNames);
    for is_panic in [false, true] {
        let end = || {
            if is_panic {
                panic!("as a body may")
            } else {
                fail()
            }
        };
        let caught = |run: &dyn Fn() -> Result<(), Error>| {
            let run = panic::AssertUnwindSafe(run);
            assert_eq!(panic::catch_unwind(run).is_err(), is_panic);
        };
        caught(&|| bank.transact(1, |_| end()));
        caught(&|| bank.transact_stepwise(2, |_| end()));
        caught(&|| bank.report(3, |_| end()).map(drop));
    }
    panic::set_hook(quiet);
    bank.transact(u64::MAX, |_| Ok(())).unwrap_err();
    let mut expected = Vec::new();
    for (first, outcome) in [(1, "failed"), (4, "panicked")] {
        for (n, kind) in ["update", "update", "report"].into_iter().enumerate() {
            expected.push(format!("{} begun: {kind} - {}", first + n, n + 1));
            expected.push(format!("{} {outcome}, runs 1", first + n));
        }
    }
    expected.push(format!("7 begun: update - {}", u64::MAX));
    expected.push("7 failed, runs 0".into());
    assert_eq!(log.take(), expected);
    assert_eq!(bank.metrics().aborts, 6);
}

/// Each blocked event is reported once, by a lock, by an import limit and by an export limit.
#[test]
fn blocked_events() -> Result<(), Error> {
    let (bank, log) = logged(false);
    bank.transact_stepwise(Options::limit(3).name("slow"), |u| {
        u.add("checking", -100)?;
        log.take();
        let read = bank.transact_stepwise(impatient(0), |other| other.read("checking"));
        read.unwrap_err();
        let read = bank.report(impatient(5), |r| r.read_all(["savings", "checking"]));
        read.unwrap_err();
        bank.report(impatient(1_000), |r| r.read("checking"))
            .unwrap_err();
        let lines = log.take();
        let blocked = lines.iter().filter(|line| line.contains("blocked"));
        let blocked: Vec<&String> = blocked.collect();
        let expected = [
            "2 blocked: blocked by a lock of 1 (slow) at item checking",
            "3 blocked: blocked by the import limit of 3, which is 5, at item checking",
            "4 blocked: blocked by the export limit of 1 (slow), which is 3, at item checking",
        ];
        assert_eq!(blocked, expected);
        assert_eq!(lines.len(), 9);
        Ok(())
    })?;
    assert_eq!((bank.metrics().reruns, bank.metrics().aborts), (0, 3));
    Ok(())
}

/// An event that is retried for some time is reported once, and its waiting time is that of the metrics.
#[test]
fn a_blocked_event_that_passes() -> Result<(), Error> {
    let (bank, log) = logged(false);
    bank.transact_stepwise(0, |u| {
        u.add("checking", -100)?;
        let patient = Options::limit(0).patience(Patience::of(Duration::from_millis(20)));
        bank.transact_stepwise(patient, |other| other.read("checking"))
            .unwrap_err();
        Ok(())
    })?;
    let lines = log.take();
    let blocked = lines.iter().filter(|line| line.contains("2 blocked"));
    assert_eq!(blocked.count(), 1, "{lines:?}");
    assert!(bank.metrics().waited >= Duration::from_millis(20));
    Ok(())
}

/// Lets another thread end the transaction in the way, during the call.
struct Clears {
    /// Asks the other thread.
    ask: Mutex<Sender<()>>,
    /// Hears from it.
    hear: Mutex<Receiver<()>>,
}

impl Observer for Clears {
    fn blocked(&self, _: &Observed<'_>, _: &Refused) {
        self.ask.lock().unwrap().send(()).expect("it listens");
        self.hear.lock().unwrap().recv().expect("it answers");
        // a lock that the observer waits for may consume the wake-up like that
        thread::park_timeout(Duration::ZERO);
    }
}

/// An event whose blocker ends while the observer is called is retried at once, although the wake-up is gone: neither an
/// update nor a report waits, not even with patience for it.
#[test]
fn a_block_that_ends_while_it_is_observed() -> Result<(), Error> {
    for is_query in [false, true] {
        let (ask, asked) = channel();
        let (answer, hear) = channel();
        let (ask, hear) = (Mutex::new(ask), Mutex::new(hear));
        let builder = Bank::builder().item("checking", 500);
        let bank = builder.observer(Clears { ask, hear }).open()?;
        let met = Barrier::new(2);
        thread::scope(|threads| {
            let (bank, met) = (&bank, &met);
            threads.spawn(move || {
                let held = bank.transact_stepwise(0, |u| {
                    u.add("checking", -100)?;
                    met.wait();
                    asked.recv().expect("the event is blocked");
                    Ok(())
                });
                answer.send(()).expect("the observer waits");
                held
            });
            met.wait();
            let read = match is_query {
                false => bank.transact_stepwise(impatient(0), |u| u.read("checking")),
                true => bank
                    .report(impatient(1_000), |r| r.read("checking"))
                    .map(|r| r.0),
            };
            assert_eq!(read, Ok(400));
        });
        assert_eq!(bank.metrics().waits, 0);
    }
    Ok(())
}

/// An optimistic update that meets a lock runs again five times, the last time step by step, and waits in vain each time.
#[test]
fn optimistic_updates_that_are_blocked() -> Result<(), Error> {
    let (bank, log) = logged(false);
    bank.transact_stepwise(0, |u| {
        u.add("checking", -100)?;
        log.take();
        bank.transact(impatient(0), |other| other.read("checking"))
            .unwrap_err();
        Ok(())
    })?;
    let lines = log.take();
    let text = "blocked by a lock of 1 at item checking";
    let mut expected = vec!["2 begun: update - 0".to_owned()];
    for _ in 0..5 {
        expected.push(format!("2 blocked: {text}"));
        expected.push(format!("2 restarted: refused: {text}"));
    }
    expected.push(format!("2 blocked: {text}"));
    expected.push("2 failed, runs 6".into());
    expected.push("1 committed, runs 1".into());
    assert_eq!(lines, expected);
    assert_eq!((bank.metrics().reruns, bank.metrics().aborts), (5, 1));
    Ok(())
}

/// The time for which an optimistic update waits for a lock is counted, although it commits optimistically.
#[test]
fn an_optimistic_update_that_waits() {
    let (bank, log) = logged(false);
    thread::scope(|threads| {
        let bank = &bank;
        bank.transact_stepwise(0, |u| {
            u.add("checking", -100)?;
            threads.spawn(|| {
                bank.transact(0, |other| other.add("checking", 1))
                    .expect("its patience is long")
            });
            let is_blocked = || {
                let lines = log.lines.lock().unwrap();
                lines.iter().any(|line| line.starts_with("2 blocked"))
            };
            while !is_blocked() {
                thread::yield_now();
            }
            thread::sleep(Duration::from_millis(20));
            Ok(())
        })
        .expect("it is not blocked");
    });
    let metrics = bank.metrics();
    assert_eq!((metrics.optimistic_updates, metrics.waits), (1, 1));
    assert!(metrics.waited > Duration::from_millis(1));
    assert_eq!(bank.value("checking"), Ok(401));
}

/// An update that was overtaken is restarted, also if its body fails then.
#[test]
fn overtaken_updates() -> Result<(), Error> {
    let (bank, log) = logged(false);
    for fails in [false, true] {
        let mut is_first = true;
        let result = bank.transact(0, |u| {
            let value = u.read("checking")?;
            if std::mem::take(&mut is_first) {
                // a body must not do that: it stands for another thread
                bank.transact(0, |other| other.write("checking", value + 1))?;
            } else if fails {
                return Err(Error::BadNames);
            }
            u.write("checking", value + 10)
        });
        assert_eq!(result.is_err(), fails);
    }
    let why = Error::Overtaken;
    let expected = [
        "1 begun: update - 0",
        "2 begun: update - 0",
        "2 committed optimistically, runs 1",
        &format!("1 restarted: {why}"),
        "1 committed optimistically, runs 2",
        "3 begun: update - 0",
        "4 begun: update - 0",
        "4 committed optimistically, runs 1",
        &format!("3 restarted: {why}"),
        "3 failed, runs 2",
    ];
    assert_eq!(log.take(), expected);
    assert_eq!((bank.metrics().reruns, bank.metrics().updates), (2, 3));
    Ok(())
}

/// Of two updates that wait for each other one is the victim and runs again.
#[test]
fn deadlocks() {
    let (bank, log) = logged(false);
    let met = Barrier::new(2);
    thread::scope(|threads| {
        let (bank, met) = (&bank, &met);
        for (first, second) in [("checking", "savings"), ("savings", "checking")] {
            threads.spawn(move || {
                let mut is_first = true;
                let update = bank.transact_stepwise(100, |u| {
                    u.add(first, 1)?;
                    if std::mem::take(&mut is_first) {
                        met.wait();
                    }
                    u.add(second, 1)
                });
                update.expect("both commit");
            });
        }
    });
    let lines = log.take();
    let metrics = bank.metrics();
    let count = |word: &str| lines.iter().filter(|line| line.contains(word)).count() as u64;
    assert_eq!((count(" deadlocked: "), metrics.deadlocks), (1, 1));
    assert_eq!((count(" restarted: deadlock: "), metrics.reruns), (1, 1));
    assert_eq!((count(" begun: "), count(" committed, ")), (2, 2));
    assert!(count(" blocked: ") >= 1);
    let place = |word: &str| lines.iter().position(|line| line.contains(word));
    assert!(place(" deadlocked: ") < place(" restarted: "));
}

/// A renewal that carries an update over, one whose work fails, and one that is retried.
#[test]
fn renewals() -> Result<(), Error> {
    let (log, fails) = (Log::default(), Arc::new(AtomicBool::new(true)));
    let is_failing = fails.clone();
    let work = move |_: &mut esr::Closing<'_>| match is_failing.load(Ordering::Relaxed) {
        true => Err("the disk is full".into()),
        false => Ok(()),
    };
    let builder = Bank::builder().item("checking", 0).observer(log.clone());
    let bank = builder.try_before_renewal(work).open()?;
    let fill = |until: &dyn Fn(&Metrics) -> bool| {
        while !until(&bank.metrics()) {
            bank.transact(1, |u| u.add("checking", 1))?;
        }
        Ok::<_, Error>(())
    };
    let renewals = || {
        let lines = log.take().into_iter();
        lines
            .filter(|line| line.starts_with("renew"))
            .collect::<Vec<_>>()
    };
    fill(&|metrics| metrics.failed_renewals > 0)?;
    assert_eq!(renewals(), ["renewal failed: the disk is full"]);
    fails.store(false, Ordering::Relaxed);
    thread::sleep(Duration::from_millis(110));
    fill(&|metrics| metrics.renewals == 1)?;
    assert_eq!(renewals(), ["renewed: carried 0"]);
    bank.transact_stepwise(1, |_| fill(&|metrics| metrics.renewals == 2))?;
    assert_eq!(renewals(), ["renewed: carried 1"]);
    assert_eq!(bank.metrics().carried, 1);
    Ok(())
}

static BANK: OnceLock<Bank> = OnceLock::new();

/// Computes the metrics. It reads those of the bank in every call, which would wait forever if the lock were held.
#[derive(Clone, Default)]
struct Adds {
    counts: Arc<Mutex<Metrics>>,
    begun: Arc<Mutex<u64>>,
}

impl Adds {
    fn add(&self, add: impl FnOnce(&mut Metrics)) {
        let bank = BANK.get().expect("the bank is open");
        assert!(bank.metrics().active <= 5);
        add(&mut self.counts.lock().unwrap());
    }
}

impl Observer for Adds {
    fn begun(&self, _: &Observed<'_>) {
        *self.begun.lock().unwrap() += 1;
        self.add(|counts| counts.active += 1);
    }

    fn blocked(&self, _: &Observed<'_>, _: &Refused) {
        self.add(|_| {});
    }

    fn deadlocked(&self, _: &Observed<'_>, _: &Refused) {
        self.add(|counts| counts.deadlocks += 1);
    }

    fn restarted(&self, _: &Observed<'_>, _: &Error) {
        self.add(|counts| counts.reruns += 1);
    }

    fn ended(&self, txn: &Observed<'_>, ended: &Ended) {
        self.add(|counts| {
            counts.active -= 1;
            counts.waited += ended.waited;
            counts.optimistic_updates += u64::from(ended.is_optimistic);
            match (ended.outcome, txn.is_query) {
                (Outcome::Committed, false) => counts.updates += 1,
                (Outcome::Committed, true) => counts.reports += 1,
                _ => counts.aborts += 1,
            }
        });
    }

    fn audited(&self, audited: &Audited<'_>) {
        self.add(|counts| {
            counts.audits += 1;
            counts.background_audits += u64::from(audited.is_background);
            counts.auditing += audited.time;
            counts.longest_audit = counts.longest_audit.max(audited.time);
            counts.distance += u128::from(audited.finding.distance);
        });
    }

    fn renewed(&self, renewed: &Renewed) {
        self.add(|counts| {
            counts.renewals += 1;
            counts.carried += renewed.carried;
            counts.carried_reports += renewed.carried_reports;
            counts.renewing += renewed.time;
            counts.longest_renewal = counts.longest_renewal.max(renewed.time);
        });
    }
}

/// Runs one of a thread's transactions.
fn run(bank: &Bank, thread: usize, n: u64) {
    let both = [("a", "b"), ("b", "a")][thread % 2];
    match n % 1_000 {
        0 => _ = bank.report(1_000_000, |r| r.read_all(["a", "b", "hot"])),
        1 => _ = bank.transact_stepwise(1_000, |_| Err::<(), _>(Error::BadNames)),
        2..=20 => {
            let moved = bank.transact_stepwise(1_000, |u| {
                u.add(both.0, 1)?;
                thread::yield_now();
                u.add(both.1, -1)
            });
            moved.expect("its patience is long");
        }
        21..=40 => {
            let moved = bank.transact(1_000, |u| {
                u.add(both.0, 1)?;
                u.add(both.1, -1)
            });
            moved.expect("its patience is long");
        }
        _ => _ = bank.transact(1_000, |u| u.add("hot", 1)),
    }
}

/// Four threads with locks, deadlocks, reports and a renewal: every count and every sum is that of the metrics.
#[test]
fn counts_are_those_of_the_metrics() {
    let adds = Adds::default();
    let bank = BANK.get_or_init(|| {
        let builder = Bank::builder().items([("a", 0), ("b", 0), ("hot", 0)]);
        builder.observer(adds.clone()).open().expect("three items")
    });
    let each = u64::from(MAX_TRANSACTIONS) / 4 + 1_000;
    thread::scope(|threads| {
        for number in 0..4 {
            threads.spawn(move || (0..each).for_each(|n| run(bank, number, n)));
        }
    });
    let metrics = bank.metrics();
    let mut counts = adds.counts.lock().unwrap().clone();
    let begun = *adds.begun.lock().unwrap();
    assert_eq!(begun, 4 * each);
    assert_eq!(begun, counts.updates + counts.reports + counts.aborts);
    assert!(metrics.renewals > 0 && metrics.reruns > 0 && metrics.waits > 0);
    assert_eq!(metrics.distances.iter().sum::<u64>(), counts.audits);
    // an observer cannot compute these
    counts.distances = metrics.distances;
    counts.waits = metrics.waits;
    assert_eq!(counts, metrics);
}
