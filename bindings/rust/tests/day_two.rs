//! What an operator and a daily user need: errors that name their subject, closures whose error type is inferred, options,
//! item handles, names of transactions, work before a renewal that fails, and metrics that equal what the test did.

use esr::{Bank, Error, Options, Patience, Refusal};
use std::{
    panic,
    sync::{
        Arc, Barrier, OnceLock,
        atomic::{AtomicU64, Ordering},
    },
    thread,
    time::Duration,
};

fn two_accounts() -> Bank {
    let items = [("checking", 500), ("savings", 1500)];
    let bank = Bank::builder().items(items).open();
    bank.expect("two accounts are within the limits")
}

/// The closures that one writes first compile without a type annotation.
#[test]
fn first_closures_compile() -> Result<(), Error> {
    let bank = two_accounts();
    let (sum, _) = bank.report(10, |r| Ok(r.read("checking")? + r.read("savings")?))?;
    let moved = bank.transact(10, |u| {
        let moved = u.read("checking")?.min(100);
        u.add("checking", -moved)?;
        u.add("savings", moved)?;
        Ok(moved)
    })?;
    let both = bank.transact_stepwise(10, |u| Ok((u.read("checking")?, u.read("savings")?)))?;
    let (values, report) = bank.report_unaudited(10, |r| r.read_all(["checking", "savings"]))?;
    assert_eq!((sum, moved, both), (2000, 100, (400, 1600)));
    assert_eq!((values, bank.audit(report)?.distance), (vec![400, 1600], 0));
    Ok(())
}

/// Each of eight mistakes has a message that names its subject.
#[test]
fn errors_name_their_subject() {
    let bank = Arc::new(two_accounts());
    let short = || Options::limit(5).patience(Patience::of(Duration::from_millis(1)));
    let text = |result: Result<i64, Error>| result.unwrap_err().to_string();
    let mut texts = vec![
        text(bank.transact(0, |u| u.read("cheking"))),
        text(bank.transact(0, |u| u.write("checking", i64::MAX).map(|()| 0))),
        text(bank.transact(u64::MAX, |u| u.read("checking"))),
        text(
            bank.report(0, |r| {
                (0..=1000).try_fold(0, |sum, _| Ok(sum + r.read("savings")?))
            })
            .map(|(sum, _)| sum),
        ),
        text(Bank::builder().item("a", 1).item("a", 2).open().map(|_| 0)),
        text(Bank::builder().item("a", i64::MIN).open().map(|_| 0)),
        text(Bank::builder().weighted_item("a", 1, 0).open().map(|_| 0)),
    ];
    let slow = Options::limit(3).name("audit day");
    bank.transact_stepwise(slow, |u| {
        u.add("checking", -100)?;
        texts.push(text(bank.transact(short(), |other| other.read("checking"))));
        let read = bank.report(short().name("sum"), |r| r.read("checking"));
        texts.push(text(read.map(|(value, _)| value)));
        let read = bank.report(
            Options::limit(1000).patience(Patience::of(Duration::ZERO)),
            |r| r.read("checking"),
        );
        texts.push(text(read.map(|(value, _)| value)));
        Ok(())
    })
    .expect("no one is in its way");
    let txn = |text: &str| {
        let digits = text.split(' ').find(|word| word.parse::<u32>().is_ok());
        digits.map(str::to_owned).expect("it names a transaction")
    };
    let by: Vec<String> = texts[7..].iter().map(|text| txn(text)).collect();
    let expected = [
        "refused: no such item: cheking".to_owned(),
        "refused: value out of range: 9223372036854775807 for item checking (-1000000000000 to 1000000000000)".into(),
        "refused: limit out of range: 18446744073709551615 (0 to 1000000000000000000)".into(),
        "refused: too many reads: a query reads at most 1000 times, item savings is one more".into(),
        "two items of one name: a".into(),
        "value out of range: -9223372036854775808 for item a (-1000000000000 to 1000000000000)".into(),
        "weight out of range: 0 for item a (1 to 1000)".into(),
        format!("refused: blocked by a lock of {} (audit day) at item checking", by[0]),
        format!("refused: sum: blocked by the import limit of {} (sum), which is 5, at item checking", by[1]),
        format!("refused: blocked by the export limit of {} (audit day), which is 3, at item checking", by[2]),
    ];
    for (text, expected) in texts.iter().zip(&expected) {
        assert_eq!(text, expected);
    }
    assert_eq!(texts.len(), expected.len());
}

/// A handle is read as its name is, and another bank refuses it.
#[test]
fn handles_belong_to_their_bank() -> Result<(), Error> {
    let (bank, other) = (two_accounts(), two_accounts());
    let (checking, savings) = (bank.item("checking")?, bank.item("savings")?);
    bank.transact(10, |u| {
        let moved = u.read(checking)?;
        u.write(checking, 0)?;
        u.add(savings, moved).map(drop)
    })?;
    let (values, _) = bank.report(0, |r| r.read_all([savings, checking]))?;
    assert_eq!((values, bank.value(savings)?), (vec![2000, 0], 2000));
    let unknown = other.transact(0, |u| u.read(checking)).unwrap_err();
    assert_eq!(unknown.refusal(), Some(Refusal::NoSuchItem));
    assert_eq!(
        unknown.to_string(),
        "refused: no such item: 0 (of another bank)"
    );
    assert!(bank.item("pocket").is_err());
    let (_, report) = bank.report_unaudited(0, |r| r.read(checking))?;
    assert_eq!(other.audit(report), Err(Error::NotACommittedQuery));
    Ok(())
}

/// A name appears in the list of active transactions, the script and the ledger; one that no script has, not in texts.
#[test]
fn names_of_transactions() -> Result<(), Error> {
    let bank = two_accounts();
    bank.transact(Options::limit(9).name("fee"), |u| u.add("checking", -1))?;
    bank.transact_stepwise(Options::limit(9).name("end of day"), |u| {
        let active = bank.active();
        assert_eq!(active[0].name.as_deref(), Some("end of day"));
        u.add("savings", 1)
    })?;
    bank.transact(9, |u| u.add("savings", 1))?;
    let script = bank.script()?;
    let begins = script.lines().filter(|line| line.starts_with("begin"));
    let begins: Vec<&str> = begins.collect();
    assert_eq!(
        begins,
        [
            "begin fee_1 update 9",
            "begin t2 update 9",
            "begin t3 update 9"
        ]
    );
    assert!(script.contains("\ncommit fee_1\n"));
    assert!(bank.ledger()?.contains("\n1,fee_1,update,9,"));
    Ok(())
}

/// Only the item whose name no script has is renamed in texts.
#[test]
fn one_unusual_name_is_replaced_alone() -> Result<(), Error> {
    let items = [("checking", 1), ("Girokonto Müller", 2), ("savings", 3)];
    let bank = Bank::builder().items(items).open()?;
    let sum = bank.transact(0, |u| {
        u.write("savings", 4)?;
        u.add("Girokonto Müller", 5)
    })?;
    assert_eq!(sum, 7);
    let script = bank.script()?;
    assert!(script.starts_with("item checking 1\nitem i1 2\nitem savings 3\n"));
    assert!(script.contains("\nwrite t1 i1 7\n"));
    Ok(())
}

/// A strict report that is audited later is placed after all updates that had committed.
#[test]
fn strict_and_unaudited_together() -> Result<(), Error> {
    let bank = two_accounts();
    bank.transact(0, |u| u.write("savings", 7))?;
    let strict = Options::limit(0).strict();
    let (value, report) = bank.report_unaudited(strict, |r| r.read("checking"))?;
    assert_eq!((value, bank.audit(report)?.before.len()), (500, 1));
    Ok(())
}

fn fill(bank: &Bank, updates: u64) {
    for _ in 0..updates {
        bank.transact(1, |u| u.add("checking", 1))
            .expect("the bank has capacity");
    }
}

/// Work before a renewal that panics, or uses its own bank, does not leave the bank dead: the renewal is retried, and the
/// error says what was wrong.
#[test]
fn failing_work_does_not_stop_the_bank() {
    static BANK: OnceLock<Bank> = OnceLock::new();
    static RUNS: AtomicU64 = AtomicU64::new(0);
    static SEEN: AtomicU64 = AtomicU64::new(0);
    let quiet = panic::take_hook();
    panic::set_hook(Box::new(|_| {}));
    let bank = BANK.get_or_init(|| {
        Bank::builder()
            .item("checking", 0)
            .before_renewal(|closing| {
                let bank = BANK.get().expect("it is open");
                match RUNS.fetch_add(1, Ordering::Relaxed) {
                    0 => panic!("the disk is full"),
                    1 => {
                        let error = bank.transact(0, |u| u.add("checking", 1)).unwrap_err();
                        assert_eq!(error, Error::InsideRenewal);
                        panic!("{error}");
                    }
                    2 => _ = bank.metrics(),
                    _ => SEEN.store(
                        closing.script().expect("memory").len() as u64,
                        Ordering::Relaxed,
                    ),
                }
            })
            .open()
            .expect("one item")
    });
    let until = |count: u64| {
        while RUNS.load(Ordering::Relaxed) < count {
            fill(bank, 1);
            if RUNS.load(Ordering::Relaxed) > 0 {
                thread::sleep(Duration::from_millis(1));
            }
        }
    };
    until(1);
    let why = bank.renewal_failure();
    assert_eq!(why.as_deref(), Some("panicked: the disk is full"));
    let inside = Error::InsideRenewal.to_string();
    for run in [2, 3] {
        until(run);
        let why = bank.renewal_failure();
        assert_eq!(why, Some(format!("panicked: {inside}")));
    }
    until(4);
    panic::set_hook(quiet);
    assert_eq!((bank.renewals(), bank.renewal_failure()), (1, None));
    assert_eq!(bank.metrics().failed_renewals, 3);
    assert!(SEEN.load(Ordering::Relaxed) > 1_000_000);
    assert_eq!(bank.value("checking"), Ok(bank.metrics().updates as i64));
}

/// Every counter is what the test did.
#[test]
fn metrics_are_what_was_done() -> Result<(), Error> {
    let bank = two_accounts();
    for _ in 0..3 {
        bank.transact(1, |u| u.add("checking", 1))?;
    }
    bank.transact_stepwise(1000, |u| {
        u.add("savings", 10)?;
        let metrics = bank.metrics();
        assert_eq!(metrics.active, 1);
        assert!(!metrics.oldest_active.is_zero());
        let (_, finding) = bank.report(1000, |r| r.read("savings"))?;
        assert_eq!(finding.distance, 10);
        Ok(())
    })?;
    bank.report(0, |r| r.read("savings"))?;
    let failed: Result<(), Error> = bank.transact(1, |_| Err(Error::BadNames));
    assert_eq!(failed, Err(Error::BadNames));
    let failed = bank.report(1, |_| Err::<(), _>(Error::BadNames));
    assert_eq!(failed.unwrap_err(), Error::BadNames);
    let (bank, met) = (&bank, Barrier::new(2));
    thread::scope(|threads| {
        let met = &met;
        for (first, second) in [("checking", "savings"), ("savings", "checking")] {
            threads.spawn(move || {
                let mut has_met = false;
                bank.transact_stepwise(100, |u| {
                    u.add(first, 1)?;
                    if !has_met {
                        has_met = true;
                        met.wait();
                    }
                    u.add(second, 1)
                })
                .expect("both commit");
            });
        }
    });
    let metrics = bank.metrics();
    assert_eq!((metrics.updates, metrics.optimistic_updates), (6, 3));
    assert_eq!((metrics.reports, metrics.audits, metrics.aborts), (2, 2, 2));
    assert_eq!((metrics.reruns, metrics.deadlocks), (1, 1));
    assert_eq!((metrics.distances[0], metrics.distances[2]), (1, 1));
    assert_eq!(
        (metrics.distance, metrics.renewals, metrics.active),
        (10, 0, 0)
    );
    assert!(metrics.waits >= 1 && !metrics.waited.is_zero());
    let text = metrics.to_prometheus();
    for line in [
        "esr_updates_total{mode=\"optimistic\"} 3",
        "esr_updates_total{mode=\"stepwise\"} 3",
        "esr_reports_total 2",
        "esr_aborts_total 2",
        "esr_reruns_total 1",
        "esr_deadlocks_total 1",
        "esr_audits_total 2",
        "esr_active_transactions 0",
        "esr_distance_bucket{le=\"0\"} 1",
        "esr_distance_bucket{le=\"10\"} 2",
        "esr_distance_sum 10",
    ] {
        assert!(text.lines().any(|found| found == line), "{line}: {text}");
    }
    Ok(())
}
