//! When a bank starts the second engine: by default for its first report, which needs a renewal if the history is long. Each
//! audit there finds what the bank explains.

use esr::{Bank, BankBuilder, Error, MAX_TRANSACTIONS};
use std::{
    fs,
    sync::{
        Arc, Mutex, MutexGuard, PoisonError,
        atomic::{AtomicBool, Ordering},
    },
    thread,
    time::{Duration, Instant},
};

/// Each of these updates adds four entries to the history, so with this number it is too long to be logged without a thread.
const MANY: u64 = 20_000;

/// One test at a time, since they count the threads of the process.
fn alone() -> MutexGuard<'static, ()> {
    static ALONE: Mutex<()> = Mutex::new(());
    let alone = ALONE.lock().unwrap_or_else(PoisonError::into_inner);
    until(0);
    alone
}

/// Returns the number of threads that audit.
fn threads() -> usize {
    let tasks = fs::read_dir("/proc/self/task").expect("Linux lists the threads");
    let paths = tasks.map(|task| task.expect("it can be read").path().join("comm"));
    // a thread that ends meanwhile has no name
    let names = paths.filter_map(|path| fs::read_to_string(path).ok());
    names.filter(|name| name == "esr audits\n").count()
}

/// Waits for the number of threads that audit.
fn until(count: usize) {
    let begun = Instant::now();
    while threads() != count {
        assert!(begun.elapsed() < Duration::from_secs(20));
        thread::sleep(Duration::from_millis(1));
    }
}

fn two_accounts() -> BankBuilder {
    Bank::builder().items([("checking", 500), ("savings", 1500)])
}

fn fill(bank: &Bank, updates: u64) {
    for _ in 0..updates {
        bank.transact(1, |u| u.add("checking", 1))
            .expect("the bank has capacity");
    }
}

/// Audits a report. Returns the number of updates before it in the nearest placement.
fn look(bank: &Bank) -> Result<usize, Error> {
    let (_, report) = bank.report_unaudited(0, |r| r.read("checking"))?;
    let finding = bank.audit(report)?;
    let text = bank.explain(report)?;
    let end = format!("distance {} import {}\n", finding.distance, finding.import);
    assert!(text.ends_with(&end), "{text}{finding}");
    assert!(finding.is_exact());
    Ok(finding.before.len())
}

/// Returns the numbers of renewals, of audits, and of audits on the second engine.
fn counts(bank: &Bank) -> (u64, u64, u64) {
    let metrics = bank.metrics();
    (metrics.renewals, metrics.audits, metrics.background_audits)
}

/// The first report of a short history is audited in the background, without a renewal.
#[test]
fn a_first_report() -> Result<(), Error> {
    let _alone = alone();
    let bank = two_accounts().open()?;
    fill(&bank, 1_000);
    bank.transact_stepwise(1, |u| u.add("checking", 1))?;
    let failed = bank.transact_stepwise(1, |u| {
        u.add("checking", 1)?;
        Err::<(), _>(Error::BadNames)
    });
    assert_eq!((failed, threads()), (Err(Error::BadNames), 0));
    assert_eq!((look(&bank)?, counts(&bank)), (1_001, (0, 1, 1)));
    assert_eq!(threads(), 1);
    fill(&bank, MANY);
    assert_eq!((look(&bank)?, counts(&bank)), (21_001, (0, 2, 2)));
    Ok(())
}

/// A bank without reports has no thread. Each history is logged from its opening, so a report after a renewal needs no other.
#[test]
fn no_reports() -> Result<(), Error> {
    let _alone = alone();
    let bank = two_accounts().open()?;
    for renewals in 1..=2 {
        fill(&bank, bank.counts()?.transactions_left);
        fill(&bank, 2_000);
        assert_eq!((bank.metrics().renewals, threads()), (renewals, 0));
    }
    assert_eq!((look(&bank)?, counts(&bank)), (2_000, (2, 1, 1)));
    Ok(())
}

/// Before the first report of a long history the bank is renewed, once. An active update is carried over.
#[test]
fn a_late_first_report() -> Result<(), Error> {
    let _alone = alone();
    let bank = two_accounts().open()?;
    fill(&bank, MANY);
    let report = bank.transact_stepwise(10, |u| {
        u.add("savings", 10)?;
        let (values, report) =
            bank.report(10, |r| Ok((r.read("checking")?, r.read("savings")?)))?;
        assert_eq!((values, counts(&bank)), ((20_500, 1510), (1, 1, 1)));
        Ok(report)
    })?;
    assert_eq!((report.distance, report.is_exact()), (10, true));
    assert_eq!((bank.metrics().carried, threads()), (1, 1));
    assert!(bank.script()?.starts_with("item checking 20500\n"));
    fill(&bank, MANY);
    assert_eq!((look(&bank)?, counts(&bank)), (20_000, (1, 2, 2)));
    fill(&bank, u64::from(MAX_TRANSACTIONS));
    look(&bank)?;
    assert_eq!(counts(&bank), (2, 3, 3));
    Ok(())
}

/// A bank that never audits in the background is not renewed for a report, and one that does so from its opening is not either.
#[test]
fn explicit_choices() -> Result<(), Error> {
    let _alone = alone();
    for in_background in [false, true] {
        let bank = two_accounts().background_audits(in_background).open()?;
        until(usize::from(in_background));
        fill(&bank, MANY);
        let expected = (0, 1, u64::from(in_background));
        assert_eq!((look(&bank)?, counts(&bank)), (20_000, expected));
        assert_eq!(threads(), usize::from(in_background));
    }
    Ok(())
}

/// If the work before the renewal fails, the report begins without it, and no other report tries again. Audits move to the
/// background at the next renewal.
#[test]
fn failing_work() -> Result<(), Error> {
    let _alone = alone();
    let fails = Arc::new(AtomicBool::new(true));
    let is_failing = fails.clone();
    let work = move |_: &mut esr::Closing<'_>| match is_failing.load(Ordering::Relaxed) {
        true => Err("the disk is full".into()),
        false => Ok(()),
    };
    let bank = two_accounts().try_before_renewal(work).open()?;
    fill(&bank, MANY);
    for audits in 1..=3 {
        assert_eq!((look(&bank)?, counts(&bank)), (20_000, (0, audits, 0)));
        assert_eq!(bank.metrics().failed_renewals, 1);
        thread::sleep(Duration::from_millis(110));
    }
    fails.store(false, Ordering::Relaxed);
    fill(&bank, MANY);
    assert_eq!((look(&bank)?, counts(&bank)), (40_000, (0, 4, 0)));
    fill(&bank, MANY);
    look(&bank)?;
    assert_eq!(counts(&bank), (1, 5, 1));
    Ok(())
}
