//! The recorded metrics have the names, texts and values of the page that the bank itself writes.

use esr::{Bank, Change, Error, MAX_TRANSACTIONS, Options, Patience, Store, StoreError};
use forwarders::Counts;
use metrics::{Recorded, Unit, recorded};
use std::{
    mem,
    sync::{
        Arc, Barrier,
        atomic::{AtomicBool, Ordering},
    },
    thread,
    time::Duration,
};

/// The observer of the bank. The test keeps it, to poll.
struct Shared(Arc<Counts>);

impl esr::Observer for Shared {
    fn begun(&self, transaction: &esr::Observed<'_>) {
        self.0.begun(transaction);
    }
    fn blocked(&self, transaction: &esr::Observed<'_>, refused: &esr::Refused) {
        self.0.blocked(transaction, refused);
    }
    fn deadlocked(&self, transaction: &esr::Observed<'_>, refused: &esr::Refused) {
        self.0.deadlocked(transaction, refused);
    }
    fn restarted(&self, transaction: &esr::Observed<'_>, why: &Error) {
        self.0.restarted(transaction, why);
    }
    fn ended(&self, transaction: &esr::Observed<'_>, ended: &esr::Ended) {
        self.0.ended(transaction, ended);
    }
    fn audited(&self, audited: &esr::Audited<'_>) {
        self.0.audited(audited);
    }
    fn renewed(&self, renewed: &esr::Renewed) {
        self.0.renewed(renewed);
    }
    fn renewal_failed(&self, why: &str) {
        self.0.renewal_failed(why);
    }
}

/// A store that keeps nothing.
struct Nowhere;

impl Store for Nowhere {
    fn open(&mut self, items: &[(&str, i64)]) -> Result<Vec<(String, i64)>, Error> {
        Ok(items
            .iter()
            .map(|(name, value)| ((*name).to_string(), *value))
            .collect())
    }
    fn write(&mut self, _: u64, _: &[Change<'_>]) -> Result<(), StoreError> {
        Ok(())
    }
    fn resolve(&mut self, _: u64) -> Result<bool, StoreError> {
        Ok(true)
    }
    fn close(&mut self) {}
}

/// Two updates that wait for each other.
fn deadlock(bank: &Bank) {
    let met = Barrier::new(2);
    thread::scope(|threads| {
        for (first, second) in [("checking", "savings"), ("savings", "checking")] {
            let met = &met;
            threads.spawn(move || {
                let mut is_first = true;
                let update = bank.transact_stepwise(100, |update| {
                    update.add(first, 1)?;
                    if mem::take(&mut is_first) {
                        met.wait();
                    }
                    update.add(second, 1)
                });
                update.expect("both commit");
            });
        }
    });
}

/// Runs transactions of each kind. Returns the number of those that began.
fn run(bank: &Bank, fails: &AtomicBool) -> Result<u64, Error> {
    bank.transact(9, |update| update.add("checking", -1))?;
    bank.transact_stepwise(100, |update| {
        update.add("savings", 10)?;
        assert_eq!(recorded().gauges["esr_active_transactions"], 1.0);
        bank.report(30, |report| {
            assert_eq!(recorded().gauges["esr_active_transactions"], 2.0);
            report.read("savings")
        })
    })?;
    bank.strict_report(7, |report| report.read("checking"))?;
    bank.transact(1, |_| Err::<(), _>(Error::BadNames))
        .unwrap_err();
    bank.transact(u64::MAX, |_| Ok(())).unwrap_err(); // it cannot begin, and is not counted as aborted
    bank.transact_stepwise(7, |update| {
        update.add("checking", 1)?;
        let other = Options::limit(8).patience(Patience::of(Duration::from_millis(2)));
        bank.transact_stepwise(other, |other| other.read("checking"))
            .unwrap_err();
        Ok(())
    })?;
    let mut is_first = true;
    bank.transact(9, |update| {
        update.read("checking")?;
        if mem::take(&mut is_first) {
            bank.transact(10, |other| other.write("checking", 5))?;
        }
        update.write("checking", 6)
    })?;
    deadlock(bank);
    let mut count = 12;
    bank.report_unaudited(0, |_| {
        bank.transact_stepwise(1, |carried| {
            carried.add("savings", 1)?;
            while bank.metrics().renewals == 0 {
                fails.store(bank.metrics().failed_renewals == 0, Ordering::Relaxed);
                bank.transact(1, |update| update.add("checking", 1))?;
                count += 1;
            }
            Ok(())
        })
    })?;
    assert!(count > u64::from(MAX_TRANSACTIONS) * 8 / 10);
    Ok(count + 2)
}

/// Checks a value of the bank's page.
fn check(line: &str, metrics: &Recorded) {
    let (name, value) = line.rsplit_once(' ').expect("a value follows a name");
    let close = |found: f64| {
        assert!(
            (found - value.parse::<f64>().unwrap()).abs() < 1e-6,
            "{line}: {found}"
        )
    };
    let sum = |name: &str| metrics.histograms[name].iter().sum::<f64>();
    if name == "esr_waits_total" {
        // the page counts each run that has waited
        let found = metrics.counters[name];
        assert!(
            (1..=value.parse().unwrap()).contains(&found),
            "{line}: {found}"
        );
        assert_eq!(metrics.histograms["esr_wait_seconds"].len() as u64, found);
    } else if let Some(name) = name.strip_suffix("_seconds_total") {
        close(sum(&format!("{name}_seconds")));
    } else if let Some(bound) = name.strip_prefix("esr_distance_bucket{le=\"") {
        let bound = bound
            .trim_end_matches("\"}")
            .replace("+Inf", "inf")
            .parse::<f64>()
            .unwrap();
        let distances = metrics.histograms["esr_distance"].iter();
        close(distances.filter(|distance| **distance <= bound).count() as f64);
    } else if name == "esr_distance_sum" {
        close(sum("esr_distance"));
    } else if name == "esr_distance_count" {
        close(metrics.histograms["esr_distance"].len() as f64);
    } else if let Some(found) = metrics.counters.get(name) {
        close(*found as f64);
    } else {
        close(metrics.gauges[name]);
    }
}

/// Checks that each metric of the page is described once, with its kind and text.
fn check_descriptions(page: &str, metrics: &Recorded) {
    let mut expected = Vec::new();
    let lines: Vec<&str> = page.lines().filter(|line| line.starts_with('#')).collect();
    for pair in lines.chunks(2) {
        let (name, text) = pair[0]
            .strip_prefix("# HELP ")
            .unwrap()
            .split_once(' ')
            .unwrap();
        let kind = pair[1].rsplit_once(' ').unwrap().1;
        expected.push(
            match name
                .strip_suffix("_total")
                .filter(|name| name.ends_with("_seconds"))
            {
                Some(name) => ("histogram".to_owned(), name.to_owned(), text.to_owned()),
                None => (kind.to_owned(), name.to_owned(), text.to_owned()),
            },
        );
    }
    let own = (
        "histogram",
        "esr_transaction_seconds",
        "The time of transactions, from begin to end.",
    );
    expected.push((own.0.into(), own.1.into(), own.2.into()));
    expected.sort();
    let described = metrics.described.iter();
    let mut found: Vec<_> = described
        .map(|of| (of.0.to_owned(), of.1.to_owned(), of.3.to_owned()))
        .collect();
    found.sort();
    assert_eq!(found, expected);
    for (_, name, unit, _) in &metrics.described {
        assert_eq!(
            *unit,
            name.ends_with("_seconds").then_some(Unit::Seconds),
            "{name}"
        );
    }
}

/// All recorded metrics are compared with the page, after a transaction of each kind, a deadlock and a renewal.
#[test]
fn the_metrics_are_those_of_the_page() -> Result<(), Error> {
    let fails = Arc::new(AtomicBool::new(true));
    let is_failing = fails.clone();
    let work = move |_: &mut esr::Closing<'_>| match is_failing.load(Ordering::Relaxed) {
        true => Err("the disk is full".into()),
        false => Ok(()),
    };
    let counts = Arc::new(Counts::new());
    let builder = Bank::builder()
        .items([("checking", 500), ("savings", 1500)])
        .store(Nowhere);
    let builder = builder
        .observer(Shared(counts.clone()))
        .background_audits(true);
    let bank = builder.try_before_renewal(work).open()?;
    assert_eq!(recorded(), Recorded::default());
    let transactions = run(&bank, &fails)?;
    counts.poll(&bank);
    let (metrics, page) = (recorded(), bank.metrics().to_prometheus());
    for line in page.lines().filter(|line| !line.starts_with('#')) {
        check(line, &metrics);
    }
    check_descriptions(&page, &metrics);
    assert_eq!(
        metrics.histograms["esr_transaction_seconds"].len() as u64,
        transactions
    );
    for (name, value) in &metrics.counters {
        assert!(*value > 0, "{name} was not tried");
    }
    assert!(metrics.histograms["esr_distance"].contains(&10.0));
    Ok(())
}
