//! The bank as threads use it: nothing is lost, nothing stays active, and reports are off by no more than they import.
//! `ESR_SOAK_SECONDS` is the duration of the soak test, 2 by default.

use esr::{Bank, Error, MAX_TRANSACTIONS, Patience, Refusal};
use std::{
    env, panic,
    sync::{
        Arc,
        atomic::{AtomicU64, Ordering},
    },
    thread,
    time::{Duration, Instant},
};

/// Returns the reason of a refusal.
fn refusal<T>(result: &Result<T, Error>) -> Option<Refusal> {
    let error = result.as_ref().err();
    error.and_then(Error::refusal)
}

fn two_accounts() -> Bank {
    let builder = Bank::builder().item("checking", 500).item("savings", 1500);
    builder.open().expect("two accounts are within the limits")
}

/// A name that there is not is refused, and makes no entry that anybody sees.
#[test]
fn unknown_names_are_refused() {
    let bank = two_accounts();
    let answer = bank.transact(0, |update| update.read("pocket"));
    let unknown = Some(Refusal::NoSuchItem);
    assert_eq!(answer.unwrap_err().refusal(), unknown);
    assert_eq!(bank.value("pocket").unwrap_err().refusal(), unknown);
    let twice = Bank::builder().item("a", 1).item("a", 2).open();
    let name = "a".to_owned();
    assert_eq!(twice.err(), Some(Error::NameTwice { name }));
}

/// An error of the body undoes the update's writes, and is returned unchanged.
#[test]
fn an_error_rolls_back() {
    let bank = two_accounts();
    let answer: Result<(), Error> = bank.transact(100, |update| {
        update.write("checking", 1)?;
        Err(Error::NotACommittedQuery)
    });
    assert_eq!(answer, Err(Error::NotACommittedQuery));
    assert_eq!(bank.value("checking"), Ok(500));
    assert_eq!(
        bank.transact(0, |update| update.add("checking", 1)),
        Ok(501)
    );
}

/// So does a panic: the next update of the same item is not blocked.
#[test]
fn a_panic_rolls_back() {
    let bank = two_accounts();
    let quiet = panic::take_hook();
    panic::set_hook(Box::new(|_| {}));
    let caught = panic::catch_unwind(panic::AssertUnwindSafe(|| {
        bank.transact(100, |update| {
            update.write("checking", 1)?;
            panic!("as a body may");
            #[allow(unreachable_code)]
            Ok::<(), Error>(())
        })
    }));
    panic::set_hook(quiet);
    assert!(caught.is_err());
    assert_eq!(
        bank.transact(0, |update| update.add("checking", 1)),
        Ok(501)
    );
}

/// A report between the halves of a transfer is off by what its audit says, and no more than it imported.
#[test]
fn a_report_tells_how_far_it_was() {
    let bank = two_accounts();
    bank.transact_stepwise(200, |transfer| {
        transfer.write("checking", 400)?;
        let (sum, finding) = thread::scope(|threads| {
            let report = || {
                bank.report(200, |report| {
                    Ok::<_, Error>(report.read("checking")? + report.read("savings")?)
                })
            };
            threads.spawn(report).join().expect("it does not panic")
        })?;
        assert_eq!((sum, finding.distance, finding.import), (1900, 100, 100));
        transfer.write("savings", 1600)
    })
    .expect("nothing is in its way");
    let (sum, finding) = bank
        .strict_report(0, |report| {
            Ok::<_, Error>(report.read("checking")? + report.read("savings")?)
        })
        .expect("nothing is in its way");
    assert_eq!((sum, finding.distance), (2000, 0));
}

/// Two updates wait for each other: the younger is aborted and restarted, and both commit.
#[test]
fn a_deadlock_is_given_up_by_the_younger() {
    let bank = two_accounts();
    let begun = Arc::new(std::sync::Barrier::new(2));
    let runs = AtomicU64::new(0);
    thread::scope(|threads| {
        for (first, second) in [("checking", "savings"), ("savings", "checking")] {
            let (bank, begun, runs) = (&bank, begun.clone(), &runs);
            threads.spawn(move || {
                let mut met = false;
                bank.transact(100, |update| {
                    runs.fetch_add(1, Ordering::Relaxed);
                    update.add(first, 1)?;
                    if !met {
                        met = true;
                        begun.wait();
                    }
                    update.add(second, 1)
                })
                .expect("both get through");
            });
        }
    });
    assert_eq!(
        (bank.value("checking"), bank.value("savings")),
        (Ok(502), Ok(1502))
    );
    assert_eq!(runs.load(Ordering::Relaxed), 3);
}

/// A report at its limit waits for an update that waits for the report: no refusal names the update, so the report is
/// restarted after a while, and both commit.
#[test]
fn a_ring_that_nobody_finds_is_left() {
    let bank = two_accounts();
    let met = std::sync::Barrier::new(2);
    thread::scope(|threads| {
        threads.spawn(|| {
            let mut first = true;
            bank.transact(1_000, |transfer| {
                transfer.add("checking", -100)?;
                if first {
                    met.wait(); // the report has read savings
                    met.wait();
                }
                first = false;
                transfer.add("savings", 100)
            })
            .expect("it gets through");
        });
        let mut first = true;
        let sum = bank.report(50, |report| {
            if first {
                met.wait();
            }
            let savings = report.read("savings")?;
            if first {
                met.wait();
            }
            first = false;
            Ok::<_, Error>(savings + report.read("checking")?)
        });
        assert_eq!(sum.map(|(sum, _)| sum), Ok(2000));
    });
}

/// If the blocker does not end, the caller gets the reason when its patience ends, and nothing stays active.
#[test]
fn patience_ends() {
    let short = Patience::of(Duration::from_millis(100));
    let bank = Bank::builder().item("checking", 500).patience(short).open();
    let bank = bank.expect("one item is within the limits");
    let begun = Instant::now();
    let result = bank.transact_stepwise(0, |first| {
        first.write("checking", 400)?;
        bank.transact(0, |second| second.write("checking", 300))
    });
    assert!(matches!(refusal(&result), Some(Refusal::BlockedByLock(_))));
    assert!(begun.elapsed() >= Duration::from_millis(100));
    assert_eq!(bank.transact(0, |next| next.add("checking", 1)), Ok(501));
}

/// A bank continues past the end of a history: the reports that are due are audited before the renewal.
#[test]
fn a_bank_renews_itself() {
    let audits = Arc::new(AtomicU64::new(0));
    let counted = audits.clone();
    let bank = Bank::builder()
        .item("hits", 0)
        .before_renewal(move |closing| {
            for report in closing.due().to_vec() {
                assert_eq!(closing.audit(report).expect("it has committed").distance, 0);
                counted.fetch_add(1, Ordering::Relaxed);
            }
        })
        .open()
        .expect("one item is within the limits");
    let (value, report) = bank
        .report_unaudited(0, |report| report.read("hits"))
        .expect("nothing is in its way");
    assert_eq!(
        (value, bank.audit(report).map(|finding| finding.distance)),
        (0, Ok(0))
    );
    let (_, due) = bank
        .report_unaudited(0, |report| report.read("hits"))
        .expect("nothing is in its way");
    for _ in 0..MAX_TRANSACTIONS {
        bank.transact(1, |update| update.add("hits", 1))
            .expect("nothing is in its way");
    }
    assert_eq!((bank.renewals(), audits.load(Ordering::Relaxed)), (1, 1));
    assert_eq!(bank.audit(due), Err(Error::ReportExpired));
    assert_eq!(bank.value("hits"), Ok(i64::from(MAX_TRANSACTIONS)));
}

/// A weighted item's differences count as money, and the charges can be queried while a report continues.
#[test]
fn weights_and_charges() {
    let bank = Bank::builder()
        .weighted_item("phones", 15, 900)
        .item("money", 0)
        .open()
        .expect("they are within the limits");
    bank.transact_stepwise(900, |sale| {
        sale.add("phones", -1)?;
        let report = || {
            bank.report(900, |report| {
                let phones = report.read("phones")?;
                Ok::<_, Error>((phones, report.charged()))
            })
        };
        let answer =
            thread::scope(|threads| threads.spawn(report).join().expect("it does not panic"))?;
        assert_eq!((answer.0, answer.1.distance), ((14, 900), 900));
        assert_eq!(sale.charged(), 900);
        sale.add("money", 900)
    })
    .expect("nothing is in its way");
    let bad = Bank::builder().weighted_item("phones", 15, 1_001).open();
    let item = "phones".to_owned();
    let weight = 1_001;
    assert_eq!(bad.err(), Some(Error::WeightOutOfRange { item, weight }));
}

/// Eight threads move money and read sums through renewals: each sum is off by at most what its report imported, the
/// accounts contain exactly the transfers reported as committed, and no thread is stuck.
#[test]
fn a_soak_loses_nothing() {
    const ACCOUNTS: usize = 16;
    let names: Vec<String> = (0..ACCOUNTS).map(|n| format!("account{n}")).collect();
    let builder = names
        .iter()
        .fold(Bank::builder(), |builder, name| builder.item(name, 1000));
    let bank = builder.open().expect("sixteen items are within the limits");
    let seconds =
        env::var("ESR_SOAK_SECONDS").map_or(2, |text| text.parse().expect("a number of seconds"));
    let end = Instant::now() + Duration::from_secs(seconds);
    let (moved, reports) = (AtomicU64::new(0), AtomicU64::new(0));
    let clerk = || {
        while Instant::now() < end {
            let begun = Instant::now();
            let (sum, finding) = bank
                .report(5_000, |report| {
                    names
                        .iter()
                        .map(|name| report.read(name))
                        .sum::<Result<i64, Error>>()
                })
                .expect("its limit is never met");
            assert!(sum.abs_diff(1000 * ACCOUNTS as i64) <= finding.distance);
            assert!(finding.distance <= finding.import);
            reports.fetch_add(1, Ordering::Relaxed);
            thread::sleep(begun.elapsed()); // an audit goes over the history under the bank's lock
        }
    };
    let client = |mut random: u64| {
        let mut draw = || {
            random = random
                .wrapping_mul(6_364_136_223_846_793_005)
                .wrapping_add(1_442_695_040_888_963_407);
            (random >> 33) as usize % ACCOUNTS
        };
        let mut change = [0; ACCOUNTS];
        while Instant::now() < end {
            let (from, to) = (draw(), draw());
            bank.transact(100_000, |update| {
                update.add(&names[from], -10)?;
                update.add(&names[to], 10)
            })
            .expect("it gets through");
            change[from] -= 10;
            change[to] += 10;
            moved.fetch_add(1, Ordering::Relaxed);
        }
        change
    };
    let changes = thread::scope(|threads| {
        threads.spawn(clerk);
        let clients = (1..8u64).map(|seed| threads.spawn(move || client(seed)));
        let clients: Vec<_> = clients.collect();
        clients
            .into_iter()
            .map(|client| client.join().expect("a client does not panic"))
            .collect::<Vec<_>>()
    });
    assert!(Instant::now() < end + Duration::from_secs(10));
    for (n, name) in names.iter().enumerate() {
        let change: i64 = changes.iter().map(|change| change[n]).sum();
        assert_eq!(bank.value(name), Ok(1000 + change));
    }
    println!(
        "{} transfers, {} reports, {} renewals",
        moved.load(Ordering::Relaxed),
        reports.load(Ordering::Relaxed),
        bank.renewals()
    );
}
