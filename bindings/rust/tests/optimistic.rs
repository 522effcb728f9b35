//! Updates whose bodies run outside the engine's lock: each sees one state, no change is lost, and they wait for locks
//! as other transactions do. Audits in the background find what the bank itself finds.

use esr::{Bank, BankBuilder, Error, MAX_TRANSACTIONS, Patience, Refusal};
use std::{
    panic,
    sync::{
        Barrier,
        atomic::{AtomicBool, AtomicU64, Ordering},
    },
    thread,
    time::{Duration, Instant},
};

/// Returns the reason of a refusal.
fn refusal<T>(result: &Result<T, Error>) -> Option<Refusal> {
    let error = result.as_ref().err();
    error.and_then(Error::refusal)
}

fn builder() -> BankBuilder {
    let builder = Bank::builder().item("checking", 500).item("savings", 1500);
    builder.optimistic(true)
}

fn two_accounts() -> Bank {
    builder()
        .open()
        .expect("two accounts are within the limits")
}

/// A number that looks drawn.
fn draw(random: &mut u64, below: usize) -> usize {
    *random = random
        .wrapping_mul(6_364_136_223_846_793_005)
        .wrapping_add(1_442_695_040_888_963_407);
    (*random >> 33) as usize % below
}

/// Waits until something is so.
fn until(is_so: impl Fn() -> bool) {
    let begun = Instant::now();
    while !is_so() {
        assert!(begun.elapsed() < Duration::from_secs(20));
        thread::sleep(Duration::from_millis(1));
    }
}

/// The history has an ordinary update: first reads, and last writes.
#[test]
fn the_history_has_first_reads_and_last_writes() {
    let bank = two_accounts();
    let told = bank.transact(300, |update| {
        let before = update.read("checking")?;
        update.write("checking", 1)?;
        update.write("checking", before - 100)?;
        assert_eq!(update.read("checking")?, 400);
        update.write("savings", 1600)?;
        assert_eq!((update.read("savings")?, update.charged()), (1600, 0));
        Ok::<_, Error>(before)
    });
    assert_eq!(told, Ok(500));
    assert_eq!(bank.transact(0, |_| Ok::<_, Error>(7)), Ok(7));
    let script = "item checking 500\nitem savings 1500\nbegin t1 update 300\nread t1 checking\nwrite t1 checking 400\n\
                  write t1 savings 1600\ncommit t1\nbegin t2 update 0\ncommit t2\n";
    assert_eq!(bank.script().as_deref(), Ok(script));
    let values = (bank.value("checking"), bank.value("savings"));
    assert_eq!(values, (Ok(400), Ok(1600)));
    assert_eq!(bank.snapshot_in_order(), Ok(vec![400, 1600]));
}

/// A call that fails returns the usual error, and the body may continue after it.
#[test]
fn refusals_are_the_same() {
    for is_optimistic in [false, true] {
        let bank = builder().optimistic(is_optimistic).open();
        let bank = bank.expect("two accounts are within the limits");
        let text = |result: Result<i64, Error>| result.unwrap_err().to_string();
        let range = "(-1000000000000 to 1000000000000)";
        let unknown = bank.transact(0, |update| update.read("pocket"));
        assert_eq!(text(unknown), "refused: no such item: pocket");
        let large = bank.transact(0, |update| {
            update.write("checking", 1_000_000_000_001).map(|()| 0)
        });
        let why = "refused: value out of range: 1000000000001 for item checking";
        assert_eq!(text(large), format!("{why} {range}"));
        let large = bank.transact(0, |update| update.add("checking", i64::MAX));
        let why = format!(
            "refused: value out of range: {} for item checking",
            i64::MAX
        );
        assert_eq!(text(large), format!("{why} {range}"));
        let unlimited = bank.transact(u64::MAX, |update| update.add("checking", 1));
        let why = format!("refused: limit out of range: {}", u64::MAX);
        assert_eq!(text(unlimited), format!("{why} (0 to 1000000000000000000)"));
        let result = bank.transact(0, |update| {
            let out = update.write("savings", i64::MIN).unwrap_err().refusal();
            assert_eq!(out, Some(Refusal::ValueOutOfRange));
            update.add("savings", 1)
        });
        assert_eq!(result, Ok(1501));
        assert_eq!(bank.snapshot_in_order(), Ok(vec![500, 1501]));
        assert_eq!((bank.counts().unwrap().active, bank.active().len()), (0, 0));
    }
}

/// An error and a panic leave nothing.
#[test]
fn errors_and_panics_leave_nothing() {
    let bank = two_accounts();
    let told: Result<(), Error> = bank.transact(100, |update| {
        update.write("checking", 1)?;
        Err(Error::NotACommittedQuery)
    });
    assert_eq!(told, Err(Error::NotACommittedQuery));
    let quiet = panic::take_hook();
    panic::set_hook(Box::new(|_| {}));
    let caught = panic::catch_unwind(panic::AssertUnwindSafe(|| {
        bank.transact(100, |update| {
            update.write("checking", 1)?;
            panic!("as a body may");
            #[allow(unreachable_code)]
            Ok::<(), Error>(())
        })
    }));
    panic::set_hook(quiet);
    assert!(caught.is_err());
    assert_eq!(
        bank.transact(0, |update| update.add("checking", 1)),
        Ok(501)
    );
    let metrics = bank.metrics();
    assert_eq!((metrics.updates, metrics.optimistic_updates), (1, 1));
    assert_eq!(metrics.aborts, 2);
}

/// An update that commits in a destructor, while another panic unwinds the thread, has not failed.
#[test]
fn updates_during_a_panic_are_counted_right() {
    struct Last<'a>(&'a Bank);
    impl Drop for Last<'_> {
        fn drop(&mut self) {
            let added = self.0.transact(0, |update| update.add("checking", 1));
            assert_eq!(added, Ok(501));
        }
    }
    let bank = two_accounts();
    let caught = panic::catch_unwind(panic::AssertUnwindSafe(|| {
        let _last = Last(&bank);
        panic::resume_unwind(Box::new("as a program may"));
    }));
    assert!(caught.is_err());
    let metrics = bank.metrics();
    assert_eq!((metrics.updates, metrics.aborts), (1, 0));
}

/// A body that conflicts with another commit never sees values of different states, and is retried.
#[test]
fn an_overtaken_body_runs_anew() {
    let bank = two_accounts();
    let mut runs = 0;
    let told = bank.transact(1_000, |update| {
        runs += 1;
        let checking = update.read("checking")?;
        if runs == 1 {
            let other = |update: &mut esr::BankUpdate<'_, '_>| {
                update.add("checking", -100)?;
                update.add("savings", 100)
            };
            let meanwhile = || bank.transact(1_000, other);
            thread::scope(|threads| threads.spawn(meanwhile).join().expect("it does not panic"))?;
            assert_eq!(update.read("savings"), Err(Error::Overtaken));
        }
        let savings = update.read("savings")?;
        assert_eq!(checking + savings, 2000);
        update.write("savings", savings + 1)
    });
    assert_eq!((told, runs), (Ok(()), 2));
    assert_eq!(bank.snapshot_in_order(), Ok(vec![400, 1601]));
    assert_eq!(bank.metrics().reruns, 1);
}

/// The body waits for an update that holds a lock, and then runs on its values.
#[test]
fn a_lock_is_waited_for() {
    let (bank, met) = (two_accounts(), Barrier::new(2));
    thread::scope(|threads| {
        threads.spawn(|| {
            bank.transact_stepwise(100, |slow| {
                slow.add("checking", -100)?;
                met.wait();
                thread::sleep(Duration::from_millis(30));
                slow.add("savings", 100)
            })
        });
        met.wait();
        assert_eq!(
            bank.transact(100, |update| update.add("checking", 1)),
            Ok(401)
        );
    });
    assert_eq!(bank.snapshot_in_order(), Ok(vec![401, 1600]));
    let metrics = bank.metrics();
    assert_eq!((metrics.updates, metrics.optimistic_updates), (2, 1));
}

/// If no transaction releases the lock, the call returns the reason after its timeout; also if the update itself holds
/// it and begins another in its body.
#[test]
fn patience_ends() {
    let short = Patience::of(Duration::from_millis(100));
    let bank = builder().patience(short).open();
    let bank = bank.expect("two accounts are within the limits");
    let told = bank.transact_stepwise(0, |first| {
        first.write("checking", 400)?;
        bank.transact(0, |second| second.write("checking", 300))
    });
    let is_locked =
        |result: Result<(), Error>| matches!(refusal(&result), Some(Refusal::BlockedByLock(_)));
    assert!(is_locked(told));
    let told = bank.transact(0, |first| {
        first.add("checking", 1)?;
        bank.transact(0, |second| second.add("checking", 1))
            .map(drop)
    });
    assert!(is_locked(told));
    assert_eq!(bank.counts().unwrap().active, 0);
    // each run of the outer body had committed the inner one
    assert!(bank.value("checking").is_ok_and(|value| value > 500));
}

/// A report that has read an item is charged for an update in one hold, and where its limit is in the way the update
/// waits for its end.
#[test]
fn reports_are_charged_and_waited_for() {
    let bank = two_accounts();
    let (values, finding) = bank
        .report(100, |report| {
            let before = report.read("checking")?;
            let transfer = || {
                bank.transact(100, |transfer| {
                    transfer.add("checking", -100)?;
                    transfer.add("savings", 100)
                })
            };
            thread::scope(|threads| threads.spawn(transfer).join().expect("no panic"))?;
            assert_eq!(report.charged(), 100);
            Ok::<_, Error>((before, report.read("savings")?))
        })
        .expect("nothing is in its way");
    assert_eq!(
        (values, finding.distance, finding.import),
        ((500, 1600), 100, 100)
    );
    assert_eq!(bank.metrics().optimistic_updates, 1);
    let met = Barrier::new(2);
    thread::scope(|threads| {
        let (bank, met) = (&bank, &met);
        threads.spawn(move || {
            bank.report(0, |report| {
                let before = report.read("checking")?;
                met.wait();
                // (the whole update is submitted in vain, and then waits for the report step by step)
                until(|| {
                    bank.active()
                        .iter()
                        .any(|active| active.waits_for.is_some())
                });
                assert_eq!(report.read("checking")?, before);
                Ok::<_, Error>(())
            })
        });
        met.wait();
        assert_eq!(
            bank.transact(100, |update| update.add("checking", 1)),
            Ok(401)
        );
    });
    let metrics = bank.metrics();
    assert_eq!(
        (metrics.updates, metrics.optimistic_updates, metrics.reports),
        (2, 1, 2)
    );
    assert!(metrics.waits > 0 && !metrics.waited.is_zero());
}

/// Reads in one hold: their values are in the order of the names, and if one is blocked the rest is read after it.
#[test]
fn reads_in_one_hold() {
    let (bank, met) = (two_accounts(), Barrier::new(2));
    let read = |names: &[&str]| bank.report(0, |report| report.read_all(names));
    let read = |names| read(names).map(|(values, finding)| (values, finding.distance));
    assert_eq!(
        read(&["savings", "checking", "savings"]),
        Ok((vec![1500, 500, 1500], 0))
    );
    assert_eq!(read(&[]), Ok((vec![], 0)));
    assert_eq!(
        refusal(&read(&["savings", "pocket"])),
        Some(Refusal::NoSuchItem)
    );
    thread::scope(|threads| {
        threads.spawn(|| {
            bank.transact_stepwise(0, |slow| {
                slow.write("savings", 1400)?;
                met.wait();
                thread::sleep(Duration::from_millis(30)); // blocked by its own limit, it waits for no transaction
                Ok::<_, Error>(())
            })
        });
        met.wait();
        assert_eq!(read(&["checking", "savings"]), Ok((vec![500, 1400], 0)));
    });
}

/// Lists the active transactions, and the transaction that each waits for.
#[test]
fn active_ones_are_told() {
    let bank = two_accounts();
    let met = Barrier::new(2);
    thread::scope(|threads| {
        let (bank, met) = (&bank, &met);
        threads.spawn(move || {
            bank.transact_stepwise(700, |slow| {
                slow.add("savings", 1)?;
                met.wait();
                met.wait();
                Ok::<_, Error>(())
            })
        });
        met.wait();
        let waiting =
            threads.spawn(move || bank.transact_stepwise(70, |update| update.add("savings", 1)));
        until(|| {
            bank.active()
                .iter()
                .any(|active| active.waits_for.is_some())
        });
        let active = bank.active();
        assert_eq!(active.len(), 2);
        assert_eq!(
            (active[0].limit, active[0].is_query, active[0].waits_for),
            (700, false, None)
        );
        assert_eq!(
            (active[1].limit, active[1].waits_for),
            (70, Some(active[0].txn))
        );
        assert_eq!(active[1].waits_at.as_deref(), Some("savings"));
        assert!(active[0].age >= active[1].age);
        met.wait();
        assert_eq!(waiting.join().expect("no panic"), Ok(1502));
    });
}

/// Work before a renewal that fails postpones it; the bank continues while it has capacity, then returns the
/// reason, and is renewed once the work is done.
#[test]
fn a_renewal_may_be_put_off() {
    static FAILS: AtomicBool = AtomicBool::new(true);
    for is_optimistic in [true, false] {
        FAILS.store(true, Ordering::Relaxed);
        let bank = builder()
            .optimistic(is_optimistic)
            .try_before_renewal(|closing| match FAILS.load(Ordering::Relaxed) {
                true => Err(format!("no disk for {} reports", closing.due().len()).into()),
                false => Ok(()),
            })
            .open()
            .expect("two accounts are within the limits");
        for n in 1..=i64::from(MAX_TRANSACTIONS) {
            assert_eq!(
                bank.transact(1, |update| update.add("checking", 1)),
                Ok(500 + n)
            );
        }
        let why = bank.renewal_failure();
        assert_eq!(why.as_deref(), Some("no disk for 0 reports"));
        let told = bank.transact(1, |update| update.add("checking", 1));
        let why = "no disk for 0 reports".to_owned();
        assert_eq!(told, Err(Error::RenewalFailed { why }));
        assert!(bank.metrics().failed_renewals > 0);
        FAILS.store(false, Ordering::Relaxed);
        assert!(bank.transact(1, |update| update.add("checking", 1)).is_ok());
        assert_eq!((bank.renewals(), bank.renewal_failure()), (1, None));
        assert_eq!(bank.metrics().updates, u64::from(MAX_TRANSACTIONS) + 1);
    }
}

/// An update continues through renewals: its locks, its writes that no other transaction sees, and the rest of its
/// limit.
#[test]
fn a_slow_update_does_not_hold_a_renewal_off() {
    for background_audits in [false, true] {
        let builder = builder().item("hits", 0).item("seen", 7);
        let short = Patience::of(Duration::from_millis(50));
        let builder = builder.background_audits(background_audits).patience(short);
        let bank = builder.open().expect("four items are within the limits");
        let told = bank.transact_stepwise(150, |slow| {
            assert_eq!(slow.read("seen")?, 7);
            slow.add("checking", -100)?;
            slow.write("savings", 1)?;
            slow.write("savings", 1600)?;
            let look = || bank.report(1_000, |report| report.read("checking"));
            let look = || thread::scope(|threads| threads.spawn(look).join().expect("no panic"));
            assert_eq!(
                look().map(|(value, finding)| (value, finding.distance)),
                Ok((400, 100))
            );
            assert_eq!(slow.charged(), 100);
            for round in 1..=2 {
                let longest = thread::scope(|threads| {
                    let count = || {
                        let mut longest = Duration::ZERO;
                        while bank.renewals() < round {
                            let begun = Instant::now();
                            bank.transact(0, |update| update.add("hits", 1))
                                .expect("no limit is in its way");
                            longest = longest.max(begun.elapsed());
                        }
                        longest
                    };
                    threads.spawn(count).join().expect("no panic")
                });
                println!("round {round}: longest update {longest:?}");
                assert_eq!((bank.renewals(), bank.counts().unwrap().active), (round, 1));
                // its locks are there, and its writes are its own
                let is_locked = |result: Result<(), Error>| {
                    matches!(refusal(&result), Some(Refusal::BlockedByLock(_)))
                };
                assert!(is_locked(bank.transact(0, |other| other.write("seen", 8))));
                assert!(is_locked(
                    bank.transact(0, |other| other.write("savings", 8))
                ));
                assert!(is_locked(
                    bank.transact_stepwise(0, |other| other.read("checking").map(drop))
                ));
                let values = ["checking", "savings", "seen"].map(|item| bank.value(item));
                assert_eq!(values, [Ok(500), Ok(1500), Ok(7)]);
                assert_eq!(
                    (
                        slow.read("checking")?,
                        slow.read("savings")?,
                        slow.read("seen")?
                    ),
                    (400, 1600, 7)
                );
                // of its limit 50 are left
                let told = look().map(drop);
                assert!(
                    matches!(refusal(&told), Some(Refusal::BlockedByExport(_))),
                    "{told:?}"
                );
                assert_eq!(slow.charged(), 100);
                let active = bank.active();
                assert_eq!((active[0].limit, active[0].charged), (150, 100));
            }
            Ok::<_, Error>(())
        });
        assert_eq!(told, Ok(()));
        let values = (
            bank.value("checking"),
            bank.value("savings"),
            bank.value("seen"),
        );
        assert_eq!(values, (Ok(400), Ok(1600), Ok(7)));
        let snapshot = bank.snapshot().expect("memory");
        assert_eq!((snapshot["checking"], snapshot["savings"]), (400, 1600));
        let (_, finding) = bank
            .report(0, |report| report.read("savings"))
            .expect("nothing is active");
        assert_eq!(finding.distance, 0);
        let metrics = bank.metrics();
        assert_eq!((metrics.carried, bank.counts().unwrap().active), (2, 0));
        assert_eq!(
            metrics.background_audits,
            if background_audits { metrics.audits } else { 0 }
        );
    }
}

/// Threads change items whose sum stays, whole and step by step, through renewals, with reports that have limits and
/// snapshots: no body and no snapshot sees another sum, each report is off by at most its import, and nothing is lost.
#[test]
fn a_soak_loses_nothing() {
    const ITEMS: usize = 12;
    let seconds =
        std::env::var("ESR_SOAK_SECONDS").map_or(2, |text| text.parse().expect("a number"));
    for background_audits in [false, true] {
        let names: Vec<String> = (0..ITEMS).map(|n| format!("account{n}")).collect();
        let builder = names
            .iter()
            .fold(Bank::builder(), |builder, name| builder.item(name, 1000));
        let builder = builder.item("rate", 3).item("slow0", 0).item("slow1", 0);
        let builder = builder
            .optimistic(true)
            .background_audits(background_audits);
        let bank = builder.open().expect("they are within the limits");
        let end = Instant::now() + Duration::from_secs(seconds);
        let (moved, reports) = (AtomicU64::new(0), AtomicU64::new(0));
        let (slow_ones, exact) = (AtomicU64::new(0), AtomicU64::new(0));
        let whole = 1000 * ITEMS as i64;
        let client = |mut random: u64| {
            let mut change = [0; ITEMS];
            while Instant::now() < end {
                let (from, to) = (draw(&mut random, ITEMS), draw(&mut random, ITEMS));
                let (is_stepwise, sums) = (draw(&mut random, 50) == 0, draw(&mut random, 4) == 0);
                let body = |update: &mut esr::BankUpdate<'_, '_>| {
                    if sums {
                        let mut sum = 0;
                        for name in &names {
                            sum += update.read(name)?;
                        }
                        assert_eq!(sum, whole); // in each run of the body, also one that is overtaken later
                    }
                    update.add(&names[from], -10)?;
                    update.add(&names[to], 10)
                };
                if is_stepwise {
                    bank.transact_stepwise(100_000, body)
                } else {
                    bank.transact(100_000, body)
                }
                .expect("it gets through");
                change[from] -= 10;
                change[to] += 10;
                moved.fetch_add(1, Ordering::Relaxed);
            }
            change
        };
        let clerk = || {
            while Instant::now() < end {
                let begun = Instant::now();
                let sum = |report: &mut esr::BankQuery<'_, '_>| {
                    let mut sum = 0;
                    for name in &names {
                        sum += report.read(name)?;
                        thread::sleep(Duration::from_micros(20));
                    }
                    Ok::<_, Error>(sum)
                };
                let (sum, finding) = bank.report(5_000, sum).expect("its limit is never met");
                assert!(sum.abs_diff(whole) <= finding.distance);
                assert!(finding.distance <= finding.import);
                exact.fetch_add(u64::from(finding.is_exact()), Ordering::Relaxed);
                let snapshot = bank.snapshot_in_order().expect("memory");
                assert_eq!(snapshot[..ITEMS].iter().sum::<i64>(), whole);
                reports.fetch_add(1, Ordering::Relaxed);
                thread::sleep(begun.elapsed());
            }
        };
        // updates that take as long as some histories, at separate items and at one that all read
        let slow = |mine: &str| {
            let mut all = 0;
            while Instant::now() < end {
                let answer = bank.transact_stepwise(1_000_000, |update| {
                    let before = update.read("rate")?;
                    let value = update.add(mine, 1)?;
                    thread::sleep(Duration::from_millis(100));
                    assert_eq!((update.read("rate")?, update.read(mine)?), (before, value));
                    update.write(mine, value + 1)?;
                    thread::sleep(Duration::from_millis(100));
                    update.add(mine, 1)
                });
                all += 1;
                assert_eq!(answer, Ok(3 * all));
                slow_ones.fetch_add(1, Ordering::Relaxed);
            }
        };
        let changes = thread::scope(|threads| {
            threads.spawn(clerk);
            threads.spawn(|| slow("slow0"));
            threads.spawn(|| slow("slow1"));
            let clients = (1..6u64).map(|seed| threads.spawn(move || client(seed)));
            let clients: Vec<_> = clients.collect();
            clients
                .into_iter()
                .map(|client| client.join().expect("a client does not panic"))
                .collect::<Vec<_>>()
        });
        assert!(Instant::now() < end + Duration::from_secs(10));
        for (n, name) in names.iter().enumerate() {
            let change: i64 = changes.iter().map(|change| change[n]).sum();
            assert_eq!(bank.value(name), Ok(1000 + change));
        }
        let metrics = bank.metrics();
        let all = moved.load(Ordering::Relaxed) + slow_ones.load(Ordering::Relaxed);
        assert_eq!(metrics.updates, all);
        assert_eq!(metrics.reports, reports.load(Ordering::Relaxed));
        assert_eq!((bank.counts().unwrap().active, metrics.aborts), (0, 0));
        // a report that was carried over a renewal has a bound, which needs no audit
        let in_background = exact.into_inner() * u64::from(background_audits);
        assert_eq!(
            (metrics.background_audits, metrics.audits),
            (in_background, metrics.reports)
        );
        println!(
            "{} updates, {} whole, {} reruns, {} reports, {} renewals, {} carried",
            metrics.updates,
            metrics.optimistic_updates,
            metrics.reruns,
            metrics.reports,
            metrics.renewals,
            metrics.carried
        );
    }
}

/// The twin explains reports that run with active updates as the bank's own engine does.
#[test]
fn background_audits_find_the_same() {
    const ITEMS: usize = 5;
    let names: Vec<String> = (0..ITEMS).map(|n| format!("account{n}")).collect();
    let mut builder = Bank::builder().weighted_item(&names[0], 1000, 3);
    for name in &names[1..] {
        builder = builder.item(name, 1000);
    }
    let short = Patience::of(Duration::from_millis(300));
    let builder = builder
        .optimistic(true)
        .background_audits(true)
        .patience(short);
    let bank = builder.open().expect("they are within the limits");
    let open = AtomicBool::new(true);
    let client = |mut random: u64| {
        while open.load(Ordering::Relaxed) {
            let (from, to) = (draw(&mut random, ITEMS), draw(&mut random, ITEMS));
            let fails = draw(&mut random, 5) == 0;
            let body = |update: &mut esr::BankUpdate<'_, '_>| {
                update.add(&names[from], -7)?;
                thread::sleep(Duration::from_micros(50));
                update.write(&names[to], 1000)?;
                update.add(&names[to], 7)?;
                if fails { Err(Error::BadNames) } else { Ok(()) }
            };
            // (one that is blocked by a report with a small limit may lose its patience)
            let _ = if draw(&mut random, 2) == 0 {
                bank.transact_stepwise(500, body)
            } else {
                bank.transact(500, body)
            };
            thread::sleep(Duration::from_micros(200));
        }
    };
    /// Lets the clients end, even if the test fails.
    struct Close<'a>(&'a AtomicBool);
    impl Drop for Close<'_> {
        fn drop(&mut self) {
            self.0.store(false, Ordering::Relaxed);
        }
    }
    thread::scope(|threads| {
        let _close = Close(&open);
        for seed in 1..4 {
            threads.spawn(move || client(seed));
        }
        let mut random = 99;
        let mut off = 0;
        for n in 0..60 {
            let limit = [50, 200, 2_000][n % 3];
            let read = |report: &mut esr::BankQuery<'_, '_>| {
                for _ in 0..8 {
                    report.read(&names[draw(&mut random, ITEMS)])?;
                    thread::sleep(Duration::from_micros(30));
                }
                Ok::<_, Error>(())
            };
            let Ok(((), report)) = bank.report_unaudited(limit, read) else {
                continue;
            };
            let finding = bank.audit(report).expect("it has committed");
            if !finding.is_exact() {
                continue; // it has no placement
            }
            let told = bank.explain(report).expect("it has committed");
            let before = finding.before.iter().map(|txn| format!("t{txn}"));
            let before: Vec<_> = before.collect();
            let before = if before.is_empty() {
                "-".into()
            } else {
                before.join(",")
            };
            assert!(
                told.contains(&format!("\nbefore {before}\n")),
                "{told}{finding}"
            );
            let end = format!(
                "\ndistance {} import {}\n",
                finding.distance, finding.import
            );
            assert!(told.ends_with(&end), "{told}{finding}");
            off += u32::from(finding.distance > 0);
        }
        println!("{off} of 60 reports were off");
        assert!(off > 0);
    });
    let metrics = bank.metrics();
    assert!(metrics.audits > 0 && metrics.distances[0] < metrics.audits);
    assert_eq!(metrics.background_audits, metrics.audits); // the twin was never given up
}
