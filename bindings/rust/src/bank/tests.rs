//! The bank's protocol under every schedule of small cases, over the engine itself.

use super::*;
use crate::{
    Change, Finding, Observed, Observer, Store, StoreError,
    engine::MAX_TRANSACTIONS,
    interleave::{Depth, explore},
    sync::park_timeout,
    turns,
    twin::{MAX_LOGGED, QUIET, tests::STACK},
};
use std::{
    sync::{Arc, Mutex},
    time::Duration,
};

type Body = fn(&Bank);

/// Within this time no timeout ends.
const PROMPT: Duration = Duration::from_micros(400);

/// Returns a bank of two accounts and a counter. Its history is due for a renewal after three transactions, of which `used`
/// have ended, if there are any.
fn bank(used: u32) -> Arc<Bank> {
    opened(Bank::builder(), used)
}

fn opened(builder: BankBuilder, used: u32) -> Arc<Bank> {
    let items = [("a", 10), ("b", 20), ("c", 0)];
    let builder = builder.items(items).background_audits(false);
    let bank = builder.open().expect("three items");
    if used > 0 {
        let mut state = bank.lock();
        state.reserved = u64::from(MAX_TRANSACTIONS) - 3;
        for _ in 0..used {
            let txn = state.engine.begin_update(0).expect("it has capacity");
            state.engine.abort(txn).expect("it is active");
        }
    }
    Arc::new(bank)
}

fn values(bank: &Bank) -> (i64, i64) {
    let values = bank.snapshot_in_order().expect("memory");
    let mirrored = (bank.value("a").unwrap(), bank.value("b").unwrap());
    assert_eq!(
        mirrored,
        (values[0], values[1]),
        "the mirror differs from the engine"
    );
    (values[0], values[1])
}

/// An update whose draft is stale reserves the lock while its body runs again.
#[test]
fn a_stale_draft_reserves_the_lock() {
    let bank = bank(0);
    let mut runs = 0;
    let body = |update: &mut BankUpdate<'_, '_>| {
        runs += 1;
        let value = update.read("a")?;
        if runs == 1 {
            thread::scope(|scope| {
                let other = scope.spawn(|| bank.transact(0, |other| other.write("a", 30)));
                other.join().expect("no panic")
            })?;
        }
        assert_eq!(bank.state.is_reserved(), runs == 2);
        update.write("a", value + 1)
    };
    bank.transact(0, body).expect("it commits");
    assert_eq!((runs, bank.value("a")), (2, Ok(31)));
}

/// A thread that yields its processor ends its lease before.
#[test]
fn a_thread_that_yields_ends_its_lease() {
    let bank = bank(0);
    for is_kept in [true, false] {
        bank.lock().reserve();
        if !is_kept {
            turns::tests::end_turn();
        }
        let body = |update: &mut BankUpdate<'_, '_>| {
            assert_eq!(bank.state.is_reserved(), is_kept);
            update.write("a", 1)
        };
        bank.transact(0, body).expect("it commits");
    }
}

/// Checks the end of a run: nothing is active, and no thread waited for its timeout.
fn check_end(bank: &Bank, now: Duration, max: Duration) {
    assert_eq!(
        bank.counts().unwrap().active,
        0,
        "a transaction stays active"
    );
    assert!(bank.active().is_empty());
    assert!(now < max, "a wake-up was lost: {now:?}");
}

fn transfer(update: &mut BankUpdate<'_, '_>) -> Result<(), Error> {
    let (a, b) = (update.read("a")?, update.read("b")?);
    assert_eq!(a + b, 30, "a body saw half a commit");
    update.write("a", a - 1)?;
    update.write("b", b + 1)
}

/// Optimistic updates, with a body that fails and a report alongside.
#[test]
fn optimistic_updates() {
    let moves: Body = |bank| bank.transact(100, transfer).expect("it commits");
    let fails: Body = |bank| {
        let failed: Result<(), Error> = bank.transact(100, |update| {
            transfer(update)?;
            Err(Error::BadNames)
        });
        assert_eq!(failed, Err(Error::BadNames));
    };
    let reports: Body = |bank| {
        let read = |report: &mut BankQuery<'_, '_>| Ok(report.read("a")? + report.read("b")?);
        let (sum, finding) = bank.report(100, read).expect("it commits");
        assert!(sum.abs_diff(30) <= finding.import);
    };
    for (bodies, moved) in [
        (vec![moves, moves], 2),
        (vec![moves, fails], 1),
        (vec![moves, reports], 1),
    ] {
        let runs = explore(
            Depth::coarse(2),
            || (bank(0), bodies.clone()),
            |bank, now| {
                assert_eq!(values(bank), (10 - moved, 20 + moved), "an update was lost");
                check_end(bank, now, PROMPT);
            },
        );
        println!("{runs} schedules");
    }
}

/// Each optimistic update is one of its thread's turn.
#[test]
fn optimistic_updates_take_turns() {
    let bank = bank(0);
    for count in 1..=3 {
        bank.transact(100, transfer).expect("it commits");
        assert_eq!(turns::tests::updates(), count);
    }
}

/// Step-by-step updates with locks: one waits for the other and is woken, and of a ring the victim runs again.
#[test]
fn locks_wakeups_and_victims() {
    let up: Body = |bank| {
        bank.transact_stepwise(100, |update| {
            update.add("a", 1)?;
            update.add("b", 1)
        })
        .expect("it commits");
    };
    let down: Body = |bank| {
        bank.transact_stepwise(100, |update| {
            update.add("b", 1)?;
            update.add("a", 1)
        })
        .expect("it commits");
    };
    let ahead: Body = |bank| {
        bank.transact(100, |update| {
            update.add("b", 1)?;
            update.add("a", 1)
        })
        .expect("it commits");
    };
    for bodies in [vec![up, up], vec![up, down], vec![up, ahead]] {
        let runs = explore(
            Depth::coarse(2),
            || (bank(0), bodies.clone()),
            |bank, now| {
                assert_eq!(values(bank), (12, 22), "an update was lost");
                // a transaction without locks may wait for its pause, but a ring does not wait for its share of 50 ms
                check_end(bank, now, Duration::from_millis(25));
            },
        );
        println!("{runs} schedules");
    }
}

/// A renewal, which an update and a report are carried over.
#[test]
fn renewals() {
    let slow: Body = |bank| {
        bank.transact_stepwise(100, |update| {
            let a = update.add("a", 1)?;
            assert_eq!(update.read("a")?, a, "a carried update lost its write");
            update.add("b", 1)
        })
        .expect("it commits");
    };
    let quick: Body = |bank| {
        bank.transact(100, |update| update.add("b", 1))
            .expect("it commits");
    };
    let reports: Body = |bank| {
        let read = |report: &mut BankQuery<'_, '_>| Ok(report.read("a")? + report.read("b")?);
        let (_, report) = bank.report_unaudited(100, read).expect("it commits");
        let found = bank.audit(report);
        assert!(
            found.is_ok() || found == Err(Error::ReportExpired),
            "{found:?}"
        );
    };
    for (used, bodies, ends) in [
        (3, vec![slow, quick], (11, 22)),
        (2, vec![reports, quick], (10, 21)),
        (2, vec![slow, reports], (11, 21)),
    ] {
        let runs = explore(
            Depth::coarse(2),
            || (bank(used), bodies.clone()),
            |bank, now| {
                assert_eq!(values(bank), ends, "an update was lost");
                assert!(bank.renewals() > 0);
                check_end(bank, now, PROMPT);
            },
        );
        println!("{runs} schedules");
    }
}

/// Two renewals while a report and an update are active: the report is off by at most its import over all histories from a
/// state that the update has left, and the limit holds over all of them.
#[test]
fn renewals_of_active_reports() {
    let slow: Body = |bank| {
        bank.transact_stepwise(1, |update| {
            update.add("a", 1)?;
            let b = update.add("b", 1)?;
            assert_eq!(update.read("b")?, b, "a carried update lost its write");
            assert!(update.charged() <= 1, "its limit is exceeded");
            Ok(())
        })
        .expect("it commits");
    };
    let reports: Body = |bank| {
        let read = |report: &mut BankQuery<'_, '_>| {
            let a = report.read("a")?;
            for _ in 0..2 {
                bank.transact(0, |update| update.add("c", 1))?;
            }
            let values = (a, report.read("b")?);
            Ok((values, report.charged()))
        };
        let ((values, charged), finding) = bank.report(1, read).expect("it commits");
        let off = |(a, b): (i64, i64)| values.0.abs_diff(a) + values.1.abs_diff(b);
        let least = off((10, 20)).min(off((11, 21)));
        assert!(least <= finding.distance, "{values:?}, {finding}");
        assert!(charged <= finding.import && finding.import <= 1);
        assert!(finding.renewals > 0 && !finding.is_exact());
    };
    let both = Arc::new(AtomicU64::new(0));
    let runs = explore(
        Depth::coarse(2),
        || (bank(1), vec![slow, reports]),
        |bank, now| {
            assert_eq!(values(bank), (11, 21), "an update was lost");
            // a report at its limit may wait for its pause
            check_end(bank, now, Duration::from_millis(25));
            let metrics = bank.metrics();
            let carried = metrics.carried.min(metrics.carried_reports);
            both.fetch_add(carried, Ordering::Relaxed);
        },
    );
    println!("{runs} schedules");
    assert!(both.load(Ordering::Relaxed) > 0);
}

/// A renewal while an update waits for another one: the end of that one wakes it, by the numbers of the new history.
#[test]
fn renewals_of_waiting_updates() {
    let holds: Body = |bank| {
        bank.transact_stepwise(0, |update| {
            update.add("a", 1)?;
            for _ in 0..2 {
                bank.transact(0, |inner| inner.add("c", 1))?;
            }
            update.add("b", 1)
        })
        .expect("it commits");
    };
    let waits: Body = |bank| {
        bank.transact_stepwise(0, |update| update.add("a", 1))
            .expect("it commits");
    };
    let both = Arc::new(AtomicU64::new(0));
    let runs = explore(
        Depth::coarse(2),
        || (bank(1), vec![holds, waits]),
        |bank, now| {
            assert_eq!(values(bank), (12, 21), "an update was lost");
            check_end(bank, now, PROMPT);
            both.fetch_add(u64::from(bank.metrics().carried > 1), Ordering::Relaxed);
        },
    );
    println!("{runs} schedules");
    assert!(both.load(Ordering::Relaxed) > 0);
}

/// With one more update of one item (a begin, a read, a write and a commit) the log of a bank without reports is dropped.
const LAST: usize = MAX_LOGGED / 4 - 1;

/// Returns a bank after this number of updates.
fn updated(updates: usize) -> Arc<Bank> {
    let bank = Bank::builder().items([("a", 0), ("b", 0)]).open();
    let bank = bank.expect("two items");
    for _ in 0..updates {
        bank.transact(0, |update| update.add("a", 1))
            .expect("it commits");
    }
    Arc::new(bank)
}

/// Audits a report on the second engine, as the bank's own engine does.
fn audit(bank: &Bank) -> Finding {
    let read = |report: &mut BankQuery<'_, '_>| Ok((report.read("a")?, report.read("b")?));
    let (_, report) = bank.report_unaudited(9, read).expect("it commits");
    let finding = bank.audit(report).expect("it has committed");
    let explained = bank.explain(report).expect("it has committed");
    let end = format!("distance {} import {}\n", finding.distance, finding.import);
    assert!(explained.ends_with(&end), "{explained}{finding}");
    assert!(finding.is_exact());
    finding
}

/// First reports while the log becomes too long: in each schedule the second engine audits them, and the bank is renewed at
/// most once, before the first of them begins.
#[test]
fn first_reports() {
    let grows: Body = |bank| {
        for _ in 0..2 {
            bank.transact(9, |update| update.add("a", 1))
                .expect("it commits");
        }
    };
    let slow: Body = |bank| {
        bank.transact_stepwise(9, |update| {
            update.add("a", 1)?;
            update.add("b", 1)
        })
        .expect("it commits");
    };
    let reports: Body = |bank| _ = audit(bank);
    let all = [(); 2].map(|()| AtomicU64::new(0));
    for bodies in [
        vec![grows, reports],
        vec![slow, reports],
        vec![reports, reports],
    ] {
        for updates in [LAST - 1, LAST] {
            let runs = explore(
                Depth::coarse(2),
                || (updated(updates), bodies.clone()),
                |bank, now| {
                    check_end(bank, now, PROMPT);
                    let metrics = bank.metrics();
                    assert!(metrics.audits > 0);
                    assert_eq!(metrics.background_audits, metrics.audits);
                    all[metrics.renewals as usize].fetch_add(1, Ordering::Relaxed);
                },
            );
            println!("{runs} schedules");
        }
    }
    assert!(all.iter().all(|count| count.load(Ordering::Relaxed) > 0));
}

/// Reports that begin seldom are audited by the second engine, after a separate renewal.
#[test]
fn rare_reports() {
    let bank = updated(1);
    for reports in 1..4 {
        audit(&bank);
        let metrics = bank.metrics();
        assert_eq!(
            (metrics.audits, metrics.background_audits),
            (reports, reports)
        );
        let renewals = (reports - 1) * (u64::from(QUIET) + 3);
        assert_eq!(metrics.renewals, renewals);
        for _ in 0..QUIET + 2 {
            bank.renew(&mut bank.lock()).expect("memory");
        }
    }
}

/// Without a thread audits hold the lock and nothing is logged, until the next renewal; then another thread is tried.
#[test]
fn a_thread_that_cannot_be_started() {
    for updates in [LAST, LAST + 1] {
        let bank = updated(updates);
        let usual = STACK.replace(usize::MAX / 4);
        let counts = || {
            let metrics = bank.metrics();
            let has_thread = bank.twin.as_ref().expect("it may have one").has_started();
            (metrics.renewals, metrics.background_audits, has_thread)
        };
        audit(&bank);
        assert_eq!(counts(), (0, 0, false));
        STACK.set(usual);
        audit(&bank);
        assert_eq!(counts(), (0, 0, false));
        bank.renew(&mut bank.lock()).expect("memory");
        bank.transact(9, |update| update.add("b", 1))
            .expect("it commits");
        assert_eq!(audit(&bank).before.len(), 1);
        assert_eq!(counts(), (1, 1, true));
    }
}

/// With an observer a blocked update is woken too, although the observer consumes a wake-up, and its refusal names the
/// transaction that blocks it, also when a renewal follows.
#[test]
fn observed_blocks() {
    struct Names;
    impl Observer for Names {
        fn blocked(&self, transaction: &Observed<'_>, refused: &Refused) {
            let other = match transaction.name {
                Some("holds") => "waits",
                _ => "holds",
            };
            assert_eq!(refused.other.as_deref(), Some(other), "{refused:?}");
            // as if it waited for a lock
            park_timeout(Duration::from_micros(1));
        }
    }
    let holds: Body = |bank| {
        bank.transact_stepwise(Options::limit(0).name("holds"), |update| {
            update.add("a", 1)?;
            for _ in 0..2 {
                bank.transact(0, |inner| inner.add("c", 1))?;
            }
            Ok(())
        })
        .expect("it commits");
    };
    let holds_shortly: Body = |bank| {
        let options = Options::limit(0).name("holds");
        bank.transact_stepwise(options, |update| update.add("a", 1))
            .expect("it commits");
    };
    let waits: Body = |bank| {
        let options = Options::limit(0).name("waits");
        bank.transact_stepwise(options, |update| update.add("a", 1))
            .expect("it commits");
    };
    for (used, holds, switches) in [(1, holds, 2), (0, holds_shortly, 3)] {
        let runs = explore(
            Depth::coarse(switches),
            || {
                let builder = Bank::builder().observer(Names);
                (opened(builder, used), vec![holds, waits])
            },
            |bank, now| {
                assert_eq!(values(bank), (12, 20), "an update was lost");
                check_end(bank, now, PROMPT);
            },
        );
        println!("{runs} schedules");
    }
}

/// The value of item `a` in a store.
#[derive(Clone, Default)]
struct Kept(Arc<Mutex<i64>>);

impl Store for Kept {
    fn open(&mut self, items: &[(&str, i64)]) -> Result<Vec<(String, i64)>, Error> {
        *self.0.lock().unwrap() = items[0].1;
        let values = items.iter().map(|(name, value)| (name.to_string(), *value));
        Ok(values.collect())
    }

    fn write(&mut self, _: u64, changes: &[Change<'_>]) -> Result<(), StoreError> {
        for change in changes.iter().filter(|change| change.name == "a") {
            *self.0.lock().unwrap() = change.new;
        }
        Ok(())
    }

    fn resolve(&mut self, _: u64) -> Result<bool, StoreError> {
        Ok(true)
    }

    fn close(&mut self) {}
}

/// A body that fails because of a value returns its error when the store has that value: an update is in the queue of the
/// store before another thread can see its writes.
#[test]
fn a_store_has_what_a_body_has_read() {
    struct Shared {
        bank: Bank,
        kept: Kept,
    }
    enum Failed {
        Because(i64),
        Engine(Error),
    }
    impl From<Error> for Failed {
        fn from(error: Error) -> Failed {
            Failed::Engine(error)
        }
    }
    let fails: fn(&Shared) = |shared| {
        let body = |update: &mut BankUpdate<'_, '_>| {
            let seen = update.read("a")?;
            Err::<(), _>(Failed::Because(seen))
        };
        match shared.bank.try_transact(0, body) {
            Err(Failed::Because(seen)) => {
                // the value falls
                assert!(
                    *shared.kept.0.lock().unwrap() <= seen,
                    "the store lacks {seen}"
                );
            }
            Err(Failed::Engine(error)) => panic!("{error}"),
            Ok(()) => unreachable!("the body fails"),
        }
    };
    let whole: fn(&Shared) = |shared| shared.bank.transact(0, transfer).expect("it commits");
    let stepwise: fn(&Shared) = |shared| {
        let done = shared.bank.transact_stepwise(0, transfer);
        done.expect("it commits");
    };
    for moves in [whole, stepwise] {
        let test = || {
            let kept = Kept::default();
            let builder = Bank::builder().items([("a", 10), ("b", 20)]);
            let builder = builder.background_audits(false).store(kept.clone());
            let bank = builder.open().expect("two items");
            (Arc::new(Shared { bank, kept }), vec![moves, fails])
        };
        let runs = explore(Depth::fine(1), test, |shared, _| {
            assert_eq!(*shared.kept.0.lock().unwrap(), 9);
        });
        println!("{runs} schedules");
    }
}
