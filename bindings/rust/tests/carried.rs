//! Reports and updates that outlive their history: a renewal carries them over, and nothing waits for them.
//! `ESR_SOAK_SECONDS` is the duration of the soak test, 2 by default.

use esr::{Bank, Error, MAX_ENTRIES, Options, Patience, Refusal};
use std::{
    env, panic,
    sync::{Arc, Barrier, Mutex},
    thread,
    time::{Duration, Instant},
};

const LARGE: u64 = 1_000_000_000;

/// Runs small updates in another thread until the bank has this number of renewals.
fn renew(bank: &Bank, renewals: u64) {
    let count = || {
        while bank.renewals() < renewals {
            bank.transact(0, |update| update.add("hits", 1))
                .expect("nothing is in its way");
        }
    };
    thread::scope(|threads| threads.spawn(count).join().expect("no panic"));
}

/// A report reads one item, outlives three histories of updates, and reads another item. It is off by at most its finding
/// from one of the states that the updates have left.
#[test]
fn a_report_outlives_three_histories() -> Result<(), Error> {
    for background_audits in [false, true] {
        let builder = Bank::builder().item("a", 1_000).item("b", 0);
        let bank = builder.background_audits(background_audits).open()?;
        let mut states = vec![(1_000, 0)];
        let (values, finding) = bank.report(LARGE, |report| {
            let a = report.read("a")?;
            while bank.renewals() < 3 {
                let (last_a, last_b) = states[states.len() - 1];
                let state = (last_a - 1, last_b + 2);
                bank.transact(LARGE, |update| {
                    update.write("a", state.0)?;
                    update.write("b", state.1)
                })?;
                states.push(state);
            }
            let active = &bank.active()[0];
            assert_eq!((active.limit, active.charged), (LARGE, report.charged()));
            Ok((a, report.read("b")?))
        })?;
        let off = |(a, b): &(i64, i64)| values.0.abs_diff(*a) + values.1.abs_diff(*b);
        let least = states.iter().map(off).min().expect("it has a state");
        assert!(0 < least && least <= finding.distance, "{least}, {finding}");
        // each update has changed the item that it has read by 1
        assert_eq!(
            (finding.import, finding.renewals),
            (states.len() as u64 - 1, 3)
        );
        assert_eq!(finding.distance, finding.import);
        assert!(!finding.is_exact() && finding.before.is_empty());
        let metrics = bank.metrics();
        assert_eq!((metrics.carried_reports, metrics.carried), (3, 0));
        // the next report is of one history again
        let (_, next) = bank.report(0, |report| report.read("b"))?;
        assert!(next.is_exact() && next.distance == 0);
    }
    Ok(())
}

/// The limit of a report is that over all histories: after a renewal it has only the rest.
#[test]
fn a_limit_is_over_all_histories() -> Result<(), Error> {
    let bank = Bank::builder().item("a", 10).item("hits", 0).open()?;
    let short = Patience::of(Duration::from_millis(5));
    let (_, finding) = bank.report(Options::limit(3).name("sum"), |report| {
        report.read("a")?;
        bank.transact(9, |update| update.add("a", 2))?;
        for renewals in 1..=2 {
            renew(&bank, renewals);
            let patient = Options::limit(9).patience(short);
            let blocked = bank.transact(patient, |update| update.add("a", 2));
            let Err(Error::Refused(refused)) = blocked else {
                panic!("{blocked:?}");
            };
            assert!(matches!(refused.reason, Refusal::BlockedByImport(_)));
            assert_eq!(
                (refused.limit, refused.other.as_deref()),
                (Some(3), Some("sum"))
            );
            assert_eq!(report.charged(), 2);
        }
        bank.transact(9, |update| update.add("a", 1))?;
        Ok(())
    })?;
    assert_eq!((finding.import, finding.renewals), (3, 2));
    assert_eq!(
        finding.to_string(),
        "distance at most 3 import 3 renewals 2"
    );
    Ok(())
}

/// A strict report that is carried over a renewal is off by at most its import from a state after its begin.
#[test]
fn a_strict_report_is_carried() -> Result<(), Error> {
    let bank = Bank::builder().item("a", 10).item("hits", 0).open()?;
    bank.transact(0, |update| update.write("a", 20))?;
    let (value, finding) = bank.strict_report(0, |report| {
        renew(&bank, 1);
        report.read("a")
    })?;
    assert_eq!((value, finding.distance, finding.renewals), (20, 0, 1));
    Ok(())
}

/// An update that holds two locks over two renewals keeps them, and commits.
#[test]
fn an_update_holds_its_locks_over_two_renewals() -> Result<(), Error> {
    let items = [("a", 1), ("b", 2), ("hits", 0)];
    let bank = Bank::builder().items(items).open()?;
    let options = Options::limit(0).patience(Patience::of(Duration::from_millis(5)));
    bank.transact(0, |first| first.add("hits", 1))?;
    bank.transact_stepwise(Options::limit(LARGE).name("slow"), |slow| {
        slow.read("a")?;
        slow.write("b", 20)?;
        for renewals in 1..=2 {
            renew(&bank, renewals);
            for item in ["a", "b"] {
                let blocked = bank.transact_stepwise(options.clone(), |other| other.write(item, 0));
                let Err(Error::Refused(refused)) = blocked else {
                    panic!("{blocked:?}");
                };
                assert!(matches!(refused.reason, Refusal::BlockedByLock(_)));
                assert_eq!(refused.other.as_deref(), Some("slow"));
            }
            assert_eq!((slow.read("a")?, slow.read("b")?), (1, 20));
            assert_eq!(bank.value("b")?, 2);
        }
        slow.write("a", 10)
    })?;
    assert_eq!(bank.snapshot_in_order()?[..2], [10, 20]);
    assert_eq!(bank.metrics().carried, 2);
    Ok(())
}

/// The second engine follows a renewal: its audits consider what carried updates have read and written.
#[test]
fn background_audits_follow_a_renewal() -> Result<(), Error> {
    let items = [("read", 0), ("wrote", 0), ("later", 0), ("hits", 0)];
    let bank = Bank::builder()
        .items(items)
        .background_audits(true)
        .open()?;
    let met = Barrier::new(2);
    let finding = thread::scope(|threads| {
        let slow = threads.spawn(|| {
            bank.transact_stepwise(LARGE, |slow| {
                slow.read("read")?;
                slow.write("wrote", 1)?;
                met.wait(); // it has its locks
                met.wait(); // the report has read
                slow.write("later", 1)
            })
        });
        met.wait();
        renew(&bank, 1);
        let (values, finding) = bank.report(LARGE, |report| {
            let later = report.read("later")?;
            met.wait();
            while bank.value("wrote")? == 0 {
                thread::yield_now();
            }
            bank.transact(LARGE, |update| update.write("read", 5))?;
            Ok([later, report.read("read")?, report.read("wrote")?])
        })?;
        assert_eq!(values, [0, 5, 1]);
        slow.join().expect("no panic")?;
        Ok::<_, Error>(finding)
    })?;
    // the update that wrote 5 comes after the carried one, which had read the item
    assert_eq!((finding.distance, finding.before.len()), (1, 2));
    assert_eq!(bank.metrics().background_audits, 1);
    Ok(())
}

/// Work before a renewal sees the reports of the old history that are due. A report that is still active is not among them:
/// it is due in its last history, with its bound.
#[test]
fn a_carried_report_is_due_once() -> Result<(), Error> {
    let seen = Arc::new(Mutex::new(Vec::new()));
    let closed = seen.clone();
    let bank = Bank::builder()
        .items([("a", 0), ("hits", 0)])
        .before_renewal(move |closing| {
            let mut findings = Vec::new();
            for report in closing.due().to_vec() {
                let finding = closing.audit(report).expect("it has committed");
                let explained = closing.explain(report).expect("memory");
                assert_eq!(
                    finding.is_exact(),
                    !explained.starts_with(&finding.to_string())
                );
                let has_bundle = closing.bundle(report).is_ok();
                assert_eq!(has_bundle, finding.is_exact());
                let has_picture = closing.picture(report).is_ok();
                assert_eq!(has_picture, finding.is_exact());
                findings.push(finding.to_string());
            }
            closed.lock().expect("no panic").push(findings);
        })
        .open()?;
    let ((), report) = bank.report_unaudited(9, |report| {
        report.read("a")?;
        bank.report_unaudited(9, |early| early.read("a"))?;
        bank.transact(9, |update| update.add("a", 4))?;
        renew(&bank, 1);
        Ok(())
    })?;
    let renewals = 1;
    assert_eq!(bank.bundle(report), Err(Error::ReportCarried { renewals }));
    assert_eq!(bank.picture(report), Err(Error::ReportCarried { renewals }));
    renew(&bank, 2);
    let seen = seen.lock().expect("no panic");
    assert_eq!(seen[0], ["distance 0 import 0 before -"]);
    assert_eq!(seen[1], ["distance at most 4 import 4 renewals 1"]);
    assert_eq!(bank.audit(report), Err(Error::ReportExpired));
    Ok(())
}

/// If nearly all entries are of one active update, a renewal frees nothing: others continue while there is capacity, then wait
/// for its end, and are woken.
#[test]
fn a_history_full_of_one_update() -> Result<(), Error> {
    let items = [("a", 0), ("hits", 0)];
    let bank = Bank::builder().items(items).open()?;
    let ended = thread::scope(|threads| {
        let other = bank.transact_stepwise(0, |slow| {
            for _ in 0..MAX_ENTRIES - 11_000 {
                slow.read("a")?;
            }
            let other = threads.spawn(|| {
                let mut longest = Duration::ZERO;
                for _ in 0..2_000 {
                    let begun = Instant::now();
                    bank.transact(0, |update| update.add("hits", 1))
                        .expect("it continues after the update");
                    longest = longest.max(begun.elapsed());
                }
                longest
            });
            thread::sleep(Duration::from_millis(200));
            assert!(!other.is_finished());
            Ok(other)
        })?;
        Ok::<_, Error>(other.join().expect("no panic"))
    })?;
    assert!(ended < Duration::from_secs(9), "it was not woken");
    assert_eq!(bank.value("hits")?, 2_000);
    Ok(())
}

/// If nearly all entries are of one active update, a renewal frees nothing, so no begin tries it.
#[test]
fn a_renewal_that_frees_nothing_is_not_tried() -> Result<(), Error> {
    let builder = Bank::builder().items([("a", 0), ("hits", 0)]);
    let builder = builder.try_before_renewal(|_| Err("it was tried".into()));
    let bank = builder.open()?;
    bank.transact_stepwise(0, |slow| {
        for _ in 0..MAX_ENTRIES / 10 * 9 {
            slow.read("a")?;
        }
        for _ in 0..3 {
            bank.transact(0, |update| update.add("hits", 1))?;
        }
        Ok(())
    })?;
    let metrics = bank.metrics();
    assert_eq!((metrics.failed_renewals, metrics.renewals), (0, 0));
    assert_eq!(bank.value("hits")?, 3);
    Ok(())
}

/// A history with a carried transaction is renewed early, because a renewal that searches a full history takes long. Once the
/// transaction has ended, a history is as long as before.
#[test]
fn histories_with_carried_transactions_are_short() -> Result<(), Error> {
    let bank = Bank::builder().items([("a", 0), ("hits", 0)]).open()?;
    let length = |renewals| -> Result<u64, Error> {
        let mut longest = 0;
        while bank.renewals() < renewals {
            longest = bank.counts()?.entries;
            bank.transact(0, |update| update.add("hits", 1))?;
        }
        Ok(longest)
    };
    let full = length(1)?;
    bank.report(0, |report| {
        report.read("a")?;
        assert!(length(2)?.abs_diff(full) < 100);
        for renewals in 3..6 {
            assert!(length(renewals)? < full / 2);
        }
        Ok(())
    })?;
    assert!(length(6)?.abs_diff(full) < 100);
    assert_eq!(bank.value("hits")?, bank.metrics().updates as i64);
    Ok(())
}

/// Refused events fill a history without any begin. Then the next event renews it.
#[test]
fn refused_events_do_not_stop_an_update() -> Result<(), Error> {
    let bank = Bank::builder().item("a", 0).open()?;
    bank.transact_stepwise(0, |slow| {
        slow.write("a", 1)?;
        for _ in 0..MAX_ENTRIES {
            let refused = slow.write("a", i64::MAX).map_err(|why| why.refusal());
            assert_eq!(refused, Err(Some(Refusal::ValueOutOfRange)));
        }
        assert_eq!(slow.read("a")?, 1);
        slow.write("a", 3)
    })?;
    assert_eq!((bank.value("a")?, bank.renewals()), (3, 1));
    Ok(())
}

const ACCOUNTS: usize = 8;
const SUM: i64 = 1_000 * ACCOUNTS as i64;

/// The changes of the accounts, and their number.
type Changes = ([i64; ACCOUNTS], u64);

/// A bank of accounts, and two items of the slow updates.
struct Soak {
    bank: Bank,
    names: Vec<String>,
    end: Instant,
}

impl Soak {
    fn new() -> Soak {
        let names: Vec<String> = (0..ACCOUNTS).map(|n| format!("account{n}")).collect();
        let builder = Bank::builder().items(names.iter().map(|name| (name, 1_000)));
        let bank = builder.items([("x", 0), ("y", 0)]).open();
        let seconds =
            env::var("ESR_SOAK_SECONDS").map_or(2, |text| text.parse().expect("a number"));
        Soak {
            bank: bank.expect("ten items are within the limits"),
            names,
            end: Instant::now() + Duration::from_secs(seconds),
        }
    }

    fn left(&self) -> Duration {
        self.end.saturating_duration_since(Instant::now())
    }

    /// Moves money at full speed. Some bodies fail or panic between their events, and step by step two transfers in opposite
    /// directions deadlock.
    fn client(&self, mut random: u64) -> Changes {
        let mut draw = |below: usize| {
            random = random
                .wrapping_mul(6_364_136_223_846_793_005)
                .wrapping_add(1);
            (random >> 33) as usize % below
        };
        let (mut change, mut count) = ([0; ACCOUNTS], 0);
        while !self.left().is_zero() {
            let (from, to, kind) = (draw(ACCOUNTS), draw(ACCOUNTS), draw(200));
            let moved = |update: &mut esr::BankUpdate<'_, '_>| {
                update.add(&self.names[from], -1)?;
                match kind {
                    0 | 1 => panic!("as a body may"),
                    2 | 3 => return Err(Error::BadNames),
                    4..12 => thread::sleep(Duration::from_micros(100)),
                    _ => {}
                }
                update.add(&self.names[to], 1).map(drop)
            };
            let run = || match kind % 2 {
                0 if kind < 40 => self.bank.transact_stepwise(LARGE, moved),
                _ => self.bank.transact(LARGE, moved),
            };
            match panic::catch_unwind(panic::AssertUnwindSafe(run)) {
                Ok(Ok(())) => {
                    change[from] -= 1;
                    change[to] += 1;
                    count += 1;
                }
                Ok(Err(error)) => assert_eq!((error, kind / 2), (Error::BadNames, 1)),
                Err(_) => assert_eq!(kind / 2, 0, "another panic than that of a body"),
            }
        }
        (change, count)
    }

    /// Sums the accounts, each time for a share of the time that is left. Returns the maximum number of renewals of a report.
    fn clerk(&self, share: u32) -> u64 {
        let mut renewals = 0;
        while !self.left().is_zero() {
            let pause = self.left() / (share * ACCOUNTS as u32);
            let report = self.bank.report(10 * LARGE, |report| {
                let mut sum = 0;
                for name in &self.names {
                    sum += report.read(name)?;
                    thread::sleep(pause);
                }
                Ok(sum)
            });
            let (sum, finding) = report.expect("its limit is never met");
            assert!(sum.abs_diff(SUM) <= finding.distance, "{sum}, {finding}");
            assert!(finding.distance <= finding.import);
            renewals = finding.renewals.max(renewals);
        }
        renewals
    }

    /// Holds two locks again and again. Returns how often.
    fn slow(&self) -> i64 {
        let mut count = 0;
        while !self.left().is_zero() {
            let result = self.bank.transact_stepwise(0, |slow| {
                slow.add("x", 1)?;
                let y = slow.add("y", 1)?;
                thread::sleep(Duration::from_millis(400));
                assert_eq!(slow.read("y")?, y);
                Ok(())
            });
            result.expect("it has its locks");
            count += 1;
        }
        count
    }
}

/// Five threads move money at full speed, with panics, errors and deadlocks, next to two threads of reports and one of updates
/// that outlive many histories: the sum that a report returns is off by at most its finding, and nothing is lost.
#[test]
fn a_soak_next_to_long_transactions() {
    panic::set_hook(Box::new(|info| {
        let text = info.to_string();
        if !text.contains("as a body may") {
            eprintln!("{text}");
        }
    }));
    let soak = &Soak::new();
    let (all, renewals, slows) = thread::scope(|threads| {
        let clerks = [2, 20].map(|share| threads.spawn(move || soak.clerk(share)));
        let slow = threads.spawn(|| soak.slow());
        let clients = (1..=5).map(|seed| threads.spawn(move || soak.client(seed)));
        let clients: Vec<_> = clients.collect();
        let all = clients
            .into_iter()
            .map(|client| client.join().expect("no panic"));
        let all: Vec<Changes> = all.collect();
        (
            all,
            clerks.map(|clerk| clerk.join().expect("no panic")),
            slow.join().expect("no panic"),
        )
    });
    let bank = &soak.bank;
    for (n, name) in soak.names.iter().enumerate() {
        let change: i64 = all.iter().map(|(change, _)| change[n]).sum();
        assert_eq!(bank.value(name), Ok(1_000 + change));
    }
    assert_eq!((bank.value("x"), bank.value("y")), (Ok(slows), Ok(slows)));
    let metrics = bank.metrics();
    let committed: u64 = all.iter().map(|(_, count)| count).sum();
    assert_eq!(metrics.updates, committed + slows as u64);
    assert_eq!((metrics.active, metrics.failed_renewals), (0, 0));
    println!("{renewals:?} renewals of a report, {metrics:?}");
}
