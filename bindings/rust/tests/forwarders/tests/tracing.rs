//! Each event of a bank becomes the span or event of `tracing` that the documentation lists, with its fields.

use esr::{Bank, Error, MAX_TRANSACTIONS, Options, Patience};
use forwarders::{Traces, recorded};
use std::{mem, panic, sync::atomic::AtomicBool, sync::atomic::Ordering, time::Duration};

fn bank() -> Bank {
    let builder = Bank::builder().items([("checking", 500), ("savings", 1500)]);
    builder
        .observer(Traces)
        .open()
        .expect("two items are within the limits")
}

/// Returns the lines that a function records. Times that differ from run to run are replaced by `..`.
fn lines(run: impl FnOnce() -> Result<(), Error>) -> Vec<String> {
    let lines = recorded(|| run().expect("it succeeds"));
    lines.into_iter().map(without_times).collect()
}

fn without_times(line: String) -> String {
    let word = |word: &str| match word.split_once('=') {
        Some((name @ ("time" | "waited"), time)) if time != "0ns" => {
            assert!(time.ends_with('s'), "{time} is not a time");
            format!("{name}=..")
        }
        _ => word.to_owned(),
    };
    line.split(' ').map(word).collect::<Vec<_>>().join(" ")
}

fn opened(span: u64, id: u64, kind: &str, limit: u64, name: &str) -> String {
    format!(
        "{span} opened: INFO esr transaction kind=\"{kind}\" limit={limit}{name} transaction={id}"
    )
}

/// The end of a transaction whose span has the same number.
fn ended(
    id: u64,
    level: &str,
    outcome: &str,
    retries: u64,
    waited: &str,
    charged: u64,
) -> [String; 6] {
    [
        format!("{id} recorded: outcome=\"{outcome}\""),
        format!("{id} recorded: retries={retries}"),
        format!("{id} recorded: waited={waited}"),
        format!("{id} recorded: charged={charged}"),
        format!(
            "{id} event: {level} esr charged={charged} message=ended outcome=\"{outcome}\" retries={retries} \
             transaction={id} waited={waited}"
        ),
        format!("{id} closed"),
    ]
}

/// A named update, a report inside it, and a strict report.
#[test]
fn transactions_and_audits() {
    let lines = lines(|| {
        let bank = bank();
        bank.transact_stepwise(Options::limit(90).name("fee"), |update| {
            update.add("checking", -10)?;
            bank.report(30, |report| report.read("checking"))
        })?;
        bank.strict_report(7, |report| report.read("savings"))?;
        Ok(())
    });
    let audited = |span: u64, charged: u64, distance: u64| {
        format!(
            "{span} event: DEBUG esr background=true charged={charged} distance={distance} message=audited time=.."
        )
    };
    let mut expected = vec![
        opened(1, 1, "update", 90, " name=\"fee\""),
        opened(2, 2, "report", 30, ""),
    ];
    expected.push(audited(2, 10, 10));
    expected.extend(ended(2, "DEBUG", "committed", 0, "0ns", 10));
    expected.extend(ended(1, "DEBUG", "committed", 0, "0ns", 10));
    expected.push(opened(3, 3, "strict report", 7, ""));
    expected.push(audited(3, 0, 0));
    expected.extend(ended(3, "DEBUG", "committed", 0, "0ns", 0));
    assert_eq!(lines, expected);
}

/// An update that is blocked until its patience ends, which fails; one that is overtaken; and one whose body panics.
#[test]
fn updates_that_do_not_run_once() {
    let lines = lines(|| {
        let bank = bank();
        bank.transact_stepwise(7, |update| {
            update.add("checking", 1)?;
            let other = Options::limit(8).patience(Patience::of(Duration::from_millis(2)));
            bank.transact_stepwise(other, |other| other.read("checking"))
                .unwrap_err();
            Ok(())
        })?;
        let mut is_first = true;
        bank.transact(9, |update| {
            update.read("checking")?;
            if mem::take(&mut is_first) {
                bank.transact(10, |other| other.write("checking", 5))?;
            }
            update.write("checking", 6)
        })?;
        let quiet = panic::take_hook();
        panic::set_hook(Box::new(|_| {}));
        let body = || bank.transact(11, |_| -> Result<(), Error> { panic!("as a body may") });
        panic::catch_unwind(panic::AssertUnwindSafe(body)).unwrap_err();
        panic::set_hook(quiet);
        Ok(())
    });
    let mut expected = vec![opened(1, 1, "update", 7, ""), opened(2, 2, "update", 8, "")];
    let blocked = "reason=blocked by a lock of 1 at item checking transaction=2";
    expected.push(format!("2 event: DEBUG esr message=blocked {blocked}"));
    expected.extend(ended(2, "WARN", "failed", 0, "..", 0));
    expected.extend(ended(1, "DEBUG", "committed", 0, "0ns", 0));
    expected.extend([
        opened(3, 3, "update", 9, ""),
        opened(4, 4, "update", 10, ""),
    ]);
    expected.extend(ended(4, "DEBUG", "committed", 0, "0ns", 0));
    let reason = "reason=overtaken: other updates changed what was read";
    expected.push(format!(
        "3 event: DEBUG esr message=restarted {reason} transaction=3"
    ));
    expected.extend(ended(3, "DEBUG", "committed", 1, "0ns", 0));
    expected.push(opened(5, 5, "update", 11, ""));
    expected.extend(ended(5, "ERROR", "panicked", 0, "0ns", 0));
    assert_eq!(lines, expected);
}

/// An update that waits for its own thread's other update, twice, is the victim of a deadlock.
#[test]
fn a_deadlock() {
    let lines = lines(|| {
        let bank = bank();
        let other = std::sync::Barrier::new(2);
        std::thread::scope(|threads| {
            // the older one: it has no spans here, because they are recorded on its own thread
            let older = threads.spawn(|| {
                bank.transact_stepwise(1, |update| {
                    update.add("checking", 1)?;
                    other.wait();
                    other.wait();
                    update.add("savings", 1)
                })
            });
            other.wait();
            let mut is_first = true;
            bank.transact_stepwise(2, |update| {
                update.add("savings", 2)?;
                if mem::take(&mut is_first) {
                    other.wait();
                }
                update.add("checking", 2)
            })?;
            older.join().expect("it does not panic")?;
            Ok(())
        })
    });
    let is = |text: &str| lines.iter().filter(|line| line.contains(text)).count();
    let victim = "1 event: WARN esr message=deadlock victim reason=blocked by a lock of 1 at item checking transaction=2";
    assert_eq!(
        (is(victim), is(" message=restarted ")),
        (1, 1),
        "{lines:#?}"
    );
    assert_eq!(is("1 recorded: retries=1"), 1);
    assert_eq!(lines.last().map(String::as_str), Some("1 closed"));
}

/// A renewal whose work fails, and one that is done.
#[test]
fn renewals() {
    static FAILS: AtomicBool = AtomicBool::new(true);
    let lines = lines(|| {
        let work = |_: &mut esr::Closing<'_>| match FAILS.load(Ordering::Relaxed) {
            true => Err("the disk is full".into()),
            false => Ok(()),
        };
        let builder = Bank::builder().item("checking", 0).observer(Traces);
        let bank = builder.try_before_renewal(work).open()?;
        for n in 0..MAX_TRANSACTIONS {
            if n == MAX_TRANSACTIONS - 1_000 {
                FAILS.store(false, Ordering::Relaxed);
                std::thread::sleep(Duration::from_millis(110));
            }
            bank.transact(1, |update| update.add("checking", 1))?;
        }
        Ok(())
    });
    let renewals: Vec<&str> = lines
        .iter()
        .filter(|line| line.contains("renew"))
        .map(String::as_str)
        .collect();
    let (last, failed) = renewals.split_last().expect("the history was full");
    assert!(
        last.ends_with(" event: INFO esr carried=0 carried_reports=0 message=renewed time=.."),
        "{last}"
    );
    assert!(!failed.is_empty());
    for line in failed {
        assert!(
            line.ends_with(" event: ERROR esr message=renewal failed reason=\"the disk is full\""),
            "{line}"
        );
    }
}
