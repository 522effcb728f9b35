//! Eight threads with panics, errors, deadlocks, reports and renewals: every committed update is in the script of one history,
//! exactly once, and no other update; no value is lost. Each script is accepted by `esr audit`, which `ESR_PROGRAM` names, or
//! else by another engine, with the distances, imports and sets that the bank had found, in the background or before a
//! renewal. `ESR_SOAK_SECONDS` is the duration, 2 by default.

use esr::{Bank, BankQuery, BankUpdate, Engine, Error, Event, Finding, Options, Report};
use std::{
    collections::{HashMap, HashSet},
    env, fs, panic,
    path::Path,
    process::Command,
    sync::{
        Mutex,
        mpsc::{Receiver, Sender, channel},
    },
    thread,
    time::{Duration, Instant},
};

const ITEMS: usize = 12;

/// A history at its end: its script, and the audits of its reports by their numbers.
struct Closed {
    script: String,
    findings: HashMap<String, String>,
}

/// What the scripts of all histories say.
#[derive(Default)]
struct Checked {
    histories: u64,
    /// The names of the committed updates.
    updates: HashSet<String>,
    /// The audits of committed reports, by their names.
    audits: HashMap<String, String>,
    /// The number of audits before renewals that were compared.
    compared: usize,
}

/// Returns a number that looks random.
fn draw(random: &mut u64, below: usize) -> usize {
    *random = random
        .wrapping_mul(6_364_136_223_846_793_005)
        .wrapping_add(1_442_695_040_888_963_407);
    (*random >> 33) as usize % below
}

/// Splits `NAME_5` into the name and the number.
fn split(txn: &str) -> (&str, &str) {
    txn.rsplit_once('_').expect("every transaction has a name")
}

/// Returns the names of the committed updates in a script.
fn committed(script: &str) -> Vec<&str> {
    let (mut updates, mut names) = (HashSet::new(), Vec::new());
    for line in script.lines() {
        let words: Vec<&str> = line.split(' ').collect();
        match words[..] {
            ["begin", txn, "update", _] => _ = updates.insert(txn),
            ["commit", txn] if updates.remove(txn) => names.push(split(txn).0),
            _ => {}
        }
    }
    names
}

/// Returns the audits of a script by `esr audit`: the reports, and their findings with the numbers of updates.
fn audited(program: &str, path: &Path) -> Vec<(String, String)> {
    let output = Command::new(program).arg("audit").arg(path).output();
    let output = output.expect("the program runs");
    assert!(output.status.success(), "esr audit: {}", output.status);
    let text = String::from_utf8(output.stdout).expect("it is ASCII");
    let audits = text.lines().filter_map(|line| line.strip_prefix("audit "));
    let audits = audits.filter_map(|line| line.split_once(' '));
    let numbered = |(name, rest): (&str, &str)| {
        let (sums, before) = rest.split_once(" before ").expect("it has three parts");
        let number = |txn| if txn == "-" { txn } else { split(txn).1 };
        let before: Vec<_> = before.split(',').map(number).collect();
        (name.into(), format!("{sums} before {}", before.join(",")))
    };
    audits.map(numbered).collect()
}

/// Returns the audits of a script by another engine, which executes it line by line.
fn replayed(script: &str) -> Vec<(String, String)> {
    let (mut items, mut opening, mut txns) = (HashMap::new(), Vec::new(), HashMap::new());
    let (mut engine, mut reports, mut queries) = (None, Vec::new(), HashSet::new());
    let number = |word: &str| word.parse::<i64>().expect("a number");
    for line in script.lines() {
        let words: Vec<&str> = line.split(' ').collect();
        if let ["item", name, value] = words[..] {
            items.insert(name, opening.len() as u32);
            opening.push(number(value));
            continue;
        }
        let open = || Engine::open(&opening).expect("the items are within the limits");
        let engine = engine.get_or_insert_with(open);
        let reply = engine.step(match words[..] {
            ["begin", name, kind, limit] => {
                let limit = number(limit) as u64;
                let begun = match kind {
                    "update" => engine.begin_update(limit),
                    _ => {
                        queries.insert(name);
                        engine.begin_query(limit)
                    }
                };
                txns.insert(name, begun.expect("it has capacity"));
                continue;
            }
            ["read", name, item] => Event::Read {
                txn: txns[name],
                item: items[item],
            },
            ["write", name, item, value] => Event::Write {
                txn: txns[name],
                item: items[item],
                value: number(value),
            },
            ["commit", name] => {
                reports.extend(queries.take(name));
                Event::Commit { txn: txns[name] }
            }
            ["abort", name] => Event::Abort { txn: txns[name] },
            _ => panic!("{line}"),
        });
        reply.expect("it has capacity");
    }
    let audit = |name: &str| {
        let engine = engine.as_mut().expect("it has events");
        let finding = engine.audit(txns[name]).expect("it has committed");
        (name.to_owned(), finding.to_string())
    };
    reports.into_iter().map(audit).collect()
}

/// Checks each history: no update has committed before, and the audits before the renewal are those of its script.
fn check(histories: &Receiver<Closed>, program: Option<&str>) -> Checked {
    let mut checked = Checked::default();
    let path = env::temp_dir().join(format!("esr-soak-{}.esr", std::process::id()));
    for Closed {
        script,
        mut findings,
    } in histories
    {
        checked.histories += 1;
        for name in committed(&script) {
            let is_new = checked.updates.insert(name.into());
            assert!(is_new, "{name} has committed twice");
        }
        let audits = match program {
            Some(program) => {
                fs::write(&path, &script).expect("the folder is writable");
                audited(program, &path)
            }
            None => replayed(&script),
        };
        for (txn, finding) in audits {
            let (name, number) = split(&txn);
            if let Some(found) = findings.remove(number) {
                assert_eq!(found, finding, "{txn}");
                checked.compared += 1;
            }
            checked.audits.insert(name.into(), finding);
        }
        assert!(findings.is_empty(), "no audits of {findings:?}");
    }
    let _ = fs::remove_file(path);
    checked
}

/// What a client has done.
#[derive(Default)]
struct Done {
    change: [i64; ITEMS],
    committed: HashSet<String>,
    failed: u64,
}

/// Moves money until the end.
fn client(bank: &Bank, names: &[String], id: u64, end: Instant) -> Done {
    let (mut random, mut count, mut done) = (id, 0, Done::default());
    while Instant::now() < end {
        let (from, to) = (draw(&mut random, ITEMS), draw(&mut random, ITEMS));
        let kind = draw(&mut random, 40);
        count += 1;
        let name = format!("c{id}x{count}");
        let options = Options::limit(1_000_000).name(name.clone());
        let body = |update: &mut BankUpdate<'_, '_>| {
            update.add(&names[from], -10)?;
            match kind {
                0 | 21 => panic!("as a body may"),
                1 | 20 => return Err(Error::BadNames),
                2..6 => thread::sleep(Duration::from_micros(100)),
                _ => {}
            }
            update.add(&names[to], 10).map(drop)
        };
        // step by step, two transfers in opposite directions deadlock
        let run = || match kind % 4 {
            0 => bank.transact_stepwise(options, body),
            _ => bank.transact(options, body),
        };
        match panic::catch_unwind(panic::AssertUnwindSafe(run)) {
            Ok(Ok(())) => {
                done.change[from] -= 10;
                done.change[to] += 10;
                done.committed.insert(name);
            }
            Ok(Err(error)) => {
                assert_eq!((error, kind % 19), (Error::BadNames, 1));
                done.failed += 1;
            }
            Err(_) => {
                assert_eq!(kind % 21, 0);
                done.failed += 1;
            }
        }
        thread::sleep(Duration::from_micros(30));
    }
    done
}

/// What a clerk has done.
#[derive(Default)]
struct Reports {
    count: u64,
    /// The reports that were audited at once, by their names.
    audits: Vec<(String, Finding)>,
    /// The last report that was not audited, and its sum.
    last: Option<(String, i64, Report)>,
}

/// Sums all accounts some times a second until the end, and audits every report at once, or none.
fn clerk(bank: &Bank, names: &[String], audits: bool, end: Instant) -> Reports {
    let mut reports = Reports::default();
    while Instant::now() < end {
        let sum = |report: &mut BankQuery<'_, '_>| {
            let mut sum = 0;
            for name in names {
                sum += report.read(name)?;
                thread::sleep(Duration::from_micros(20));
            }
            Ok(sum)
        };
        reports.count += 1;
        let name = format!("{}{}", if audits { 'a' } else { 'u' }, reports.count);
        let options = Options::limit(1_000_000).name(name.clone());
        if audits {
            let (sum, finding) = bank.report(options, sum).expect("it commits");
            assert!(sum.abs_diff(1000 * ITEMS as i64) <= finding.distance);
            reports.audits.push((name, finding));
        } else {
            let (sum, report) = bank.report_unaudited(options, sum).expect("it commits");
            reports.last = Some((name, sum, report));
        }
        thread::sleep(Duration::from_millis(150));
    }
    reports
}

/// Opens a bank that passes on its histories.
fn opened(names: &[String], sender: Sender<Closed>) -> Bank {
    let sender = Mutex::new(sender);
    Bank::builder()
        .items(names.iter().map(|name| (name, 1000)))
        .background_audits(true)
        .before_renewal(move |closing| {
            let due = closing.due().to_vec().into_iter();
            let findings = due.filter_map(|report| {
                let finding = closing.audit(report).expect("it has committed");
                // a report that was carried over a renewal has a bound only
                let is_exact = finding.is_exact();
                is_exact.then(|| (report.to_string(), finding.to_string()))
            });
            let findings = findings.collect();
            let script = closing.script().expect("memory");
            let sender = sender.lock().expect("no panic");
            sender
                .send(Closed { script, findings })
                .expect("the test receives");
        })
        .open()
        .expect("the items are within the limits")
}

/// Runs six clients and two clerks.
fn run(bank: &Bank, names: &[String], end: Instant) -> (Vec<Done>, Reports) {
    thread::scope(|threads| {
        let clients = (1..=6).map(|id| threads.spawn(move || client(bank, names, id, end)));
        let clients: Vec<_> = clients.collect();
        let clerks =
            [true, false].map(|audits| threads.spawn(move || clerk(bank, names, audits, end)));
        let all = clients.into_iter().map(|client| client.join());
        let all = all.map(|done| done.expect("no panic")).collect();
        let [audited, unaudited] = clerks.map(|clerk| clerk.join().expect("no panic"));
        let reports = Reports {
            count: audited.count + unaudited.count,
            audits: audited.audits,
            last: unaudited.last,
        };
        (all, reports)
    })
}

/// Audits the last report that was not, if its history is the last one.
fn audit_last(bank: &Bank, reports: &mut Reports) {
    let Some((name, sum, report)) = reports.last.take() else {
        return;
    };
    match bank.audit(report) {
        Ok(finding) => {
            assert!(sum.abs_diff(1000 * ITEMS as i64) <= finding.distance);
            reports.audits.push((name, finding));
        }
        Err(error) => assert_eq!(error, Error::ReportExpired),
    }
}

/// Compares what the bank has counted and its values with what its callers have done.
fn check_bank(bank: &Bank, names: &[String], all: &[Done], reports: u64) {
    let metrics = bank.metrics();
    let committed: usize = all.iter().map(|done| done.committed.len()).sum();
    let failed: u64 = all.iter().map(|done| done.failed).sum();
    assert_eq!(metrics.updates, committed as u64);
    assert_eq!((metrics.reports, metrics.aborts), (reports, failed));
    for (n, name) in names.iter().enumerate() {
        let change: i64 = all.iter().map(|done| done.change[n]).sum();
        assert_eq!(bank.value(name), Ok(1000 + change));
    }
    assert_eq!((metrics.active, metrics.failed_renewals), (0, 0));
    println!("{metrics:?}");
}

#[test]
fn every_history_is_accepted() {
    let seconds = env::var("ESR_SOAK_SECONDS").map_or(2, |text| text.parse().expect("a number"));
    let program = env::var("ESR_PROGRAM").ok();
    let names: Vec<String> = (0..ITEMS).map(|n| format!("account{n}")).collect();
    let (sender, histories) = channel();
    let bank = opened(&names, sender.clone());
    let end = Instant::now() + Duration::from_secs(seconds);
    panic::set_hook(Box::new(|info| {
        let text = info.to_string();
        if !text.contains("as a body may") {
            eprintln!("{text}");
        }
    }));
    let checker = thread::spawn(move || check(&histories, program.as_deref()));
    let (all, mut reports) = run(&bank, &names, end);
    audit_last(&bank, &mut reports);
    check_bank(&bank, &names, &all, reports.count);
    let (script, findings) = (bank.script().expect("memory"), HashMap::new());
    let last = Closed { script, findings };
    sender.send(last).expect("the test receives");
    drop(sender);
    let metrics = bank.metrics();
    drop(bank); // and with it the other sender
    let checked = checker.join().expect("no panic");
    let committed: HashSet<String> = all.into_iter().flat_map(|done| done.committed).collect();
    assert!(!committed.is_empty());
    assert!(
        checked.updates == committed,
        "the scripts have other updates than the callers"
    );
    reports.audits.retain(|(_, finding)| finding.is_exact());
    for (name, finding) in &reports.audits {
        let found = checked.audits.get(name);
        assert_eq!(found, Some(&finding.to_string()), "{name}");
    }
    let compared = checked.compared + reports.audits.len();
    println!(
        "{} histories, {compared} audits compared",
        checked.histories
    );
    if seconds >= 10 {
        let events = [metrics.deadlocks, metrics.reruns, metrics.aborts];
        let renewals = [metrics.renewals, metrics.carried, metrics.background_audits];
        assert!(!events.contains(&0) && !renewals.contains(&0));
    }
}
