//! Errors and refusals, a full history, renewal, and updates of several threads.

use esr::{Engine, Error, Event, MAX_ENTRIES, Patience, Refusal, Reply, Standing, Txn, transact};
use std::{
    error, panic,
    sync::Mutex,
    thread,
    time::{Duration, Instant},
};

/// Returns the reason of a refusal.
fn refusal<T>(result: &Result<T, Error>) -> Option<Refusal> {
    let error = result.as_ref().err();
    error.and_then(Error::refusal)
}

#[test]
fn an_engine_goes_to_another_thread() {
    fn sends<T: Send>(_: &T) {}
    let engine = Engine::open(&[7]).unwrap();
    sends(&engine);
    let read = thread::spawn(move || {
        let mut engine = engine;
        let txn = engine.begin_update(0).unwrap();
        engine.read(txn, 0)
    });
    assert_eq!(read.join().unwrap(), Ok(7));
}

#[test]
fn errors_and_refusals_by_name() {
    let count = 4097;
    let many = Engine::open(&[0; 4097]).unwrap_err();
    assert_eq!(many, Error::TooManyItems { count });
    assert_eq!(
        Engine::open(&[1_000_000_000_001]).unwrap_err(),
        Error::ValueOutOfRange {
            item: "0".into(),
            value: 1_000_000_000_001
        }
    );
    let mut engine = Engine::open(&[0]).unwrap();
    let first = engine.begin_update(0).unwrap();
    let second = engine.begin_update(0).unwrap();
    engine.write(first, 0, 5).unwrap();
    let blocked = engine.write(second, 0, 6).unwrap_err();
    assert_eq!(blocked.refusal(), Some(Refusal::BlockedByLock(first)));
    assert_eq!(
        blocked.to_string(),
        "refused: blocked by a lock of 1 at item 0"
    );
    let source = error::Error::source(&blocked).map(ToString::to_string);
    assert_eq!(source.as_deref(), Some("blocked by a lock of 1"));
    assert_eq!(engine.audit(first).unwrap_err(), Error::NotACommittedQuery);
    assert_eq!(engine.bundle(first).unwrap_err(), Error::NotACommittedQuery);
    assert_eq!(engine.renew().unwrap_err(), Error::TransactionActive);
    let read = Event::Read {
        txn: first,
        item: 1,
    };
    assert_eq!(engine.step(read), Ok(Reply::Refused(Refusal::NoSuchItem)));
}

#[test]
fn a_full_history_is_renewed() {
    let mut engine = Engine::open(&[3, 4]).unwrap();
    let txn = engine.begin_update(0).unwrap();
    engine.write(txn, 1, 5).unwrap();
    engine.commit(txn).unwrap();
    while engine.step(Event::Commit { txn }).is_ok() {}
    assert_eq!(engine.totals().entries, MAX_ENTRIES);
    assert_eq!(engine.begin_update(0), Err(Error::HistoryFull));
    engine.renew().unwrap();
    assert_eq!(engine.totals().entries, 0);
    assert_eq!(engine.values(), Ok(vec![3, 5]));
    assert_eq!(engine.begin_update(0).map(Txn::number), Ok(1));
}

#[test]
fn lists_longer_than_the_first_room() {
    let mut engine = Engine::open(&[0; 4096]).unwrap();
    for i in 0..40 {
        let txn = engine.begin_update(0).unwrap();
        engine.write(txn, 0, i + 1).unwrap();
        engine.commit(txn).unwrap();
    }
    let query = engine.begin_query(0).unwrap();
    assert_eq!(engine.read(query, 0), Ok(40));
    engine.commit(query).unwrap();
    let finding = engine.audit(query).unwrap();
    assert_eq!((finding.distance, finding.before.len()), (0, 40));
    assert_eq!(engine.bundle(query).unwrap().last(), Some(&b'}'));
    assert_eq!(engine.values().unwrap().len(), 4096);
}

/// A report between the halves of a transfer: its explanation to the byte, its picture and its row; and why there is none.
#[test]
fn a_report_is_explained() {
    let mut engine = Engine::open(&[500, 1500]).unwrap();
    let transfer = engine.begin_update(200).unwrap();
    let report = engine.begin_query(200).unwrap();
    engine.write(transfer, 0, 400).unwrap();
    engine.read(report, 0).unwrap();
    let names = ["checking", "savings"];
    assert_eq!(
        engine.explain(report, &names),
        Err(Error::NotACommittedQuery)
    );
    engine.commit(report).unwrap();
    engine.commit(transfer).unwrap();
    assert_eq!(engine.explain(report, &names[..1]), Err(Error::BadNames));
    assert_eq!(
        engine.explain(report, &names).unwrap(),
        "read checking 400 nearest 500 off 100\n\
         charge read t1 checking amount 100 step 4 import left 100 of 200 export left 100 of 200\n\
         before -\nafter -\ndistance 100 import 100\n"
    );
    let picture = engine.picture(report, &names).unwrap();
    assert!(picture.starts_with("<svg") && picture.ends_with("</svg>\n"));
    let row = "2,t2,query,200,100,100,1,0,0,0,0,committed,100,4,7";
    assert_eq!(engine.ledger().unwrap().lines().nth(2), Some(row));
}

#[test]
fn transact_gives_up_and_aborts() {
    let bank = Mutex::new(Engine::open(&[0]).unwrap());
    let holder = bank.lock().unwrap().begin_update(0).unwrap();
    bank.lock().unwrap().write(holder, 0, 1).unwrap();
    // long enough for a second run on a busy machine
    let patience = Patience::of(Duration::from_millis(400));
    let (begun, mut runs) = (Instant::now(), 0);
    let answer = transact(&bank, 0, patience, |update| {
        runs += 1;
        update.read(0)
    });
    assert_eq!(refusal(&answer), Some(Refusal::BlockedByLock(holder)));
    assert!(runs > 1 && begun.elapsed() >= Duration::from_millis(400));
    let mut engine = bank.into_inner().unwrap();
    // The holder is still active, and each attempt was aborted.
    let counts = engine.counts();
    assert_eq!((counts.transactions, counts.active), (1 + runs, 1));
    engine.commit(holder).unwrap();
    assert_eq!(engine.renew(), Ok(()));
}

/// Without patience an event is tried once.
#[test]
fn transact_without_patience() {
    let bank = Mutex::new(Engine::open(&[0]).unwrap());
    let holder = bank.lock().unwrap().begin_update(0).unwrap();
    bank.lock().unwrap().write(holder, 0, 1).unwrap();
    let none = Patience::of(Duration::ZERO);
    let answer = transact(&bank, 0, none, |update| update.read(0));
    assert_eq!(refusal(&answer), Some(Refusal::BlockedByLock(holder)));
    // Two entries of the holder, and a begin, a blocked read and an abort.
    assert_eq!(bank.into_inner().unwrap().totals().entries, 2 + 3);
}

/// The refusal of a nested transaction is the body's own error, and is not retried.
#[test]
fn transact_answers_what_another_was_told() {
    let bank = Mutex::new(Engine::open(&[0]).unwrap());
    let short = Patience::of(Duration::from_millis(20));
    let mut runs = 0;
    let answer = transact(&bank, 0, Patience::default(), |update| {
        runs += 1;
        update.write(0, 1)?;
        transact(&bank, 0, short, |other| other.write(0, 2))
    });
    assert!(matches!(refusal(&answer), Some(Refusal::BlockedByLock(_))));
    assert_eq!(
        (runs, bank.into_inner().unwrap().values()),
        (1, Ok(vec![0]))
    );
}

/// An update waits for a slow transaction, however often it must restart to do so.
#[test]
fn transact_waits_for_whoever_is_slow() {
    let bank = Mutex::new(Engine::open(&[0]).unwrap());
    let holder = bank.lock().unwrap().begin_update(0).unwrap();
    bank.lock().unwrap().write(holder, 0, 1).unwrap();
    thread::scope(|threads| {
        threads.spawn(|| {
            thread::sleep(Duration::from_millis(300));
            bank.lock().unwrap().commit(holder).unwrap();
        });
        let answer = transact(&bank, 0, Patience::default(), |update| update.read(0));
        assert_eq!(answer, Ok(1));
    });
}

#[test]
fn transact_aborts_where_the_body_panics() {
    let bank = Mutex::new(Engine::open(&[0]).unwrap());
    let panicked = panic::catch_unwind(|| {
        transact(
            &bank,
            0,
            Patience::default(),
            |update| -> Result<(), Error> {
                update.write(0, 1)?;
                panic!("in the body");
            },
        )
    });
    assert!(panicked.is_err());
    let mut engine = bank.into_inner().unwrap();
    assert_eq!(engine.renew(), Ok(()));
    assert_eq!(engine.values(), Ok(vec![0]));
}

#[test]
fn four_threads_count_together() {
    let bank = Mutex::new(Engine::open(&[0; 2]).unwrap());
    thread::scope(|threads| {
        for k in 0..4u32 {
            let bank = &bank;
            threads.spawn(move || {
                for _ in 0..100 {
                    transact(bank, 0, Patience::default(), |update| {
                        for item in [k % 2, 1 - k % 2] {
                            let value = update.read(item)?;
                            update.write(item, value + 1)?;
                        }
                        Ok(())
                    })
                    .unwrap();
                }
            });
        }
    });
    assert_eq!(bank.into_inner().unwrap().values(), Ok(vec![400, 400]));
}

/// Read for update acquires the lock, so a second one is refused and holds no lock that blocks the first.
#[test]
fn read_for_update_excludes_others() {
    let mut engine = Engine::open(&[3]).unwrap();
    let (first, second) = (
        engine.begin_update(0).unwrap(),
        engine.begin_update(0).unwrap(),
    );
    assert_eq!(engine.read_for_update(first, 0), Ok(3));
    assert_eq!(
        refusal(&engine.read_for_update(second, 0)),
        Some(Refusal::BlockedByLock(first))
    );
    engine.write(first, 0, 4).unwrap();
    engine.commit(first).unwrap();
    assert_eq!(engine.read_for_update(second, 0), Ok(4));
    let account = engine.account(first).unwrap();
    assert_eq!(
        (account.is_query, account.standing, account.charged),
        (false, Standing::Committed, 0)
    );
    assert_eq!(
        (engine.counts().transactions, engine.counts().active),
        (2, 1)
    );
    assert_eq!(engine.renew(), Err(Error::TransactionActive));
    engine.renew_aborting().unwrap();
    assert_eq!(
        engine.account(second).unwrap_err(),
        Error::NotBegun { txn: second }
    );
    assert_eq!(engine.values(), Ok(vec![4]));
}
