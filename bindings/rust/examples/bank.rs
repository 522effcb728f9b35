//! A bank: tellers move money between accounts, each in a separate thread, while a report adds up all accounts. No
//! lock blocks the report, which may be off by at most its limit; afterwards its audit shows the exact error.

use esr::{Engine, Error, Patience, Txn, transact};
use std::{error, sync::Mutex, thread, time::Duration};

const ACCOUNTS: u32 = 8;
const OPENING: i64 = 1000;
const LIMIT: u64 = 100;

/// Moves 10 from one account to another, a few hundred times.
fn teller(bank: &Mutex<Engine>, mut random: u32) -> Result<(), Error> {
    for _ in 0..300 {
        random = random.wrapping_mul(1_103_515_245).wrapping_add(12_345);
        let from = random / 65_536 % ACCOUNTS;
        let to = (from + 1 + random / 1_024 % (ACCOUNTS - 1)) % ACCOUNTS;
        transact(bank, LIMIT, Patience::default(), |update| {
            let taken = update.read_for_update(from)? - 10;
            update.write(from, taken)?;
            thread::sleep(Duration::from_micros(20)); // while the money is in neither account
            let given = update.read_for_update(to)? + 10;
            update.write(to, given)
        })?;
    }
    Ok(())
}

/// Adds up all accounts. Restarts if its limit is reached.
fn report(bank: &Mutex<Engine>) -> Result<(Txn, i64), Error> {
    loop {
        let query = bank.lock().unwrap().begin_query(LIMIT)?;
        let sum: Result<i64, Error> = (0..ACCOUNTS)
            .map(|account| {
                thread::sleep(Duration::from_micros(80));
                bank.lock().unwrap().read(query, account)
            })
            .sum();
        match sum {
            Ok(sum) => return bank.lock().unwrap().commit(query).map(|()| (query, sum)),
            Err(Error::Refused(why)) if why.reason.may_pass_later() => {
                bank.lock().unwrap().abort(query)?;
                thread::sleep(Duration::from_micros(50));
            }
            Err(error) => return Err(error),
        }
    }
}

fn main() -> Result<(), Box<dyn error::Error>> {
    let bank = Mutex::new(Engine::open(&[OPENING; ACCOUNTS as usize])?);
    let (query, sum) = thread::scope(|threads| {
        let tellers = [1, 2, 3].map(|seed| {
            threads.spawn({
                let bank = &bank;
                move || teller(bank, seed)
            })
        });
        let report = threads.spawn(|| report(&bank));
        for teller in tellers {
            teller.join().expect("a teller does not panic")?;
        }
        report.join().expect("the report does not panic")
    })?;
    let mut bank = bank.into_inner()?;
    let finding = bank.audit(query)?;
    println!(
        "the report added up to {sum}, was charged {}, and is {} from the state after {} transfers",
        finding.import,
        finding.distance,
        finding.before.len()
    );
    assert!(finding.distance <= finding.import && finding.import <= LIMIT);
    assert!((sum - 8 * OPENING).unsigned_abs() <= finding.distance);
    println!("its bundle has {} bytes", bank.bundle(query)?.len());
    bank.renew()?;
    let sum: i64 = bank.values()?.iter().sum();
    println!("the accounts add up to {sum}");
    assert_eq!((sum, bank.totals().entries), (8 * OPENING, 0));
    Ok(())
}
