//! A ledger service: clients in separate threads send transfers, some of which are refused for lack of money, while a
//! clerk, blocked by no lock, sums all accounts and checks the error bound of each sum. The output is stored in ledger.out
//! in the same folder.

use esr::{Bank, Error, Finding};
use std::{
    sync::{
        Mutex,
        atomic::{AtomicBool, Ordering},
    },
    thread,
};

const ACCOUNTS: [&str; 4] = ["anna", "bert", "carla", "dora"];
const OPENING: i64 = 200;

/// Why a transfer was not made.
#[derive(Debug)]
enum TransferError {
    /// The balance of the account, which is too small.
    TooLittle(i64),
    Engine(Error),
}

impl From<Error> for TransferError {
    fn from(error: Error) -> TransferError {
        TransferError::Engine(error)
    }
}

/// Moves an amount, if the balance suffices. Otherwise undoes its writes.
fn transfer(bank: &Bank, from: &str, to: &str, amount: i64) -> Result<(), TransferError> {
    bank.try_transact(2 * amount.unsigned_abs(), |update| {
        let left = update.add(from, -amount)?;
        if left < 0 {
            return Err(TransferError::TooLittle(left + amount));
        }
        update.add(to, amount)?;
        Ok(())
    })
}

/// Returns the sum of all accounts, and the finding of this report.
fn sum(bank: &Bank) -> Result<(i64, Finding), Error> {
    bank.report(5_000, |report| {
        ACCOUNTS.iter().map(|name| report.read(name)).sum()
    })
}

fn main() -> Result<(), Error> {
    let builder = ACCOUNTS.iter().fold(Bank::builder(), |builder, name| {
        builder.item(*name, OPENING)
    });
    let bank = builder.open()?;
    let (refused, open) = (Mutex::new(Vec::new()), AtomicBool::new(true));
    let worst = thread::scope(|threads| {
        let clerk = threads.spawn(|| {
            let mut worst = 0;
            while open.load(Ordering::Relaxed) {
                let (sum, finding) =
                    sum(&bank).expect("a sum of four accounts is within its limit");
                assert!(sum.abs_diff(OPENING * 4) <= finding.distance);
                worst = worst.max(finding.distance);
            }
            worst
        });
        let clients = [0usize, 1, 2].map(|client| {
            let (bank, refused) = (&bank, &refused);
            threads.spawn(move || {
                for turn in 0..2_000 {
                    let (from, to) = (ACCOUNTS[(client + 1 + turn % 3) % 4], ACCOUNTS[client]);
                    match transfer(bank, from, to, 70) {
                        Ok(()) => {}
                        Err(TransferError::TooLittle(has)) => refused.lock().unwrap().push(has),
                        Err(TransferError::Engine(error)) => panic!("{error}"),
                    }
                }
            })
        });
        for client in clients {
            client.join().expect("a client does not panic");
        }
        open.store(false, Ordering::Relaxed);
        clerk.join().expect("the clerk does not panic")
    });
    let (sum, finding) = sum(&bank)?;
    println!("in the end {sum}, off by {}", finding.distance);
    println!("no sum was off by more than its audit states");
    let refused = refused.into_inner().unwrap();
    println!(
        "most in an account at a refusal: {:?}",
        refused.iter().max()
    );
    eprintln!("{} refusals, sums off by {worst} at most", refused.len());
    Ok(())
}
