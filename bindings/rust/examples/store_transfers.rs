//! Transfers between accounts that are kept in an SQLite file: `store_transfers PATH`. It runs until it is killed, and prints
//! whatever its calls return. `checks/store/rust_kills.py` kills it, and compares the file with these lines.
//!
//! The n-th transfer of a thread follows from the thread and n. It sets the thread's counter to n along with two accounts.

use esr::{Bank, BankUpdate, Error, SqliteStore};
use std::{env, error, process, thread, time::Duration};

const THREADS: usize = 8;
const ACCOUNTS: usize = 24;
const OPENING: i64 = 1000;
const LIMIT: u64 = 1_000_000_000;

/// Returns the giving and the taking account of a transfer, and the amount.
fn transfer_of(thread: usize, number: u64) -> (usize, usize, i64) {
    let seed = thread as u64 * 1_000_000_000 + number;
    let mixed = seed.wrapping_mul(0x9e37_79b9_7f4a_7c15);
    let mixed = (mixed ^ (mixed >> 32)).wrapping_mul(0xd6e8_feb8_6659_fd93) >> 16;
    let giver = mixed as usize % ACCOUNTS;
    let taker = (giver + 1 + (mixed >> 8) as usize % (ACCOUNTS - 1)) % ACCOUNTS;
    (giver, taker, (mixed >> 16) as i64 % 99 + 1)
}

/// The bank with the names of its items: the counters of the threads, then the accounts.
struct Load(Bank, Vec<String>);

impl Load {
    /// Makes the transfers of a thread. Every fourth runs step by step.
    fn tell(&self, thread: usize) -> Result<(), Error> {
        let Load(bank, names) = self;
        for number in bank.value(&names[thread])? as u64 + 1.. {
            let (giver, taker, amount) = transfer_of(thread, number);
            let body = |update: &mut BankUpdate<'_, '_>| {
                for (account, more) in [(giver, -amount), (taker, amount)] {
                    update.add(&names[THREADS + account], more)?;
                }
                update.write(&names[thread], number as i64)
            };
            match number % 4 {
                0 => bank.transact_stepwise(LIMIT, body)?,
                _ => bank.transact(LIMIT, body)?,
            }
            println!("answered {thread} {number}");
        }
        Ok(())
    }

    /// Prints by how much the sum of the accounts is off, the distance and the charges, and the counters if these are exact.
    fn print(&self, word: &str, values: &[i64], distance: u64, charged: u64) {
        let (counters, accounts) = values.split_at(THREADS);
        let off = (accounts.iter().sum::<i64>()).abs_diff(OPENING * ACCOUNTS as i64);
        let seen = |value: &i64| if distance == 0 { *value } else { 0 }.to_string();
        let seen: Vec<String> = counters.iter().map(seen).collect();
        println!("{word} {off} {distance} {charged} {}", seen.join(" "));
    }

    /// Prints a report, a snapshot, and the error of a body that fails with what it has read.
    fn watch(&self) -> Result<(), Error> {
        let (values, finding) = self.0.report(LIMIT, |report| report.read_all(&self.1))?;
        self.print("report", &values, finding.distance, finding.import);
        self.print("snapshot", &self.0.snapshot_in_order()?, 0, 0);
        let failed = self.0.try_transact(0, |update| {
            let mut seen = String::new();
            for name in &self.1[..THREADS] {
                seen += &format!(" {}", update.read(name)?);
            }
            Err::<(), Box<dyn error::Error>>(seen.into())
        });
        println!("exception 0 0 0{}", failed.unwrap_err());
        Ok(())
    }
}

/// Repeats a call, and ends the program when one fails.
fn repeat(pause: Duration, call: impl Fn() -> Result<(), Error>) {
    while call().map_err(|why| eprintln!("{why}")).is_ok() {
        thread::sleep(pause);
    }
    process::exit(1);
}

fn main() -> Result<(), Error> {
    let path = env::args().nth(1).expect("usage: store_transfers PATH");
    let counters = (0..THREADS).map(|number| (format!("done{number}"), 0));
    let accounts = (0..ACCOUNTS).map(|number| (format!("a{number}"), OPENING));
    let items: Vec<(String, i64)> = counters.chain(accounts).collect();
    let names = items.iter().map(|(name, _)| name.clone()).collect();
    let bank = Bank::builder().items(items).store(SqliteStore::new(path));
    let load = &Load(bank.open()?, names);
    println!("open");
    thread::scope(|scope| {
        for thread in 0..THREADS {
            scope.spawn(move || repeat(Duration::ZERO, || load.tell(thread)));
        }
        for pause in [4, 5, 6].map(Duration::from_millis) {
            scope.spawn(move || repeat(pause, || load.watch()));
        }
    });
    Ok(())
}
