//! Compares eight threads that subtract from a counter (`balance -= 10`) with one thread: the median of five rounds.

use esr::{Bank, Error};
use std::{thread, time::Instant};

const TURNS: u32 = 400_000;

fn rate(threads: u32) -> f64 {
    let bank = Bank::builder()
        .item("balance", 0)
        .open()
        .expect("one item is within the limits");
    let begun = Instant::now();
    thread::scope(|scope| {
        for _ in 0..threads {
            scope.spawn(|| {
                for _ in 0..TURNS / threads {
                    bank.transact(10, |update| update.add("balance", -10))
                        .expect("it gets through");
                }
            });
        }
    });
    let taken = begun.elapsed().as_secs_f64();
    assert_eq!(
        bank.value("balance"),
        Ok(-10 * i64::from(TURNS / threads * threads))
    );
    f64::from(TURNS) / taken
}

fn main() -> Result<(), Error> {
    let mut shares: Vec<f64> = (1..=5)
        .map(|round| {
            let (one, eight) = (rate(1), rate(8));
            println!("round {round}: one thread {one:.0} a second, eight {eight:.0}");
            eight / one
        })
        .collect();
    shares.sort_by(f64::total_cmp);
    println!("eight threads do {:.2} of what one does", shares[2]);
    Ok(())
}
