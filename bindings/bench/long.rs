//! A long transaction next to threads that update at full speed, and the same threads without it.
//!
//! usage: long report|update|none THREADS SECONDS
//!
//! Two banks take turns: in each slice of time the threads move amounts between items of one of them, and the first one has
//! the long transaction. So both banks are measured at the same load of the machine. The transaction lasts for twice the
//! given time, of which the threads spend half in its bank. A `report` sums items, one after another through its whole time,
//! and the threads change these and others; an `update` holds two locks. With `none` both banks are alike, which shows the
//! error of the measurement.
//!
//! The sum of the items is constant, so it is that of each state that the updates leave. At the end the report must be off from
//! it by at most its finding, and no update may be lost.

use esr::{Bank, Error, Finding, Item};
use std::{
    env,
    sync::atomic::{AtomicUsize, Ordering},
    thread,
    time::{Duration, Instant},
};

/// The items that the report sums. A report reads at most 1,000 times.
const SUMMED: usize = 600;
/// The items that the report does not read.
const OTHERS: usize = 1_400;
const OPENING: i64 = 1_000_000;
const LIMIT: u64 = 1_000_000_000_000_000_000;
/// The time after which the other bank takes its turn.
const SLICE: Duration = Duration::from_millis(250);
/// Calls that take longer are counted.
const LONG: Duration = Duration::from_millis(5);
/// Latencies are counted in tenths of microseconds, up to this number of them.
const COUNTED: usize = 200_000;

/// A bank with its items.
struct Side {
    bank: Bank,
    items: Vec<Item>,
}

impl Side {
    fn open() -> Side {
        let names: Vec<String> = (0..SUMMED + OTHERS).map(|n| format!("i{n}")).collect();
        let builder = Bank::builder().items(names.iter().map(|name| (name, OPENING)));
        let builder = builder.items([("x", 0), ("y", 0)]);
        let bank = builder.open().expect("the items are within the limits");
        let items = names.iter().map(|name| bank.item(name).expect("it has this item"));
        let items = items.collect();
        Side { bank, items }
    }

    fn total(&self) -> i64 {
        let values = self.bank.snapshot_in_order().expect("memory");
        values[..SUMMED + OTHERS].iter().sum()
    }
}

/// The updates of one bank: their number in each slice, and their latencies.
#[derive(Clone)]
struct Tally {
    slices: Vec<u64>,
    latencies: Vec<u64>,
    longest: Duration,
    long: u64,
}

impl Tally {
    fn new(slices: usize) -> Tally {
        Tally {
            slices: vec![0; slices],
            latencies: vec![0; COUNTED],
            longest: Duration::ZERO,
            long: 0,
        }
    }

    fn count(&mut self, slice: usize, time: Duration) {
        self.slices[slice] += 1;
        self.latencies[(time.as_nanos() / 100).min(COUNTED as u128 - 1) as usize] += 1;
        self.longest = self.longest.max(time);
        self.long += u64::from(time > LONG);
    }

    fn add(&mut self, other: &Tally) {
        for (mine, more) in self.slices.iter_mut().zip(&other.slices) {
            *mine += more;
        }
        for (mine, more) in self.latencies.iter_mut().zip(&other.latencies) {
            *mine += more;
        }
        self.longest = self.longest.max(other.longest);
        self.long += other.long;
    }

    fn updates(&self) -> u64 {
        self.slices.iter().sum()
    }

    /// Returns the latency that this share of the updates does not exceed, in microseconds.
    fn percentile(&self, share: f64) -> f64 {
        let mut left = (self.updates() as f64 * share) as u64;
        let place = self.latencies.iter().position(|count| {
            let is_here = left < *count;
            left = left.saturating_sub(*count);
            is_here
        });
        place.unwrap_or(COUNTED) as f64 / 10.0
    }
}

fn next_below(state: &mut u64, span: usize) -> usize {
    *state ^= *state << 13;
    *state ^= *state >> 7;
    *state ^= *state << 17;
    ((*state >> 32) as usize * span) >> 32
}

/// Moves amounts between two items that the report sums, or two others, in the bank of the current slice. Returns the tallies
/// of both banks.
fn work(sides: &[Side; 2], id: u64, slice: &AtomicUsize, slices: usize) -> [Tally; 2] {
    let mut tallies = [Tally::new(slices), Tally::new(slices)];
    let mut state = 88_172_645_463_325_252 + 7919 * id;
    loop {
        let now = slice.load(Ordering::Relaxed);
        if now == slices {
            return tallies;
        }
        let Side { bank, items } = &sides[now % 2];
        let items = match next_below(&mut state, 2) {
            0 => &items[..SUMMED],
            _ => &items[SUMMED..],
        };
        let (from, to) = (next_below(&mut state, items.len()), next_below(&mut state, items.len()));
        let amount = 1 + next_below(&mut state, 100) as i64;
        let begun = Instant::now();
        let moved = bank.transact(LIMIT, |update| {
            update.add(items[from], -amount)?;
            update.add(items[to], amount)
        });
        tallies[now % 2].count(now, begun.elapsed());
        moved.expect("it commits");
    }
}

/// Sleeps until a share of a time has passed.
fn wait(begun: Instant, time: Duration, share: f64) {
    thread::sleep(time.mul_f64(share).saturating_sub(begun.elapsed()));
}

/// Sums the items, evenly through a time. Returns the sum and the finding.
fn sum(side: &Side, time: Duration) -> (i64, Finding) {
    let begun = Instant::now();
    let result = side.bank.report(LIMIT, |report| {
        let mut sum = 0;
        for (n, item) in side.items[..SUMMED].iter().enumerate() {
            sum += report.read(*item)?;
            wait(begun, time, (n + 1) as f64 / SUMMED as f64);
        }
        Ok(sum)
    });
    result.expect("its limit is never met")
}

/// Holds two locks for a time, and reads its items from time to time. Returns how often it has run.
fn hold(side: &Side, time: Duration) -> Result<u64, Error> {
    let (begun, mut runs) = (Instant::now(), 0);
    side.bank.transact_stepwise(LIMIT, |update| {
        runs += 1;
        let written = (update.add("x", 1)?, update.add("y", 1)?);
        for n in 0..100 {
            wait(begun, time, f64::from(n + 1) / 100.0);
            assert_eq!((update.read("x")?, update.read("y")?), written, "it lost a write");
        }
        Ok(())
    })?;
    Ok(runs)
}

/// Runs the long transaction of the first bank, and describes its end.
fn run_long(kind: &str, side: &Side, time: Duration) -> String {
    match kind {
        "report" => {
            let (sum, finding) = sum(side, time);
            let off = sum.abs_diff(OPENING * SUMMED as i64);
            assert!(off <= finding.distance, "{off} is more than {finding}");
            let exact = if finding.is_exact() { "exact" } else { "at most" };
            let Finding { distance, renewals, .. } = finding;
            format!("the report: off by {off} from the sum of each state; its finding: {exact} {distance}, renewals {renewals}")
        }
        "update" => {
            let runs = hold(side, time).expect("it has its locks");
            assert_eq!((side.bank.value("x"), side.bank.value("y")), (Ok(1), Ok(1)));
            let carried = side.bank.metrics().carried;
            format!("the update: carried over {carried} renewals with its locks, in {runs} run(s)")
        }
        _ => {
            thread::sleep(time);
            "no long transaction".into()
        }
    }
}

/// Checks that a bank has lost nothing, and prints the speed of its updates and of its renewals.
fn print_side(name: &str, side: &Side, tally: &Tally, time: Duration) {
    let metrics = side.bank.metrics();
    assert_eq!(side.total(), OPENING * (SUMMED + OTHERS) as i64, "an amount was lost");
    assert_eq!(metrics.optimistic_updates, tally.updates(), "an update was lost");
    let milliseconds = |time: Duration| time.as_secs_f64() * 1000.0;
    let mean = milliseconds(metrics.renewing) / metrics.renewals.max(1) as f64;
    println!(
        "{name}: {:.0} updates a second; p50 {:.1} us, p99.9 {:.1} us, longest {:.2} ms, {} over 5 ms of {}; {} renewals, mean \
         {mean:.2} ms, longest {:.2} ms",
        tally.updates() as f64 / time.as_secs_f64(),
        tally.percentile(0.5),
        tally.percentile(0.999),
        milliseconds(tally.longest),
        tally.long,
        tally.updates(),
        metrics.renewals,
        milliseconds(metrics.longest_renewal),
    );
}

/// Prints the rate of the first bank as a share of the other one's, over all and of adjacent slices.
fn print_ratio(tallies: &[Tally; 2], times: &[Duration], totals: [Duration; 2]) {
    let rate = |slice: usize| tallies[slice % 2].slices[slice] as f64 / times[slice].as_secs_f64();
    let mut ratios: Vec<f64> = (0..times.len()).step_by(2).map(|n| rate(n) / rate(n + 1)).collect();
    ratios.sort_unstable_by(f64::total_cmp);
    let all = |n: usize| tallies[n].updates() as f64 / totals[n].as_secs_f64();
    let quantile = |share: f64| ratios[((ratios.len() - 1) as f64 * share) as usize];
    println!(
        "with / without: {:.3}; of {} pairs of slices the median is {:.3}, the quartiles {:.3} and {:.3}",
        all(0) / all(1),
        ratios.len(),
        quantile(0.5),
        quantile(0.25),
        quantile(0.75),
    );
}

/// Runs the threads and the long transaction. Returns the tallies of the threads, the times of the slices, and the description
/// of the long transaction.
fn run(kind: &str, threads: u64, sides: &[Side; 2], slices: usize) -> (Vec<[Tally; 2]>, Vec<Duration>, String) {
    let slice = &AtomicUsize::new(0);
    thread::scope(|scope| {
        let workers = (0..threads).map(|id| scope.spawn(move || work(sides, id, slice, slices)));
        let workers: Vec<_> = workers.collect();
        let long = scope.spawn(|| run_long(kind, &sides[0], SLICE * slices as u32));
        let mut times = Vec::new();
        for next in 1..=slices {
            let begun = Instant::now();
            thread::sleep(SLICE);
            slice.store(next, Ordering::Relaxed);
            times.push(begun.elapsed());
        }
        let tallies = workers.into_iter().map(|worker| worker.join().expect("no panic"));
        (tallies.collect(), times, long.join().expect("no panic"))
    })
}

fn main() {
    let words: Vec<String> = env::args().collect();
    let threads: u64 = words[2].parse().expect("a number of threads");
    let seconds: f64 = words[3].parse().expect("a number of seconds");
    let slices = 2 * (seconds / SLICE.as_secs_f64()).ceil() as usize;
    let sides = [Side::open(), Side::open()];
    let (mut all, times, described) = run(&words[1], threads, &sides, slices);
    let mut tallies = all.pop().expect("a thread");
    for others in &all {
        tallies[0].add(&others[0]);
        tallies[1].add(&others[1]);
    }
    let totals = [0, 1].map(|first| times.iter().skip(first).step_by(2).sum());
    print_side("with   ", &sides[0], &tallies[0], totals[0]);
    print_side("without", &sides[1], &tallies[1], totals[1]);
    print_ratio(&tallies, &times, totals);
    println!("{described}");
}
