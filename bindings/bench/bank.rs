//! The load of `threads.h` over a `Bank`, with the same arguments and output, and three numbers more, in microseconds: the
//! longest transaction during the commit and audit of a report, the longest at other times, and the longest processor time
//! that the report's thread takes for its commit and audit. It holds the bank's lock for less than that. It compiles with
//! older versions of the crate, too: `--cfg locked` audits under the lock, and `--cfg stepwise` runs updates step by step.

use esr::{Bank, Error};
use std::{
    env,
    sync::atomic::{AtomicBool, AtomicUsize, Ordering},
    thread,
    time::{Duration, Instant},
};

const ITEMS: usize = 4096;
const LIMIT: u64 = 1_000_000_000_000_000_000;

/// The number of reports whose bodies have ended, and of those whose audits have ended.
static READ: AtomicUsize = AtomicUsize::new(0);
static AUDITED: AtomicUsize = AtomicUsize::new(0);

unsafe extern "C" {
    safe fn clock_gettime(clock: i32, time: &mut [i64; 2]) -> i32;
}

/// Returns the processor time of this thread.
fn processor_time() -> Duration {
    const OF_THREAD: i32 = 3;
    let mut time = [0; 2];
    clock_gettime(OF_THREAD, &mut time);
    Duration::new(time[0] as u64, time[1] as u32)
}

fn next_below(state: &mut u64, span: usize) -> usize {
    *state ^= *state << 13;
    *state ^= *state >> 7;
    *state ^= *state << 17;
    ((*state >> 32) as usize * span) >> 32
}

/// Runs transactions until the end. Returns their latencies in nanoseconds, and the longest: of those that overlap with the
/// end of a report, and of the others.
fn work(bank: &Bank, names: &[String], place: (usize, usize), is_hot: bool, ended: &AtomicBool) -> (Vec<u32>, [u32; 2]) {
    let (id, threads) = place;
    let (span, mut latencies, mut longest) = (ITEMS / threads, Vec::with_capacity(1 << 22), [0; 2]);
    let mut state = 88_172_645_463_325_252 + 7919 * id as u64;
    while !ended.load(Ordering::Relaxed) {
        let mut items = [0; 4];
        for (n, item) in items.iter_mut().enumerate() {
            *item = span * id + next_below(&mut state, span);
            if is_hot {
                *item = if n == 3 { 0 } else { (*item).max(1) };
            }
        }
        let body = |update: &mut esr::BankUpdate<'_, '_>| {
            for (n, item) in items.into_iter().enumerate() {
                let name = names[item].as_str();
                if is_hot && n == 3 {
                    update.add(name, 1)?;
                } else {
                    let value = update.read(name)?;
                    update.write(name, value + 1)?;
                }
            }
            Ok::<_, Error>(())
        };
        let audited = AUDITED.load(Ordering::SeqCst);
        let begun = Instant::now();
        #[cfg(not(stepwise))]
        let done = bank.transact(LIMIT, body);
        #[cfg(stepwise)]
        let done = bank.transact_stepwise(LIMIT, body);
        let nanoseconds = begun.elapsed().as_nanos().min(u32::MAX.into()) as u32;
        done.expect("it commits");
        latencies.push(nanoseconds);
        let longest = &mut longest[usize::from(READ.load(Ordering::SeqCst) == audited)];
        *longest = nanoseconds.max(*longest);
    }
    (latencies, longest)
}

/// Sums 1,000 items again and again. Returns the number of reports, the longest, and the longest processor time for the commit
/// and audit of one.
fn report(bank: &Bank, names: &[String], period: Duration, ended: &AtomicBool) -> (usize, [Duration; 2]) {
    let (mut count, mut longest, mut read) = (0, [Duration::ZERO; 2], Duration::ZERO);
    while !ended.load(Ordering::Relaxed) {
        let begun = Instant::now();
        let sum = bank.report(LIMIT, |report| {
            #[cfg(not(before))]
            let sum = report.read_all(names.iter().step_by(4).take(1000))?.iter().sum::<i64>();
            #[cfg(before)]
            let sum = names.iter().step_by(4).take(1000).map(|name| report.read(name)).sum::<Result<i64, Error>>()?;
            READ.store(count + 1, Ordering::SeqCst);
            read = processor_time();
            Ok::<_, Error>(sum)
        });
        let audited = processor_time() - read;
        AUDITED.store(count + 1, Ordering::SeqCst);
        let (_, finding) = sum.expect("it commits");
        assert!(finding.distance <= finding.import);
        longest = [longest[0].max(begun.elapsed()), longest[1].max(audited)];
        count += 1;
        thread::sleep(period.saturating_sub(begun.elapsed()));
    }
    (count, longest)
}

fn main() {
    let words: Vec<String> = env::args().collect();
    let is_hot = words[1] == "hot";
    let threads: usize = words[2].parse().expect("a number of threads");
    let time: f64 = words[3].parse().expect("a number of seconds");
    let period = Duration::from_millis(words[4].parse().expect("a number of milliseconds"));
    let names: Vec<String> = (0..ITEMS).map(|n| format!("i{n}")).collect();
    let builder = names.iter().fold(Bank::builder(), |builder, name| builder.item(name.clone(), 0));
    #[cfg(locked)]
    let builder = builder.background_audits(false);
    let bank = builder.open().expect("the items are within the limits");
    let ended = AtomicBool::new(false);
    let begun = Instant::now();
    let (mut latencies, longest, reports, taken) = thread::scope(|scope| {
        let (bank, names, ended) = (&bank, &names[..], &ended);
        let workers = (0..threads).map(|id| scope.spawn(move || work(bank, names, (id, threads), is_hot, ended)));
        let workers: Vec<_> = workers.collect();
        let reporter = (!period.is_zero()).then(|| scope.spawn(move || report(bank, names, period, ended)));
        thread::sleep(Duration::from_secs_f64(time));
        ended.store(true, Ordering::Relaxed);
        let (all, longest): (Vec<_>, Vec<[u32; 2]>) = workers.into_iter().map(|worker| worker.join().expect("no panic")).unzip();
        let taken = begun.elapsed();
        (all.concat(), longest, reporter.map(|reporter| reporter.join().expect("no panic")), taken)
    });
    let sum: i64 = names.iter().map(|name| bank.value(name.as_str()).expect("it is there")).sum();
    assert_eq!(sum, 4 * latencies.len() as i64, "a transaction was lost");
    latencies.sort_unstable();
    print!("{:.0}", latencies.len() as f64 / taken.as_secs_f64());
    for share in [0.5, 0.99, 0.999, 1.0] {
        let place = ((latencies.len() - 1) as f64 * share) as usize;
        print!(" {:.1}", f64::from(latencies[place]) / 1000.0);
    }
    let (count, [report, audit]) = reports.unwrap_or_default();
    let [pause, other] = [0, 1].map(|kind| longest.iter().map(|longest| longest[kind] / 1000).max().unwrap_or_default());
    println!(" {count} {} {pause} {other} {}", report.as_micros(), audit.as_micros());
}
