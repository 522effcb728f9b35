//! Turns on the processors: if more threads are busy with updates than there are processors, each of them yields its processor
//! after a quarter of a millisecond, between two updates.
//!
//! Otherwise the kernel takes the processor away after a slice, often 4 ms, and at that time the thread executes an update.
//! This update takes as long as the slices of the threads that run meanwhile; its reads may be stale when it continues; and if
//! it holds the lock, no thread makes progress. A thread that yields has read nothing and holds nothing. As all of them do so,
//! each waits for turns in place of slices: as much in total, but more often and for a sixteenth of the time.
//!
//! Only time depends on a yield. So the numbers here need not be exact, and all operations on them are relaxed. A thread that
//! yields stays runnable, so no wake-up can be lost.
//!
//! A thread is *busy* if its last turn had an update in each [`SLOW`] on average. Others do not yield, because they would give
//! the processor away just when they need it, and they do not count. A thread that was preempted in its turn may seem not to
//! be busy, which only makes its next turn longer. Processors and threads are those of the process, for all banks.
//!
//! Rejected: places for as many threads as there are processors, with a queue for the others. A body may wait for another
//! thread's update, so places would have to be taken from threads that keep them, and a processor is idle while a thread that
//! gets a place wakes up.

use crate::sync::yield_now;
use std::{
    cell::RefCell,
    sync::{
        LazyLock,
        atomic::{AtomicU64, Ordering},
    },
    thread,
    time::{Duration, Instant},
};

/// The length of a turn.
const TURN: Duration = Duration::from_micros(250);
/// A thread that takes longer for an update and what it does before the next one is not busy.
const SLOW: Duration = Duration::from_micros(50);
/// The number of updates after which a thread looks at the clock.
const LOOK: u32 = 16;
/// This number of busy threads more than processors is many.
const MANY: u64 = 2;
/// The milliseconds for which busy threads are counted. Each ends a turn within them, unless there are very many.
const PERIOD: u128 = 32;

/// The busy threads.
#[derive(Debug)]
struct Crowd {
    /// The bits of those that have ended a turn in this period. Two threads may share one.
    seen: AtomicU64,
    /// Their number in the period before.
    threads: AtomicU64,
    /// The number of this period.
    period: AtomicU64,
}

impl Crowd {
    const fn new() -> Crowd {
        Crowd {
            seen: AtomicU64::new(0),
            threads: AtomicU64::new(0),
            period: AtomicU64::new(0),
        }
    }

    /// Counts a busy thread that ends a turn. Returns the number of busy threads.
    fn count(&self, bit: u64, now: Duration) -> u64 {
        let period = (now.as_millis() / PERIOD) as u64;
        let order = Ordering::Relaxed;
        let last = self.period.load(order);
        if last < period && self.period.swap(period, order) == last {
            let seen = self.seen.swap(0, order);
            self.threads.store(seen.count_ones().into(), order);
        }
        self.seen.fetch_or(bit, order);
        self.threads.load(order)
    }

    /// Reports whether many more threads are busy than there are processors.
    fn is_crowded(&self, processors: u64) -> bool {
        self.threads.load(Ordering::Relaxed) >= processors + MANY
    }
}

/// The turn of a thread.
#[derive(Debug)]
struct Turn {
    /// The thread's bit in a crowd.
    bit: u64,
    begun: Duration,
    updates: u32,
}

impl Turn {
    fn of_thread(number: u64) -> Turn {
        Turn {
            bit: 1 << (number % 64),
            begun: Duration::ZERO,
            updates: 0,
        }
    }

    fn begin(&mut self, now: Duration) {
        (self.begun, self.updates) = (now, 0);
    }

    /// Ends the turn if it is over, and begins the next one. Reports whether the thread is to yield before that.
    fn end(&mut self, now: Duration, crowd: &Crowd, processors: u64) -> bool {
        let time = now.saturating_sub(self.begun);
        if time < TURN {
            return false;
        }
        let is_busy = time <= SLOW * self.updates;
        self.begin(now);
        is_busy && crowd.count(self.bit, now) > processors
    }
}

static CROWD: Crowd = Crowd::new();
static PROCESSORS: LazyLock<u64> =
    LazyLock::new(|| thread::available_parallelism().map_or(1, |count| count.get() as u64));
static START: LazyLock<Instant> = LazyLock::new(Instant::now);
static THREADS: AtomicU64 = AtomicU64::new(0);

thread_local! {
    static MINE: RefCell<Turn> = RefCell::new(Turn::of_thread(THREADS.fetch_add(1, Ordering::Relaxed)));
}

/// Begins an update of this thread, which may call `before_yield` and yield first.
pub(crate) fn begin_update(before_yield: impl FnOnce()) {
    MINE.with_borrow_mut(|turn| {
        turn.updates += 1;
        if turn.updates % LOOK == 0 && turn.end(START.elapsed(), &CROWD, *PROCESSORS) {
            before_yield();
            yield_now();
            turn.begin(START.elapsed());
        }
    });
}

/// Reports whether many more threads are busy with updates than there are processors.
pub(crate) fn is_crowded() -> bool {
    CROWD.is_crowded(*PROCESSORS)
}

#[cfg(test)]
pub(crate) mod tests {
    use super::*;

    /// Returns the number of updates in this thread's turn.
    pub(crate) fn updates() -> u32 {
        MINE.with_borrow(|turn| turn.updates)
    }

    /// Lets this thread yield when it begins its next update. From then on there seem to be too many busy threads.
    pub(crate) fn end_turn() {
        CROWD.period.store(u64::MAX, Ordering::Relaxed);
        CROWD.threads.store(1_000, Ordering::Relaxed);
        MINE.with_borrow_mut(|turn| {
            turn.begin(START.elapsed());
            turn.updates = 100 * LOOK - 1;
        });
        thread::sleep(TURN);
    }

    /// Lets threads execute updates that take a time each, for some milliseconds from a time on. Returns the number of yields
    /// of the first thread.
    fn run(threads: &mut [Turn], crowd: &Crowd, update: Duration, from: u64, time: u64) -> u32 {
        let (from, time) = (Duration::from_millis(from), Duration::from_millis(time));
        let mut yields = 0;
        let mut now = from;
        while now < from + time {
            now += update;
            for (number, turn) in threads.iter_mut().enumerate() {
                turn.updates += 1;
                let is_end = turn.updates % LOOK == 0 && turn.end(now, crowd, 2);
                yields += u32::from(is_end && number == 0);
            }
        }
        yields
    }

    /// Of more busy threads than processors each yields after its turns, and otherwise none does.
    #[test]
    fn threads_yield_if_there_are_too_many() {
        let crowd = Crowd::new();
        let mut threads = [7, 8, 9].map(Turn::of_thread);
        let fast = Duration::from_micros(10);
        assert_eq!(run(&mut threads[..2], &crowd, fast, 0, 200), 0);
        // they are counted for a period
        assert!(run(&mut threads, &crowd, fast, 200, 64) <= 256);
        let yields = run(&mut threads, &crowd, fast, 264, 200);
        assert!((550..=800).contains(&yields), "{yields}");
        // one of them has ended
        assert!(run(&mut threads[..2], &crowd, fast, 464, 64) <= 256);
        assert_eq!(run(&mut threads[..2], &crowd, fast, 528, 200), 0);
    }

    /// From two busy threads more than processors on there are too many.
    #[test]
    fn many_threads_make_a_crowd() {
        let crowd = Crowd::new();
        let are_many = [0, 3, 4, 5].map(|threads| {
            crowd.threads.store(threads, Ordering::Relaxed);
            crowd.is_crowded(2)
        });
        assert_eq!(are_many, [false, false, true, true]);
    }

    /// Threads that do other work most of the time do not yield, and do not count.
    #[test]
    fn threads_with_other_work_do_not_yield() {
        let crowd = Crowd::new();
        let mut threads = [0, 1, 2, 3].map(Turn::of_thread);
        let slow = Duration::from_micros(60);
        assert_eq!(run(&mut threads, &crowd, slow, 0, 200), 0);
        assert_eq!(crowd.threads.load(Ordering::Relaxed), 0);
    }
}
