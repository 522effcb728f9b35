//! The gate in every schedule, and its rules one by one.

use super::*;
use crate::interleave::{Depth, explore};
use std::{sync::Arc, thread};

type Body = fn(&Lock<u64>);

/// Returns a lock that reserves nothing in its first holds.
fn suspended() -> Lock<u64> {
    let lock = Lock::new(0);
    lock.gate.holding.0.trial.doubt(0);
    lock.gate.holding.0.trial.doubt(0);
    lock
}

/// Explores threads over a lock. Each schedule ends with a value of this range, and without a lost wake-up.
fn explore_lock(depth: Depth, new: fn() -> Lock<u64>, threads: &[Body], ends: [u64; 2]) {
    let test = || (Arc::new(new()), threads.to_vec());
    let runs = explore(depth, test, |lock, now| {
        let end = *lock.value.lock().unwrap();
        assert!((ends[0]..=ends[1]).contains(&end), "{end}");
        assert!(now < NAP, "a wake-up was lost");
    });
    println!("{runs} schedules of {} threads", threads.len());
}

const ONCE: Body = |lock| *lock.lock() += 1;
/// Gives up while another thread relied on it.
const FICKLE: Body = |lock| {
    if let Some(mut value) = lock.lock_while(None, || false) {
        *value += 1;
    }
};
/// Reserves the lock and uses that.
const RETURNING: Body = |lock| {
    lock.lock().reserve();
    *lock.lock() += 1;
};
/// Reserves the lock and does not return.
const ABSENT: Body = |lock| lock.lock().reserve();
/// Reserves the lock and ends its lease.
const YIELDING: Body = |lock| {
    lock.lock().reserve();
    lock.give_up_lease();
};

/// In every schedule threads exclude each other and lose nothing, and none is woken by its timeout alone.
#[test]
fn the_lock_excludes_and_wakes() {
    let twice: Body = |lock| {
        for _ in 0..2 {
            let mut value = lock.lock();
            // scheduling points of a long hold
            for _ in 0..2 {
                lock.gate.state(Ordering::SeqCst);
            }
            *value += 1;
        }
    };
    let new: fn() -> Lock<u64> = || Lock::new(0);
    explore_lock(Depth::coarse(4), new, &[twice; 2], [4, 4]);
    let threads = [ONCE, ONCE, FICKLE];
    explore_lock(Depth::coarse(3), suspended, &threads, [2, 3]);
}

/// In every schedule a reservation excludes no thread forever.
#[test]
fn reservations_exclude_no_one_forever() {
    let new: fn() -> Lock<u64> = || Lock::new(0);
    for threads in [[ONCE, RETURNING], [RETURNING; 2]] {
        explore_lock(Depth::coarse(4), new, &threads, [2, 2]);
    }
    for thread in [RETURNING, ABSENT, YIELDING] {
        explore_lock(Depth::coarse(2), new, &[ONCE, ONCE, thread], [2, 3]);
    }
}

/// For every store that a load may observe, no wake-up is lost.
#[test]
fn no_order_of_memory_loses_a_wakeup() {
    let new: fn() -> Lock<u64> = || Lock::new(0);
    explore_lock(Depth::fine(3), new, &[ONCE; 2], [2, 2]);
    for thread in [ABSENT, RETURNING, YIELDING] {
        explore_lock(Depth::fine(2), new, &[ONCE, thread], [1, 2]);
    }
    let threads = [ONCE, ONCE, FICKLE];
    explore_lock(Depth::fine(1), suspended, &threads, [2, 3]);
}

/// A sleeper that is overdue gets the lock although two other threads take it all the time.
#[test]
fn an_overdue_sleeper_is_next() {
    let (lock, ended) = (Lock::new(0_u64), AtomicU64::new(0));
    thread::scope(|threads| {
        for _ in 0..2 {
            threads.spawn(|| {
                while ended.load(Ordering::SeqCst) == 0 {
                    *lock.lock() += 1;
                }
            });
        }
        for _ in 0..100 {
            lock.gate.sleep();
            lock.gate.leave(Leave::Usual);
        }
        ended.store(1, Ordering::SeqCst);
    });
    assert!(lock.gate.queue().sleepers.is_empty());
}

/// Returns a gate that this thread holds, next to a number of threads that poll.
fn held(polling: u64) -> Gate {
    let gate = Gate::default();
    assert!(gate.try_at_once(false));
    gate.waiting.0.polling.store(polling, Ordering::SeqCst);
    gate
}

/// Leaves a gate, and returns who may enter.
fn left(gate: &Gate) -> Kind {
    gate.leave(Leave::Usual);
    gate.state(Ordering::SeqCst).kind()
}

fn try_by_another(gate: &Gate) -> bool {
    thread::scope(|scope| scope.spawn(|| gate.try_at_once(false)).join().unwrap())
}

/// A gate is reserved if others poll, and only for its last holder.
#[test]
fn the_last_holder_enters_again() {
    assert_eq!(left(&held(0)), Kind::Open);
    let gate = held(1);
    for _ in 0..10 {
        assert_eq!(left(&gate), Kind::Reserved);
        assert!(!try_by_another(&gate));
        assert!(gate.try_at_once(false));
        // without the durations of this test
        gate.holding.0.trial.enter();
        gate.holding.0.trial.reserve(1, false);
    }
    assert_eq!(gate.leases(), 0);
}

/// A lease ends on request, and after some holds, and there is none while a thread is urgent or leases are suspended.
#[test]
fn a_lease_ends() {
    let gate = held(1);
    gate.request_end(1);
    assert_eq!(left(&gate), Kind::Reserved, "another lease is over");
    let gate = held(1);
    gate.request_end(0);
    assert_eq!((left(&gate), gate.leases()), (Kind::Open, 1));
    let gate = held(1);
    let last = State::of(MAX_HOLDS, Kind::Taken);
    gate.holding.0.state.store(last.0, Ordering::SeqCst);
    assert_eq!((left(&gate), gate.leases()), (Kind::Open, 1));
    let gate = held(1);
    gate.holding.0.trial.doubt(0);
    assert_eq!((left(&gate), gate.leases()), (Kind::Open, 0));
    let gate = held(1);
    gate.waiting.0.urgent.store(1, Ordering::SeqCst);
    assert_eq!((left(&gate), gate.leases()), (Kind::Open, 1));
}

/// A thread that returns soon reserves the gate without pollers and after a request, but not before urgent threads.
#[test]
fn a_thread_that_returns_reserves() {
    let gate = held(0);
    gate.request_end(0);
    gate.leave(Leave::ToReturn);
    assert_eq!(gate.state(Ordering::SeqCst).kind(), Kind::Reserved);
    let gate = held(0);
    gate.waiting.0.urgent.store(1, Ordering::SeqCst);
    gate.leave(Leave::ToReturn);
    assert_eq!(gate.state(Ordering::SeqCst).kind(), Kind::Open);
}

/// The owner of a reservation lets urgent threads go first, unless it has priority.
#[test]
fn the_owner_lets_urgent_threads_go_first() {
    let gate = held(1);
    assert_eq!(left(&gate), Kind::Reserved);
    gate.waiting.0.urgent.store(1, Ordering::SeqCst);
    assert!(!gate.try_at_once(false) && gate.try_at_once(true));
}

/// A thread that arrives at an open gate lets pollers go first, unless it has priority or leases are suspended.
#[test]
fn a_new_thread_lets_pollers_go_first() {
    let gate = held(1);
    gate.request_end(0);
    assert_eq!(left(&gate), Kind::Open);
    assert!(!gate.try_at_once(false) && gate.try_at_once(true));
    gate.holding.0.trial.doubt(1);
    assert_eq!(left(&gate), Kind::Open);
    assert!(gate.try_at_once(false));
}

/// Of the threads that poll at an open gate those that have seen fewer leases wait longer.
#[test]
fn pollers_enter_in_the_order_of_their_arrival() {
    for (age, polls) in [(0, 4), (2, 2), (3, 1)] {
        let gate = held(3);
        let mut poller = Poller::of(&gate, false);
        assert!(!poller.poll());
        (0..age).for_each(|_| gate.end_lease());
        let open = State::of(1, Kind::Open);
        gate.holding.0.state.store(open.0, Ordering::SeqCst);
        let needed = (1..).find(|_| poller.poll());
        assert_eq!(needed, Some(polls), "after {age} leases");
    }
}

/// A poller takes a reservation over that is not used, and leases are suspended.
#[test]
fn an_unused_reservation_is_taken_over() {
    let gate = held(1);
    let mut poller = Poller::of(&gate, false);
    assert_eq!(left(&gate), Kind::Reserved);
    assert!(!poller.look(1_000_000, false), "it may be used soon");
    assert!(!poller.look(1_000_000, false) && poller.look(2_000_000, false));
    assert_eq!((left(&gate), gate.leases()), (Kind::Open, 1));
    // one that is used is not
    let gate = held(1);
    let mut poller = Poller::of(&gate, false);
    for time in 1..10 {
        gate.leave(Leave::ToReturn);
        assert!(!poller.look(time * 1_000_000, false));
        assert!(gate.try_at_once(false));
    }
}

/// A poller requests the end of the lease that it polls in.
#[test]
fn a_poller_requests_the_end_of_a_lease() {
    let gate = held(1);
    let mut poller = Poller::of(&gate, false);
    gate.end_lease();
    assert!(!poller.poll());
    assert_eq!(left(&gate), Kind::Reserved);
    // a long gap would end the lease, too
    gate.holding.0.trial.reserve(1, false);
    assert!(gate.try_at_once(false) && !poller.poll());
    assert_eq!((left(&gate), gate.leases()), (Kind::Open, 2));
}

/// A lease is longer for more pollers, for too many threads, and for longer holds up to a limit.
#[test]
fn more_threads_make_leases_longer() {
    let lengths = |pollers: &[u64], is_crowded, period| {
        let lengths = pollers.iter();
        let lengths = lengths.map(|polling| poller::length(*polling, is_crowded, period));
        lengths.collect::<Vec<_>>()
    };
    let pollers = [0, 1, 2, 7];
    let few = [12_600, 12_600, 13_000, 28_000];
    assert_eq!(lengths(&pollers, false, 900), few);
    assert_eq!(lengths(&pollers, true, 900), [50_000; 4]);
    assert_eq!(lengths(&pollers, false, 5_000), [70_000; 4]);
    assert_eq!(lengths(&pollers, true, 30_000), [100_000; 4]);
}

/// An owner that ends its lease publishes how long a hold takes.
#[test]
fn pollers_know_the_period() {
    let gate = held(1);
    gate.holding.0.trial.estimate(1_000);
    gate.request_end(0);
    assert_eq!((left(&gate), gate.leases()), (Kind::Open, 1));
    assert_eq!(gate.leases.0.period.load(Ordering::SeqCst), 1);
}

/// A thread ends its own lease only.
#[test]
fn a_lease_is_given_up() {
    let gate = held(1);
    gate.give_up_lease();
    assert_eq!(left(&gate), Kind::Reserved);
    thread::scope(|scope| _ = scope.spawn(|| gate.give_up_lease()));
    assert_eq!(gate.state(Ordering::SeqCst).kind(), Kind::Reserved);
    gate.give_up_lease();
    assert_eq!(gate.state(Ordering::SeqCst).kind(), Kind::Open);
    assert_eq!(gate.leases(), 1);
}
