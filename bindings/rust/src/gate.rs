//! The lock of a bank: a spin lock that its last holder keeps for a short lease, and whose sleepers wait no longer than about
//! a tenth of a millisecond and a lease.
//!
//! A transaction holds the lock for less than a microsecond. If the next one is of another thread, the engine's data moves to
//! the cache of another processor, which takes as long again. So a holder that leaves while other threads poll *reserves* the
//! gate for itself: it enters again at once, and the others do not try. Its *lease* ends with the first hold after a poller
//! has waited for the length of a lease and requested the end; then the gate is open, and threads enter in about the order of
//! their arrival. The former owner is the last of them. A lease takes 10 microseconds, or more if more threads poll or holds
//! are longer (`poller`). A reservation that is not used for five microseconds is taken over. If the time between two holds of a thread
//! is too long, leases are suspended (`trial`), and whoever comes first enters. Without pollers nothing is reserved, so a lone
//! thread waits for no one. An update whose draft was stale reserves the gate in any case, since it has waited already and
//! comes back as soon as its body has run ([`Guard::reserve`]).
//!
//! A thread polls for a short time before it sleeps, and a thread that polls may overtake one that sleeps: waking a thread
//! takes longer than many transactions. Without a limit sleepers would wait for many milliseconds. So a sleeper is woken when
//! no thread polls or when it is overdue, and once it runs it is *urgent*: nothing is reserved, and other threads do not try
//! while it polls. The lock changes hands among running threads only, so it is never idle while a thread wakes up.
//!
//! [`Gate`] decides who enters. The value itself is in an ordinary mutex, which is always free for the thread that has
//! entered, so the exclusion does not depend on this module.
//!
//! Wake-ups are not lost. A sleeper counts itself and then tries the gate, which it also enters if it is reserved; the holder
//! opens or reserves the gate and then loads the count. Each stores and then loads what the other stores, and all four
//! operations are sequentially consistent, a failed try too, so at least one sees the other. A sleeper that has run in vain
//! marks, under the mutex of the queue, that it is not woken, and tries again: a holder that had found it marked as woken had
//! left before, so this try succeeds or meets a later holder. A holder that leaves the gate to a polling thread relies on that
//! thread, which enters, or sleeps by the same rule, or passes the duty on when it gives up. Whether a thread polls is loaded
//! again after the gate is left, so a thread that stops polling meanwhile is no longer relied on. The other loads of the gate
//! only decide when a thread tries, so they are relaxed; that of a reserved state acquires its owner. The tests try every
//! schedule, and every store that a load may observe.
//!
//! No thread starves. An owner gives way at its first hold after a request, or after [`MAX_HOLDS`] holds if the threads that
//! poll were preempted, and then waits like the others. A thread that polls waits for the leases of those that came before
//! it. One that sleeps is overdue after [`OVERDUE`], and each end of a lease wakes such a thread.
//!
//! A thread has one token for all that unparks it: the gate, the end of a blocker (`waits`) and free capacity. A sleeper may
//! consume one that was for another purpose, so a thread that is to be woken must not take this lock between its registration
//! and its own park (`bank::handle`). Each park has a timeout, which bounds the delay if it does.
//!
//! A holder that panics leaves the gate as its guard is dropped.
//!
//! Rejected: the standard mutex after a spin phase, whose 99.9th percentile is milliseconds when there are more threads than
//! processors; handing the lock to a sleeper, which leaves it idle until that thread runs and then ends in a convoy (a
//! seventh of the throughput); ticket and queue locks, which wait for preempted threads; combining, by which the holder
//! executes the drafts of threads that poll: it gained nothing (`bench/RESULTS.md`), perhaps because their items are then in
//! the cache of the holder, and the next holder is another thread; leases without pollers that look, which an idle owner
//! keeps until their end; leases in any case, with which four threads whose bodies take three microseconds are as slow as one.

mod poller;
#[cfg(test)]
mod tests;
mod trial;

use crate::sync::{
    Apart, AtomicU64, Instant, Thread, current, park_timeout, spin_loop, thread_number,
};
use poller::Poller;
use std::{
    collections::VecDeque,
    ops::{Deref, DerefMut},
    sync::{Mutex, MutexGuard, PoisonError, atomic::Ordering},
    time::Duration,
};
use trial::Trial;

/// The number of polls before a thread sleeps.
const MAX_POLLS: u32 = if cfg!(test) { 2 } else { 2_000 };
/// A lease ends at each hold of which the number is a multiple of this.
const MAX_HOLDS: u64 = 512;
/// The number of polls of a thread that was woken, before it sleeps again.
const URGENT_POLLS: u32 = if cfg!(test) { 1 } else { 100 };
/// A sleeper that has waited longer is woken although other threads poll.
const OVERDUE: Duration = Duration::from_micros(100);
/// A sleeper tries by itself after this time. It is woken before, so this only limits the damage of a kernel that is late.
const NAP: Duration = Duration::from_millis(50);

/// Who may enter.
#[derive(Clone, Copy, PartialEq, Eq, Debug)]
enum Kind {
    Open,
    Taken,
    /// The owner, and any thread after some time.
    Reserved,
}

/// The number of holds so far, and who may enter.
#[derive(Clone, Copy, Default, PartialEq, Eq, Debug)]
struct State(u64);

impl State {
    fn of(holds: u64, kind: Kind) -> State {
        State(4 * holds + kind as u64)
    }

    fn holds(self) -> u64 {
        self.0 / 4
    }

    fn kind(self) -> Kind {
        match self.0 % 4 {
            0 => Kind::Open,
            1 => Kind::Taken,
            _ => Kind::Reserved,
        }
    }
}

#[derive(Debug)]
struct Sleeper {
    id: u64,
    thread: Thread,
    since: Instant,
    is_woken: bool,
}

/// What holders change at each hold.
#[derive(Debug, Default)]
struct Holding {
    state: AtomicU64,
    /// The thread for which the gate is reserved.
    owner: AtomicU64,
    trial: Trial,
}

/// What waiting threads change.
#[derive(Debug, Default)]
struct Waiting {
    /// The number of polling threads that were not woken.
    polling: AtomicU64,
    /// The number of polling threads that were woken, and of threads with priority.
    urgent: AtomicU64,
    /// The number of sleepers in the queue.
    sleeping: AtomicU64,
    /// One more than the lease whose end was requested last.
    requested: AtomicU64,
}

/// What an owner changes when it opens the gate. Threads poll it.
#[derive(Debug, Default)]
struct Leases {
    /// The number of leases that have ended.
    ended: AtomicU64,
    /// The time from hold to hold, in nanoseconds.
    period: AtomicU64,
}

#[derive(Debug, Default)]
struct Gate {
    holding: Apart<Holding>,
    leases: Apart<Leases>,
    waiting: Apart<Waiting>,
    queue: Mutex<Queue>,
}

#[derive(Debug, Default)]
struct Queue {
    sleepers: VecDeque<Sleeper>,
    /// The number of sleepers so far.
    ids: u64,
}

/// How a thread leaves.
#[derive(Clone, Copy, PartialEq, Eq, Debug)]
enum Leave {
    Usual,
    /// It enters again soon, and has waited for that.
    ToReturn,
}

/// Entering.
impl Gate {
    fn queue(&self) -> MutexGuard<'_, Queue> {
        self.queue.lock().unwrap_or_else(PoisonError::into_inner)
    }

    fn state(&self, order: Ordering) -> State {
        State(self.holding.0.state.load(order))
    }

    fn leases(&self) -> u64 {
        self.leases.0.ended.load(Ordering::Relaxed)
    }

    fn has_urgent(&self) -> bool {
        self.waiting.0.urgent.load(Ordering::Relaxed) > 0
    }

    fn replace(&self, old: State, new: State) -> Result<(), State> {
        let state = &self.holding.0.state;
        let found = state.compare_exchange(old.0, new.0, Ordering::SeqCst, Ordering::SeqCst);
        found.map(drop).map_err(State)
    }

    /// Tries to enter a gate that was seen in a state. Fails with the state that it is in.
    fn take(&self, seen: State) -> Result<(), State> {
        self.replace(seen, State::of(seen.holds() + 1, Kind::Taken))
    }

    /// Tries to enter a gate that was seen reserved for another thread.
    fn take_over(&self, seen: State) -> Result<(), State> {
        self.take(seen)?;
        self.holding.0.trial.doubt(seen.holds());
        self.end_lease();
        Ok(())
    }

    fn end_lease(&self) {
        let Leases { ended, period } = &self.leases.0;
        period.store(self.holding.0.trial.period(), Ordering::Relaxed);
        ended.fetch_add(1, Ordering::Relaxed);
    }

    /// Requests the end of a lease, the `lease`th from 0.
    fn request_end(&self, lease: u64) {
        let requested = &self.waiting.0.requested;
        if requested.load(Ordering::Relaxed) != lease + 1 {
            requested.store(lease + 1, Ordering::Relaxed);
        }
    }

    /// Tries to enter, also if the gate is reserved for another thread.
    fn try_enter(&self) -> bool {
        let mut seen = self.state(Ordering::Relaxed);
        loop {
            let taken = match seen.kind() {
                Kind::Reserved => self.take_over(seen),
                // one that is taken fails here, by a load that is sequentially consistent
                _ => self.take(State::of(seen.holds(), Kind::Open)),
            };
            match taken {
                Ok(()) => return true,
                Err(other) if other.kind() == Kind::Taken => return false,
                Err(other) => seen = other,
            }
        }
    }

    fn is_mine(&self, seen: State) -> bool {
        let owner = &self.holding.0.owner;
        seen.kind() == Kind::Reserved && owner.load(Ordering::Relaxed) == thread_number()
    }

    /// Tries to enter a gate that is reserved for this thread, or open without threads that go first.
    fn try_at_once(&self, has_priority: bool) -> bool {
        let seen = self.state(Ordering::Acquire);
        let trial = &self.holding.0.trial;
        let may_try = match seen.kind() {
            Kind::Open => {
                let polling = &self.waiting.0.polling;
                has_priority
                    || polling.load(Ordering::Relaxed) == 0
                    || trial.is_suspended(seen.holds())
            }
            Kind::Reserved => self.is_mine(seen),
            Kind::Taken => false,
        };
        if !may_try || (!has_priority && self.has_urgent()) || self.take(seen).is_err() {
            return false;
        }
        if seen.kind() == Kind::Reserved {
            trial.enter();
        }
        true
    }

    /// Enters, or returns false if leases are suspended and `is_useful` returns false while polling. With `has_priority` it
    /// does not let other threads go first.
    fn enter(&self, has_priority: bool, is_useful: impl Fn() -> bool) -> bool {
        if self.try_at_once(has_priority) {
            return true;
        }
        let polling = &self.waiting.0.polling;
        polling.fetch_add(1, Ordering::SeqCst);
        let mut poller = Poller::of(self, has_priority);
        for _ in 0..MAX_POLLS {
            if poller.poll() {
                polling.fetch_sub(1, Ordering::SeqCst);
                return true;
            }
            if poller.is_suspended() && !is_useful() {
                polling.fetch_sub(1, Ordering::SeqCst);
                // a holder may have relied on this thread
                if self.state(Ordering::SeqCst).kind() != Kind::Taken {
                    self.wake();
                }
                return false;
            }
            if poller.is_tired() {
                break;
            }
            pause();
        }
        polling.fetch_sub(1, Ordering::SeqCst);
        self.sleep();
        true
    }

    fn sleep(&self) {
        let id = {
            let mut queue = self.queue();
            queue.ids += 1;
            let id = queue.ids;
            queue.sleepers.push_back(Sleeper {
                id,
                thread: current(),
                since: Instant::now(),
                is_woken: false,
            });
            id
        };
        self.waiting.0.sleeping.fetch_add(1, Ordering::SeqCst);
        while !self.try_enter() {
            park_timeout(NAP);
            if self.enter_urgently() {
                break;
            }
            let mut queue = self.queue();
            let mut sleepers = queue.sleepers.iter_mut();
            let mine = sleepers.find(|sleeper| sleeper.id == id);
            mine.expect("it is in the queue").is_woken = false;
        }
        self.queue().sleepers.retain(|sleeper| sleeper.id != id);
        self.waiting.0.sleeping.fetch_sub(1, Ordering::SeqCst);
    }

    fn enter_urgently(&self) -> bool {
        let urgent = &self.waiting.0.urgent;
        urgent.fetch_add(1, Ordering::SeqCst);
        let has_entered = (0..URGENT_POLLS).any(|_| {
            let is_free = self.state(Ordering::Relaxed).kind() != Kind::Taken;
            let has_entered = is_free && self.try_enter();
            if !has_entered {
                pause();
            }
            has_entered
        });
        urgent.fetch_sub(1, Ordering::SeqCst);
        has_entered
    }
}

/// Leaving.
impl Gate {
    /// Reports whether the holder keeps its lease.
    fn keeps_lease(&self, leave: Leave, holds: u64, is_contended: bool) -> bool {
        let requested = &self.waiting.0.requested;
        !self.has_urgent()
            && (leave == Leave::ToReturn
                || (is_contended
                    && !self.holding.0.trial.is_suspended(holds)
                    && requested.load(Ordering::Relaxed) != self.leases() + 1
                    && holds % MAX_HOLDS != 0))
    }

    fn leave(&self, leave: Leave) {
        let Holding { state, trial, .. } = &self.holding.0;
        let holds = self.state(Ordering::Relaxed).holds();
        let is_contended = self.waiting.0.polling.load(Ordering::SeqCst) > 0;
        let was_suspended = trial.is_suspended(holds);
        trial.leave(holds);
        if self.keeps_lease(leave, holds, is_contended) {
            return self.reserve(holds, leave);
        }
        state.swap(State::of(holds, Kind::Open).0, Ordering::SeqCst);
        if is_contended && !was_suspended {
            self.end_lease();
        }
        self.wake();
    }

    fn reserve(&self, holds: u64, leave: Leave) {
        let Holding {
            state,
            owner,
            trial,
        } = &self.holding.0;
        let me = thread_number();
        let is_new_owner = owner.load(Ordering::Relaxed) != me;
        if is_new_owner {
            owner.store(me, Ordering::Relaxed);
        }
        trial.reserve(holds, is_new_owner && leave == Leave::Usual);
        state.swap(State::of(holds, Kind::Reserved).0, Ordering::SeqCst);
        if self.waiting.0.polling.load(Ordering::SeqCst) == 0 {
            self.wake();
        }
    }

    /// Opens the gate if it is reserved for this thread. Nothing was left to this thread, so it need not wake any.
    fn give_up_lease(&self) {
        let seen = self.state(Ordering::Acquire);
        let open = State::of(seen.holds(), Kind::Open);
        if self.is_mine(seen) && self.replace(seen, open).is_ok() {
            self.end_lease();
        }
    }

    /// Wakes the first sleeper, if no thread polls or it is overdue.
    fn wake(&self) {
        let waiting = &self.waiting.0;
        if waiting.sleeping.load(Ordering::SeqCst) == 0 {
            return;
        }
        let is_idle = waiting.polling.load(Ordering::SeqCst) == 0;
        let mut queue = self.queue();
        if let Some(first) = queue.sleepers.front_mut() {
            let is_due = is_idle || first.since.elapsed() >= OVERDUE;
            if is_due && !first.is_woken {
                first.is_woken = true;
                let thread = first.thread.clone();
                drop(queue);
                thread.unpark();
            }
        }
    }
}

/// Waits for about as long as a cache line takes from one processor to another.
pub(crate) fn pause() {
    for _ in 0..if cfg!(test) { 1 } else { 8 } {
        spin_loop();
    }
}

/// A value that one thread uses at a time.
#[derive(Debug)]
pub(crate) struct Lock<T> {
    gate: Gate,
    value: Mutex<T>,
}

impl<T> Lock<T> {
    pub(crate) fn new(value: T) -> Lock<T> {
        Lock {
            gate: Gate::default(),
            value: Mutex::new(value),
        }
    }

    /// Takes the lock. A panic of an earlier holder leaves no call half done, so it does not matter here.
    pub(crate) fn lock(&self) -> Guard<'_, T> {
        self.lock_while(None, || true).expect("it is useful")
    }

    /// Makes the calling thread urgent until the result is dropped.
    pub(crate) fn priority(&self) -> Priority<'_> {
        self.gate.waiting.0.urgent.fetch_add(1, Ordering::SeqCst);
        Priority(&self.gate)
    }

    /// Ends the lease of this thread, which does not take the lock soon.
    pub(crate) fn give_up_lease(&self) {
        self.gate.give_up_lease();
    }

    #[cfg(test)]
    pub(crate) fn is_reserved(&self) -> bool {
        self.gate.state(Ordering::SeqCst).kind() == Kind::Reserved
    }

    /// Takes the lock. May return `None` after `is_useful` has returned false while this thread polls.
    pub(crate) fn lock_while(
        &self,
        priority: Option<&Priority<'_>>,
        is_useful: impl Fn() -> bool,
    ) -> Option<Guard<'_, T>> {
        if !self.gate.enter(priority.is_some(), is_useful) {
            return None;
        }
        let value = if cfg!(test) {
            match self.value.try_lock() {
                Err(std::sync::TryLockError::WouldBlock) => panic!("two threads hold the lock"),
                Err(std::sync::TryLockError::Poisoned(value)) => value.into_inner(),
                Ok(value) => value,
            }
        } else {
            self.value.lock().unwrap_or_else(PoisonError::into_inner)
        };
        Some(Guard {
            gate: &self.gate,
            leave: Leave::Usual,
            value: Some(value),
        })
    }
}

/// The priority of a thread: while it lasts, nothing is reserved, and other threads that poll let urgent ones go first.
pub(crate) struct Priority<'a>(&'a Gate);

impl Drop for Priority<'_> {
    fn drop(&mut self) {
        self.0.waiting.0.urgent.fetch_sub(1, Ordering::SeqCst);
    }
}

/// A hold of a [`Lock`].
pub(crate) struct Guard<'a, T> {
    gate: &'a Gate,
    leave: Leave,
    value: Option<MutexGuard<'a, T>>,
}

impl<T> Guard<'_, T> {
    /// Releases the lock, and reserves it for this thread, which takes it again soon.
    pub(crate) fn reserve(mut self) {
        self.leave = Leave::ToReturn;
    }
}

impl<T> Deref for Guard<'_, T> {
    type Target = T;

    fn deref(&self) -> &T {
        self.value.as_ref().expect("it is held")
    }
}

impl<T> DerefMut for Guard<'_, T> {
    fn deref_mut(&mut self) -> &mut T {
        self.value.as_mut().expect("it is held")
    }
}

impl<T> Drop for Guard<'_, T> {
    fn drop(&mut self) {
        self.value = None;
        self.gate.leave(self.leave);
    }
}
