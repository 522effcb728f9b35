//! A scheduler that runs a small concurrent test under every interleaving of its synchronization operations.
//!
//! [`explore`] runs the threads of a test one at a time. Each operation on a simulated primitive is a scheduling point, at
//! which the scheduler may switch to another thread. A depth-first search over these choices repeats the test until every
//! schedule was tried that has at most the given number of forced switches. Switches at which the running thread cannot
//! continue are free.
//!
//! Atomics follow the release-acquire model with per-thread views: a relaxed or acquire load may return any store that is
//! not older than what the thread has already observed, and each possible store is one more choice. A compare-exchange that
//! fails is such a load, with its failure order. Sequentially consistent operations, read-modify-writes and loads after a
//! spin observe the newest store. Load buffering is not modelled.
//!
//! Time is virtual: it advances only when every thread waits, and then to the earliest deadline. So a test that asserts that
//! no time has passed finds a lost wake-up, which a timeout would hide otherwise.
//!
//! Rejected: loom, which Debian does not package, and a separate model of the protocol, which would drift from the code.

use std::{
    cell::{Cell, RefCell},
    panic::{self, AssertUnwindSafe},
    sync::{
        Arc, Condvar, Mutex, MutexGuard, PoisonError,
        atomic::{self, Ordering},
    },
    thread,
    time::{self, Duration},
};

/// A simulation that takes more steps in one schedule is considered a livelock.
const MAX_STEPS: u64 = 200_000;

/// For each atomic, the index of the oldest store that may still be observed.
type View = Vec<usize>;

fn join(view: &mut View, other: &View) {
    if view.len() < other.len() {
        view.resize(other.len(), 0);
    }
    for (mine, theirs) in view.iter_mut().zip(other) {
        *mine = (*mine).max(*theirs);
    }
}

fn seen(view: &View, location: usize) -> usize {
    view.get(location).copied().unwrap_or(0)
}

fn observe(view: &mut View, location: usize, store: usize) {
    if view.len() <= location {
        view.resize(location + 1, 0);
    }
    view[location] = view[location].max(store);
}

#[derive(Clone, Copy, PartialEq, Eq, Debug)]
enum Status {
    Runnable,
    /// Polls: it runs again once another thread has run, or none can.
    Spinning,
    Parked(Option<Duration>),
    Finished,
}

#[derive(Debug)]
struct Sim {
    status: Status,
    /// Whether it was unparked since it last parked.
    token: bool,
    current: View,
    /// The view that an acquire fence adds.
    acquired: View,
    /// The view that a relaxed store publishes: that of the last release fence.
    released: View,
}

/// How thoroughly [`explore`] searches.
#[derive(Clone, Copy, Debug)]
pub(crate) struct Depth {
    /// The maximum number of forced switches in a schedule.
    pub(crate) preemptions: u32,
    /// Whether each load and store is a scheduling point, and loads may observe old stores. Otherwise only acquire loads,
    /// read-modify-writes and waits are scheduling points: enough for code whose atomics are explored on their own.
    pub(crate) is_fine: bool,
}

impl Depth {
    pub(crate) const fn fine(preemptions: u32) -> Depth {
        Depth {
            preemptions,
            is_fine: true,
        }
    }

    pub(crate) const fn coarse(preemptions: u32) -> Depth {
        Depth {
            preemptions,
            is_fine: false,
        }
    }
}

/// A choice of a schedule: the option that was taken, and how many there were.
type Choice = (usize, usize);

struct State {
    threads: Vec<Sim>,
    running: usize,
    now: Duration,
    steps: u64,
    preemptions: u32,
    path: Vec<Choice>,
    depth: usize,
    /// For each atomic, the index of its newest store.
    newest: View,
    failure: Option<String>,
}

pub(crate) struct Run {
    id: u64,
    depth: Depth,
    state: Mutex<State>,
    switched: Condvar,
}

thread_local! {
    static SIM: RefCell<Option<(Arc<Run>, usize)>> = const { RefCell::new(None) };
    static IS_INSIDE: Cell<bool> = const { Cell::new(false) };
}

fn simulated() -> Option<(Arc<Run>, usize)> {
    if !IS_INSIDE.get() {
        return None;
    }
    SIM.with_borrow(Option::clone)
}

impl State {
    fn choose(&mut self, options: usize) -> usize {
        if options <= 1 {
            return 0;
        }
        if self.depth == self.path.len() {
            self.path.push((0, options));
        }
        let (taken, recorded) = self.path[self.depth];
        assert_eq!(recorded, options, "the test is not deterministic");
        self.depth += 1;
        taken
    }

    /// Returns the threads that can run, advancing the time if all of them wait.
    fn ready(&mut self) -> Vec<usize> {
        loop {
            let of = |status: Status, threads: &[Sim]| -> Vec<usize> {
                let indices = 0..threads.len();
                indices.filter(|n| threads[*n].status == status).collect()
            };
            let ready = of(Status::Runnable, &self.threads);
            if !ready.is_empty() {
                return ready;
            }
            let spinning = of(Status::Spinning, &self.threads);
            if !spinning.is_empty() {
                self.now += Duration::from_micros(1);
                self.expire();
                for n in &spinning {
                    self.threads[*n].status = Status::Runnable;
                }
                return spinning;
            }
            let deadlines = self.threads.iter().filter_map(|sim| match sim.status {
                Status::Parked(deadline) => deadline,
                _ => None,
            });
            let Some(next) = deadlines.min() else {
                return Vec::new();
            };
            self.now = self.now.max(next);
            self.expire();
        }
    }

    fn expire(&mut self) {
        for sim in &mut self.threads {
            if matches!(sim.status, Status::Parked(Some(deadline)) if deadline <= self.now) {
                sim.status = Status::Runnable;
            }
        }
    }
}

impl Run {
    fn lock(&self) -> MutexGuard<'_, State> {
        self.state.lock().unwrap_or_else(PoisonError::into_inner)
    }

    fn fail(&self, state: &mut State, why: &str) {
        state.failure.get_or_insert_with(|| why.to_owned());
        self.switched.notify_all();
    }

    /// Passes a scheduling point: may let other threads run first. The caller has set its own status.
    fn point(&self, me: usize) {
        let mut state = self.lock();
        state.steps += 1;
        if state.steps > MAX_STEPS {
            self.fail(&mut state, "livelock");
        }
        if state.failure.is_none() {
            self.switch(&mut state, me);
        }
        while state.failure.is_none() && state.running != me {
            let waited = self.switched.wait(state);
            state = waited.unwrap_or_else(PoisonError::into_inner);
        }
        if state.failure.is_some() && !thread::panicking() {
            drop(state);
            panic::resume_unwind(Box::new("another thread of the simulation failed"));
        }
    }

    fn switch(&self, state: &mut State, me: usize) {
        let can_continue = state.threads[me].status == Status::Runnable;
        if can_continue && state.preemptions >= self.depth.preemptions {
            return;
        }
        let mut ready = state.ready();
        if ready.is_empty() {
            if state
                .threads
                .iter()
                .any(|sim| sim.status != Status::Finished)
            {
                self.fail(state, "deadlock: every thread waits");
            }
            return;
        }
        // the first choice is to continue
        if let Some(mine) = ready.iter().position(|n| *n == me) {
            ready.swap(0, mine);
        }
        let next = ready[state.choose(ready.len())];
        if next != me {
            state.preemptions += u32::from(can_continue);
            for sim in &mut state.threads {
                if sim.status == Status::Spinning {
                    sim.status = Status::Runnable;
                }
            }
            state.running = next;
            self.switched.notify_all();
        }
    }
}

/// Runs threads under every schedule of the given depth. `test` sets a run up and returns its
/// threads and a check of the end, which is passed the virtual time that has gone by. Returns the number of schedules.
///
/// # Panics
/// If a thread or the check panics in some schedule, or a schedule does not end.
pub(crate) fn explore<S: Send + Sync + 'static>(
    depth: Depth,
    test: impl Fn() -> (Arc<S>, Vec<fn(&S)>),
    check: impl Fn(&S, Duration),
) -> u64 {
    let mut path: Vec<Choice> = Vec::new();
    let mut runs = 0;
    loop {
        runs += 1;
        path = explore_once(runs, depth, path, &test, &check);
        while let Some((taken, options)) = path.pop() {
            if taken + 1 < options {
                path.push((taken + 1, options));
                break;
            }
        }
        if path.is_empty() {
            return runs;
        }
    }
}

fn explore_once<S: Send + Sync + 'static>(
    id: u64,
    depth: Depth,
    path: Vec<Choice>,
    test: &impl Fn() -> (Arc<S>, Vec<fn(&S)>),
    check: &impl Fn(&S, Duration),
) -> Vec<Choice> {
    let (shared, bodies) = test();
    let sim = || Sim {
        status: Status::Runnable,
        token: false,
        current: View::new(),
        acquired: View::new(),
        released: View::new(),
    };
    let run = Arc::new(Run {
        id,
        depth,
        state: Mutex::new(State {
            threads: bodies.iter().map(|_| sim()).collect(),
            running: usize::MAX,
            now: Duration::ZERO,
            steps: 0,
            preemptions: 0,
            path,
            depth: 0,
            newest: View::new(),
            failure: None,
        }),
        switched: Condvar::new(),
    });
    thread::scope(|scope| {
        for (me, body) in bodies.into_iter().enumerate() {
            let (run, shared) = (run.clone(), &shared);
            scope.spawn(move || run_thread(&run, me, || body(shared)));
        }
        let mut state = run.lock();
        let first = state.threads.len();
        state.running = state.choose(first);
        run.switched.notify_all();
    });
    let mut state = run.lock();
    let path = std::mem::take(&mut state.path);
    if let Some(why) = &state.failure {
        panic!("schedule {id}: {why}; choices {path:?}");
    }
    let now = state.now;
    drop(state);
    let checked = panic::catch_unwind(AssertUnwindSafe(|| check(&shared, now)));
    if let Err(panic) = checked {
        eprintln!("schedule {id}: choices {path:?}");
        panic::resume_unwind(panic);
    }
    path
}

fn run_thread(run: &Arc<Run>, me: usize, body: impl FnOnce()) {
    SIM.set(Some((run.clone(), me)));
    let mut state = run.lock();
    while state.failure.is_none() && state.running != me {
        let waited = run.switched.wait(state);
        state = waited.unwrap_or_else(PoisonError::into_inner);
    }
    let has_failed = state.failure.is_some();
    drop(state);
    if !has_failed {
        IS_INSIDE.set(true);
        let ended = panic::catch_unwind(AssertUnwindSafe(body));
        IS_INSIDE.set(false);
        let mut state = run.lock();
        state.threads[me].status = Status::Finished;
        if let Err(panic) = ended {
            let text = panic.downcast_ref::<String>().cloned();
            let text = text.or_else(|| panic.downcast_ref::<&str>().map(ToString::to_string));
            run.fail(&mut state, &text.unwrap_or_else(|| "a panic".into()));
        } else {
            run.switch(&mut state, me);
        }
    }
    SIM.set(None);
}

/// The stores of one atomic in a run: each value with the view that it publishes.
#[derive(Debug, Default)]
struct Stores {
    run: u64,
    location: usize,
    list: Vec<(u64, View)>,
}

/// A 64-bit atomic.
#[derive(Debug, Default)]
pub(crate) struct AtomicU64 {
    real: atomic::AtomicU64,
    stores: Mutex<Stores>,
}

fn is_acquire(order: Ordering) -> bool {
    matches!(
        order,
        Ordering::Acquire | Ordering::AcqRel | Ordering::SeqCst
    )
}

fn is_release(order: Ordering) -> bool {
    matches!(
        order,
        Ordering::Release | Ordering::AcqRel | Ordering::SeqCst
    )
}

impl AtomicU64 {
    pub(crate) const fn new(value: u64) -> AtomicU64 {
        AtomicU64 {
            real: atomic::AtomicU64::new(value),
            stores: Mutex::new(Stores {
                run: 0,
                location: 0,
                list: Vec::new(),
            }),
        }
    }

    fn stores(&self, run: &Run, state: &mut State) -> MutexGuard<'_, Stores> {
        let mut stores = self.stores.lock().unwrap_or_else(PoisonError::into_inner);
        if stores.run != run.id {
            stores.run = run.id;
            stores.location = state.newest.len();
            state.newest.push(0);
            let value = self.real.load(Ordering::SeqCst);
            stores.list = vec![(value, View::new())];
        }
        stores
    }

    /// Loads a store that this thread may observe: the newest one, which is the first choice, or an older one whose value
    /// `may_be_old` accepts.
    fn observe(
        &self,
        run: &Run,
        me: usize,
        order: Ordering,
        may_be_old: impl Fn(u64) -> bool,
    ) -> u64 {
        let mut state = run.lock();
        let stores = self.stores(run, &mut state);
        let location = stores.location;
        let oldest = seen(&state.threads[me].current, location);
        let last = stores.list.len() - 1;
        let mut options = vec![last];
        if order != Ordering::SeqCst && run.depth.is_fine {
            let older = (oldest..last).rev();
            options.extend(older.filter(|index| may_be_old(stores.list[*index].0)));
        }
        let index = options[state.choose(options.len())];
        let (value, view) = stores.list[index].clone();
        drop(stores);
        let sim = &mut state.threads[me];
        observe(&mut sim.current, location, index);
        join(&mut sim.acquired, &view);
        if is_acquire(order) {
            join(&mut sim.current, &view);
        }
        value
    }

    fn publish(&self, run: &Run, me: usize, value: u64, order: Ordering, sequence: bool) {
        let mut state = run.lock();
        let mut stores = self.stores(run, &mut state);
        let location = stores.location;
        let index = stores.list.len();
        let sim = &mut state.threads[me];
        observe(&mut sim.current, location, index);
        let mut view = if is_release(order) {
            sim.current.clone()
        } else {
            sim.released.clone()
        };
        observe(&mut view, location, index);
        if sequence {
            // a read-modify-write continues the release sequence of the store that it replaces
            join(&mut view, &stores.list[index - 1].1);
        }
        stores.list.push((value, view));
        state.newest[location] = index;
        self.real.store(value, Ordering::SeqCst);
    }

    pub(crate) fn load(&self, order: Ordering) -> u64 {
        let Some((run, me)) = simulated() else {
            return self.real.load(order);
        };
        if run.depth.is_fine || is_acquire(order) {
            run.point(me);
        }
        self.observe(&run, me, order, |_| true)
    }

    pub(crate) fn store(&self, value: u64, order: Ordering) {
        let Some((run, me)) = simulated() else {
            return self.real.store(value, order);
        };
        if run.depth.is_fine {
            run.point(me);
        }
        self.publish(&run, me, value, order, false);
    }

    /// Replaces the newest value. Returns it.
    fn update(&self, order: Ordering, change: impl Fn(u64) -> u64) -> u64 {
        let Some((run, me)) = simulated() else {
            let change = |old| Some(change(old));
            let changed = self
                .real
                .fetch_update(Ordering::SeqCst, Ordering::SeqCst, change);
            return changed.expect("it is changed in any case");
        };
        run.point(me);
        let old = self.observe(&run, me, order, |_| false);
        self.publish(&run, me, change(old), order, true);
        old
    }

    pub(crate) fn fetch_add(&self, more: u64, order: Ordering) -> u64 {
        self.update(order, |old| old.wrapping_add(more))
    }

    pub(crate) fn fetch_sub(&self, less: u64, order: Ordering) -> u64 {
        self.fetch_add(less.wrapping_neg(), order)
    }

    pub(crate) fn swap(&self, new: u64, order: Ordering) -> u64 {
        self.update(order, |_| new)
    }

    pub(crate) fn compare_exchange(
        &self,
        old: u64,
        new: u64,
        order: Ordering,
        failure: Ordering,
    ) -> Result<u64, u64> {
        let Some((run, me)) = simulated() else {
            return self.real.compare_exchange(old, new, order, failure);
        };
        run.point(me);
        // one that fails is a load, which may observe an older store
        let found = self.observe(&run, me, failure, |value| value != old);
        if found != old {
            return Err(found);
        }
        self.observe(&run, me, order, |_| false);
        self.publish(&run, me, new, order, true);
        Ok(old)
    }
}

/// A 64-bit signed atomic.
#[derive(Debug, Default)]
pub(crate) struct AtomicI64(AtomicU64);

impl AtomicI64 {
    pub(crate) const fn new(value: i64) -> AtomicI64 {
        AtomicI64(AtomicU64::new(value as u64))
    }

    pub(crate) fn load(&self, order: Ordering) -> i64 {
        self.0.load(order) as i64
    }

    pub(crate) fn store(&self, value: i64, order: Ordering) {
        self.0.store(value as u64, order);
    }
}

pub(crate) fn fence(order: Ordering) {
    let Some((run, me)) = simulated() else {
        return atomic::fence(order);
    };
    let mut state = run.lock();
    let sim = &mut state.threads[me];
    if is_acquire(order) {
        let acquired = sim.acquired.clone();
        join(&mut sim.current, &acquired);
    }
    if is_release(order) {
        sim.released = sim.current.clone();
    }
}

/// A point in time, virtual in a simulation.
#[derive(Clone, Copy, PartialEq, Eq, PartialOrd, Ord, Debug)]
pub(crate) enum Instant {
    Real(time::Instant),
    Virtual(Duration),
}

impl Instant {
    pub(crate) fn now() -> Instant {
        match simulated() {
            Some((run, _)) => Instant::Virtual(run.lock().now),
            None => Instant::Real(time::Instant::now()),
        }
    }

    pub(crate) fn elapsed(&self) -> Duration {
        match (self, Instant::now()) {
            (Instant::Real(then), _) => then.elapsed(),
            (Instant::Virtual(then), Instant::Virtual(now)) => now.saturating_sub(*then),
            (Instant::Virtual(_), Instant::Real(_)) => Duration::ZERO,
        }
    }
}

impl std::ops::Add<Duration> for Instant {
    type Output = Instant;

    fn add(self, more: Duration) -> Instant {
        match self {
            Instant::Real(then) => Instant::Real(then + more),
            Instant::Virtual(then) => Instant::Virtual(then + more),
        }
    }
}

/// A thread that can be unparked.
#[derive(Clone)]
pub(crate) enum Thread {
    Real(thread::Thread),
    Virtual(Arc<Run>, usize),
}

impl std::fmt::Debug for Thread {
    fn fmt(&self, f: &mut std::fmt::Formatter<'_>) -> std::fmt::Result {
        f.write_str("Thread")
    }
}

impl Thread {
    pub(crate) fn unpark(&self) {
        match self {
            Thread::Real(thread) => thread.unpark(),
            Thread::Virtual(run, other) => {
                let mut state = run.lock();
                let sim = &mut state.threads[*other];
                if matches!(sim.status, Status::Parked(_)) {
                    sim.status = Status::Runnable;
                } else {
                    sim.token = true;
                }
            }
        }
    }
}

pub(crate) fn current() -> Thread {
    match simulated() {
        Some((run, me)) => Thread::Virtual(run, me),
        None => Thread::Real(thread::current()),
    }
}

pub(crate) fn park_timeout(time: Duration) {
    let Some((run, me)) = simulated() else {
        return thread::park_timeout(time);
    };
    let mut state = run.lock();
    let deadline = state.now.checked_add(time).filter(|_| time < Duration::MAX);
    if state.threads[me].token {
        state.threads[me].token = false;
    } else {
        state.threads[me].status = Status::Parked(deadline);
    }
    drop(state);
    run.point(me);
}

pub(crate) fn sleep(time: Duration) {
    let Some((run, me)) = simulated() else {
        return thread::sleep(time);
    };
    let mut state = run.lock();
    let deadline = state.now.checked_add(time);
    state.threads[me].status = Status::Parked(deadline);
    drop(state);
    run.point(me);
}

pub(crate) fn yield_now() {
    let Some((run, me)) = simulated() else {
        return thread::yield_now();
    };
    let mut state = run.lock();
    // a thread that polls observes each store at last, so the search need not repeat the same old one
    let newest = state.newest.clone();
    join(&mut state.threads[me].current, &newest);
    state.threads[me].status = Status::Spinning;
    drop(state);
    run.point(me);
}

pub(crate) fn spin_loop() {
    if simulated().is_some() {
        yield_now();
    } else {
        std::hint::spin_loop();
    }
}

/// Returns the time since some moment, which is the same one for all threads.
pub(crate) fn nanoseconds() -> u64 {
    static START: std::sync::LazyLock<time::Instant> = std::sync::LazyLock::new(time::Instant::now);
    let time = match simulated() {
        Some((run, _)) => run.lock().now,
        None => START.elapsed(),
    };
    time.as_nanos() as u64
}

/// Returns a number that no other running thread has.
pub(crate) fn thread_number() -> u64 {
    if let Some((_, me)) = simulated() {
        return me as u64 + 1;
    }
    SIM.with(|sim| std::ptr::from_ref(sim).addr() as u64)
}

/// Returns a number that differs from call to call; the same one each time in a simulation, which must be repeatable.
pub(crate) fn uniform_draw() -> u64 {
    use std::hash::{BuildHasher, Hasher};
    if simulated().is_some() {
        return 8;
    }
    std::collections::hash_map::RandomState::new()
        .build_hasher()
        .finish()
}

#[cfg(test)]
mod tests {
    use super::*;

    struct Flags {
        data: AtomicU64,
        ready: AtomicU64,
        seen: Mutex<Vec<(u64, u64)>>,
    }

    fn message_passing(store: Ordering, reader: fn(&Flags)) -> Vec<(u64, u64)> {
        static ORDER: Mutex<Ordering> = Mutex::new(Ordering::Relaxed);
        static ALL: Mutex<Vec<(u64, u64)>> = Mutex::new(Vec::new());
        static ONE_AT_A_TIME: Mutex<()> = Mutex::new(());
        let _one = ONE_AT_A_TIME.lock();
        *ORDER.lock().unwrap() = store;
        ALL.lock().unwrap().clear();
        let test = || {
            let flags = Arc::new(Flags {
                data: AtomicU64::new(0),
                ready: AtomicU64::new(0),
                seen: Mutex::new(Vec::new()),
            });
            let writer: fn(&Flags) = |flags| {
                flags.data.store(1, Ordering::Relaxed);
                flags.ready.store(1, *ORDER.lock().unwrap());
            };
            (flags, vec![writer, reader])
        };
        explore(Depth::fine(2), test, |flags, _| {
            let seen = flags.seen.lock().unwrap();
            ALL.lock().unwrap().extend(seen.iter().copied());
        });
        let mut all = ALL.lock().unwrap().clone();
        all.sort_unstable();
        all.dedup();
        all
    }

    /// A reader that sees the flag sees the data, if and only if both sides are ordered.
    #[test]
    fn orderings_matter() {
        let acquire: fn(&Flags) = |flags| {
            let ready = flags.ready.load(Ordering::Acquire);
            let seen = (ready, flags.data.load(Ordering::Relaxed));
            flags.seen.lock().unwrap().push(seen);
        };
        let all = message_passing(Ordering::Release, acquire);
        assert_eq!(all, [(0, 0), (0, 1), (1, 1)]);
        let all = message_passing(Ordering::Relaxed, acquire);
        assert_eq!(all, [(0, 0), (0, 1), (1, 0), (1, 1)]);
        let fenced: fn(&Flags) = |flags| {
            let ready = flags.ready.load(Ordering::Relaxed);
            fence(Ordering::Acquire);
            let seen = (ready, flags.data.load(Ordering::Relaxed));
            flags.seen.lock().unwrap().push(seen);
        };
        let all = message_passing(Ordering::Release, fenced);
        assert_eq!(all, [(0, 0), (0, 1), (1, 1)]);
    }

    /// Of two threads that each store and then try to take the other's flag, one sees the other, unless a failed try may
    /// observe an old store.
    #[test]
    fn failed_exchanges_are_loads() {
        struct Both {
            /// The number of threads that have begun.
            next: AtomicU64,
            flags: [AtomicU64; 2],
            /// The number of threads that have not seen the other.
            blind: AtomicU64,
            failure: Ordering,
        }
        let meet: fn(&Both) = |both| {
            let mine = both.next.fetch_add(1, Ordering::Relaxed) as usize;
            both.flags[mine].swap(1, Ordering::SeqCst);
            let other = &both.flags[1 - mine];
            let taken = other.compare_exchange(1, 2, Ordering::SeqCst, both.failure);
            let blind = u64::from(taken.is_err());
            both.blind.fetch_add(blind, Ordering::Relaxed);
        };
        for (failure, most) in [(Ordering::SeqCst, 1), (Ordering::Relaxed, 2)] {
            let found = atomic::AtomicU64::new(0);
            let test = || {
                let both = Both {
                    next: AtomicU64::new(0),
                    flags: [AtomicU64::new(0), AtomicU64::new(0)],
                    blind: AtomicU64::new(0),
                    failure,
                };
                (Arc::new(both), vec![meet; 2])
            };
            explore(Depth::fine(2), test, |both, _| {
                let blind = both.blind.real.load(Ordering::SeqCst);
                found.fetch_max(blind, Ordering::SeqCst);
            });
            assert_eq!(found.load(Ordering::SeqCst), most);
        }
    }

    /// A counter that is read and then written loses an increment in some schedule, and none by `fetch_add`.
    #[test]
    fn lost_updates_are_found() {
        let counter = || Arc::new(AtomicU64::new(0));
        let plain: fn(&AtomicU64) = |n| n.store(n.load(Ordering::SeqCst) + 1, Ordering::SeqCst);
        let atomic: fn(&AtomicU64) = |n| _ = n.fetch_add(1, Ordering::Relaxed);
        let ends = Mutex::new(Vec::new());
        explore(
            Depth::fine(2),
            || (counter(), vec![plain; 2]),
            |n, _| {
                ends.lock().unwrap().push(n.real.load(Ordering::SeqCst));
            },
        );
        assert!(ends.lock().unwrap().contains(&1));
        let runs = explore(
            Depth::fine(2),
            || (counter(), vec![atomic; 2]),
            |n, _| {
                assert_eq!(n.real.load(Ordering::SeqCst), 2);
            },
        );
        assert!(runs >= 2);
    }

    /// A thread that no other wakes is a deadlock, and one that only its timeout wakes has let time pass.
    #[test]
    fn lost_wakeups_are_found() {
        let lone: fn(&()) = |()| park_timeout(Duration::MAX);
        let found = panic::catch_unwind(|| {
            explore(Depth::fine(0), || (Arc::new(()), vec![lone]), |_, _| {})
        });
        assert!(found.is_err());
        let timed: fn(&()) = |()| park_timeout(Duration::from_millis(5));
        let runs = explore(
            Depth::fine(0),
            || (Arc::new(()), vec![timed]),
            |_, now| {
                assert_eq!(now, Duration::from_millis(5));
            },
        );
        assert_eq!(runs, 1);
    }
}
