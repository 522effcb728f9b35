//! A bank: an engine that threads share, with named items, which renews its history before it is full.
//!
//! `transact` runs a body on a mirror of the committed values, without the lock, and executes its events in one hold of the
//! lock (`ahead`, `mirror`). Reports, and updates by `transact_stepwise`, take the lock for each event (`handle`), so that
//! others run in between and a report sees work in progress.
//!
//! A blocked transaction sleeps until it can retry, as long as its patience lasts. `waits` keeps the wait-for graph; of a
//! ring of waiters the youngest is aborted at once, and its body runs again. Once the history is nearly full, the next thread
//! that wants to begin renews the engine and carries the active transactions over (`state`). Every active transaction is owned
//! by a handle whose drop aborts it.
//!
//! A bank is fastest while one thread uses it for some time: then the engine is in the cache of one processor. So the lock is
//! kept by its last holder for a short lease (`gate`). An item that becomes free is not reserved for a waiter, which would
//! leave it idle until that thread runs; the first thread to come takes it.
//!
//! With a store (`store`) the engine is ahead of it by the updates in a queue. A call that returns something of them waits
//! until the store has them; `value` and `snapshot` return the store's values without waiting. An update enters the queue
//! before the mirror shows its writes, so a body cannot read a value that no call waits for.
//!
//! Rejected: retrying after pauses alone, which are too short for a counter that eight threads change and too long for a
//! transfer; waking every waiter each time, or polling a few times before sleeping, after which threads alternate at each
//! transaction and fetch the engine from each other's caches.

mod ahead;
mod builder;
mod closing;
mod handle;
mod items;
mod past;
mod state;
#[cfg(test)]
mod tests;
mod update;
mod watch;

pub use builder::BankBuilder;
pub use closing::Closing;
pub use items::{Item, ItemKey};
pub use update::{BankQuery, BankUpdate};

use crate::{
    Active, Audited, Counts, Error, Event, Finding, Metrics, Options, Patience, Renewed, Reply,
    Standing, StoreOpening, Totals, Txn,
    error::{MAX_LIMIT, Refused, text_of},
    gate::Lock,
    mirror::Mirror,
    patience::{Rounds, Waiting},
    store::{Place, StoreQueue},
    sync::{AtomicU64, Instant, current},
    twin::Twin,
    waits::{Age, Holds},
};
use builder::BeforeRenewal;
use handle::Handle;
use items::{Items, with_names};
use state::{Hold, Me, RETRY, State};
use std::{
    borrow::Cow,
    cell::Cell,
    collections::HashMap,
    fmt, iter,
    panic::{self, AssertUnwindSafe},
    sync::atomic::Ordering,
    thread,
};
use update::Mode;
use watch::{Observing, Renewal, Watch};

thread_local! {
    /// The bank whose work before a renewal runs on this thread.
    static RENEWING: Cell<Option<u32>> = const { Cell::new(None) };
}

/// A committed report, by which it can be audited until the bank is renewed.
///
/// ```
/// let bank = esr::Bank::builder().item("checking", 500).open()?;
/// let (value, report) = bank.report_unaudited(0, |report| report.read("checking"))?;
/// assert_eq!((value, bank.audit(report)?.distance), (500, 0));
/// # Ok::<(), esr::Error>(())
/// ```
#[derive(Clone, Copy, PartialEq, Eq, Hash, Debug)]
pub struct Report {
    bank: u32,
    renewals: u64,
    query: Txn,
}

/// An engine that threads share, with named items.
///
/// ```
/// use esr::Bank;
///
/// let bank = Bank::builder().item("checking", 500).item("savings", 1500).open()?;
/// bank.transact(200, |transfer| {
///     transfer.add("checking", -100)?;
///     transfer.add("savings", 100)
/// })?;
/// let (sum, finding) = bank.report(200, |report| Ok(report.read("checking")? + report.read("savings")?))?;
/// assert_eq!((sum, finding.distance), (2000, 0));
/// # Ok::<(), esr::Error>(())
/// ```
pub struct Bank {
    items: Items,
    patience: Patience,
    observing: Option<Observing>,
    state: Lock<State>,
    mirror: Mirror,
    /// The number of step-by-step transactions that have ended.
    ends: AtomicU64,
    /// The number of optimistic updates whose body failed before the engine had heard of them.
    dropped: AtomicU64,
    is_optimistic: bool,
    /// The second engine, unless audits always hold the lock.
    twin: Option<Twin>,
    before_renewal: Option<BeforeRenewal>,
    /// The queue in front of the store, if there is one.
    store: Option<StoreQueue>,
    store_opening: Option<StoreOpening>,
}

/// Counts a body that panics, and delays the panic until the store has what the body may have read.
struct PanicCounter<'a> {
    bank: &'a Bank,
    /// Whether the thread was panicking before the body ran.
    was_panicking: bool,
}

impl PanicCounter<'_> {
    fn of(bank: &Bank) -> PanicCounter<'_> {
        PanicCounter {
            bank,
            was_panicking: thread::panicking(),
        }
    }
}

impl Drop for PanicCounter<'_> {
    fn drop(&mut self) {
        if thread::panicking() && !self.was_panicking {
            self.bank.dropped.fetch_add(1, Ordering::Relaxed);
            let _ = self.bank.wait_for_store();
        }
    }
}

/// Beginning and renewing.
impl Bank {
    /// Returns a builder without items.
    ///
    /// ```
    /// let bank = esr::Bank::builder().item("checking", 500).item("savings", 1500).open()?;
    /// # Ok::<(), esr::Error>(())
    /// ```
    pub fn builder() -> BankBuilder {
        BankBuilder::default()
    }

    /// Takes the lock.
    ///
    /// # Panics
    /// If the work before a renewal of this bank calls it, which would wait for itself. The bank reports that as a failure of
    /// the work.
    fn lock(&self) -> Hold<'_> {
        assert!(!self.is_inside_renewal(), "{}", Error::InsideRenewal);
        self.state.lock()
    }

    fn is_inside_renewal(&self) -> bool {
        self.before_renewal.is_some() && RENEWING.get() == Some(self.items.bank())
    }

    fn check_not_inside_renewal(&self) -> Result<(), Error> {
        if self.is_inside_renewal() {
            return Err(Error::InsideRenewal);
        }
        Ok(())
    }

    /// Fails if the bank has stopped because of its store.
    fn check_running(&self) -> Result<(), Error> {
        self.store.as_ref().map_or(Ok(()), StoreQueue::check)
    }

    /// Puts a commit of this hold of the lock into the queue of the store, and returns its place. No other thread has
    /// seen the writes yet.
    fn enter_store(&self, writes: impl Iterator<Item = (u32, i64)>) -> Place {
        let queue = self.store.as_ref();
        queue.map_or(Place::NONE, |queue| queue.enter(writes))
    }

    /// Returns the place in the queue of the store after all updates that have committed.
    fn last_place(&self) -> Place {
        self.enter_store(iter::empty())
    }

    /// Waits until the store has all updates up to a place.
    fn wait_for_place(&self, place: Place) -> Result<(), Error> {
        let queue = self.store.as_ref();
        queue.map_or(Ok(()), |queue| queue.wait(place))
    }

    /// Waits until the store has all updates that have committed so far.
    fn wait_for_store(&self) -> Result<(), Error> {
        self.wait_for_place(self.last_place())
    }

    /// Returns the error of a body, once the store has what the body may have read.
    fn after_store<E: From<Error>>(&self, error: E) -> E {
        self.wait_for_store().map_or_else(E::from, |()| error)
    }

    fn waiting_of(&self, options: &Options) -> Waiting {
        Waiting::of_bank(options.patience.unwrap_or(self.patience))
    }

    /// Takes the lock when the history has capacity for a begin, and renews it if no other thread does. It is also renewed
    /// before the first report if the second engine needs that.
    fn lock_with_capacity(&self, waiting: &mut Waiting, is_query: bool) -> Result<Hold<'_>, Error> {
        self.check_not_inside_renewal()?;
        loop {
            let mut state = self.lock();
            self.check_running()?;
            let is_early = is_query && self.prepare_audit(&mut state);
            if !is_early && (!state.is_nearly_full() || state.may_continue()) {
                return Ok(state);
            }
            if is_early || state.is_worth_renewing() {
                let renewal = self.renew(&mut state);
                drop(state);
                self.observe_renewal(renewal)?;
                continue;
            }
            if waiting.rest().is_zero() {
                return Err(Error::HistoryFull);
            }
            state.wait_for_capacity(current());
            drop(state);
            waiting.park();
        }
    }

    /// Starts the thread of the second engine before the first report. Reports whether the bank is renewed first.
    fn prepare_audit(&self, state: &mut State) -> bool {
        match (&mut state.feed, &self.twin) {
            (Some(feed), Some(twin)) => feed.begin_report(|| twin.start()),
            _ => false,
        }
    }

    /// Renews the history for an event for which it has no capacity, if that frees enough. Reports whether it has capacity.
    fn renew_for_event(&self) -> Result<bool, Error> {
        let mut state = self.lock();
        if state.engine.counts().entries_left > 1 {
            return Ok(true);
        }
        if !state.is_worth_renewing() {
            return Ok(false);
        }
        let renewal = self.renew(&mut state);
        drop(state);
        self.observe_renewal(renewal)?;
        Ok(true)
    }

    /// Does the work before a renewal, and renews. After failed work the bank continues in the old history if it can.
    fn renew(&self, state: &mut State) -> Result<Renewal, Error> {
        let begun = Instant::now();
        let carried = (state.metrics.carried, state.metrics.carried_reports);
        if self.before_renewal.is_some() {
            // the work sees the history
            self.wait_for_store()?;
        }
        if let Err(why) = self.work_before_renewal(state) {
            state.metrics.failed_renewals += 1;
            state.failed_renewal = Some((Instant::now() + RETRY, why.clone()));
            if state.may_continue() {
                return Ok(Renewal::Failed { why });
            }
            return Err(Error::RenewalFailed { why });
        }
        state.renew()?;
        let time = begun.elapsed();
        state.metrics.count_renewal(time);
        Ok(Renewal::Done(Renewed {
            time,
            carried: state.metrics.carried - carried.0,
            carried_reports: state.metrics.carried_reports - carried.1,
        }))
    }

    fn work_before_renewal(&self, state: &mut State) -> Result<(), String> {
        let Some(work) = &self.before_renewal else {
            return Ok(());
        };
        let outer = RENEWING.replace(Some(self.items.bank()));
        let mut closing = Closing::of(state, &self.items);
        let done = panic::catch_unwind(AssertUnwindSafe(|| work(&mut closing)));
        RENEWING.set(outer);
        match done {
            Ok(done) => done.map_err(|error| error.to_string()),
            Err(panic) => Err(format!("panicked: {}", text_of(panic.as_ref()))),
        }
    }

    /// Begins a transaction. One that begins again keeps the age of its first attempt.
    fn begin<'a>(
        &'a self,
        options: &Options,
        is_query: bool,
        age: Option<Age>,
        mut waiting: Waiting,
        watch: &'a Watch<'_>,
    ) -> Result<Handle<'a>, Error> {
        let mut state = self.lock_with_capacity(&mut waiting, is_query)?;
        let limit = options.limit;
        let event = match is_query {
            true => Event::BeginQuery {
                limit,
                strict: options.is_strict,
            },
            false => Event::BeginUpdate { limit },
        };
        let txn = match state.engine.step(event)? {
            Reply::Begun(txn) => txn,
            Reply::Refused(reason) => return Err(Refused::of(reason).limit(limit).into()),
            other => unreachable!("{other:?}"),
        };
        state.log(event, txn, 0);
        state.metrics.reruns += u64::from(watch.has_run());
        let handle = state.add(txn, is_query, limit, options.name.clone());
        let age = age.unwrap_or_else(|| {
            state.bodies += 1;
            Age(state.bodies)
        });
        Ok(Handle {
            bank: self,
            me: Me {
                handle,
                age,
                holds: Holds::Nothing,
            },
            waiting,
            stop: None,
            is_active: true,
            is_query,
            has_failed: false,
            watch,
        })
    }

    /// Runs a body in a transaction, and again in another one after it had to be given up.
    fn run<T, E: From<Error>, R>(
        &self,
        options: &Options,
        is_query: bool,
        mut waiting: Waiting,
        mut body: impl FnMut(&mut Handle<'_>) -> Result<T, E>,
        end: impl Fn(Handle<'_>, T) -> Result<R, Error>,
        watch: &Watch<'_>,
    ) -> Result<R, E> {
        let mut age = None;
        loop {
            let mut handle = self.begin(options, is_query, age, waiting, watch)?;
            watch.run();
            if handle.is_query {
                self.wake_twin();
            }
            age = Some(handle.me.age);
            let result = body(&mut handle);
            let why = match (handle.stop.take(), result) {
                (None, Ok(value)) => return end(handle, value).map_err(E::from),
                (None, Err(error)) => {
                    drop(handle);
                    return Err(self.after_store(error));
                }
                (Some(why), _) => why,
            };
            waiting = handle.waiting.of_next_attempt();
            let renewals = self.count_deadlock(matches!(why, Error::Deadlock(_)));
            let waited_for = handle.abort();
            watch.give_up(|| why.clone());
            match (&why, waited_for) {
                (Error::Deadlock(_), Some(txn)) => self.wait_for_end(txn, renewals, &mut waiting),
                (Error::HistoryFull, _) => waiting.spend_share(),
                _ => _ = waiting.pause_for_attempt(),
            }
            if waiting.rest().is_zero() {
                self.lock().metrics.aborts += 1;
                return Err(self.after_store(why.into()));
            }
        }
    }

    /// Counts the victim of a deadlock. Returns the number of renewals.
    fn count_deadlock(&self, is_deadlock: bool) -> u64 {
        let mut state = self.lock();
        state.metrics.deadlocks += u64::from(is_deadlock);
        state.renewals
    }

    fn wake_twin(&self) {
        if let Some(twin) = &self.twin {
            twin.wake();
        }
    }

    /// Reports whether a transaction has ended, of the history after the given number of renewals.
    fn has_ended(&self, txn: Txn, renewals: u64) -> bool {
        let mut state = self.lock();
        let account = state.engine.account(txn);
        state.renewals != renewals
            || account.map_or(true, |account| account.standing != Standing::Active)
    }

    /// Waits for the end of a transaction, as long as patience lasts.
    fn wait_for_end(&self, txn: Txn, renewals: u64, waiting: &mut Waiting) {
        let mut rounds = Rounds::default();
        while !self.has_ended(txn, renewals) && waiting.pause(&mut rounds) {}
    }
}

/// Updates and reports.
impl Bank {
    /// Runs an update: runs the body and commits. After a deadlock, or when the update was blocked for some time or other
    /// updates changed what it had read, the body runs again, until its [`Patience`] has ended. An error or panic of the
    /// body aborts the update.
    ///
    /// The body runs on the committed values of one moment, and its events are executed together when it has ended. So it
    /// must have no other effects, and must not begin other transactions in the bank. [`transact_stepwise`] executes each
    /// event at once. [`try_transact`] is for bodies with their own error type.
    ///
    /// ```
    /// let bank = esr::Bank::builder().item("checking", 500).item("savings", 1500).open()?;
    /// let left = bank.transact(200, |transfer| {
    ///     transfer.add("savings", 100)?;
    ///     Ok(transfer.add("checking", -100)?)
    /// })?;
    /// assert_eq!(left, 400);
    /// # Ok::<(), esr::Error>(())
    /// ```
    ///
    /// # Errors
    /// The body's, and when its patience has ended the last reason: `Deadlock`, `Refused`, `HistoryFull`. With a store that
    /// fails for too long, `StoreStopped`.
    ///
    /// [`transact_stepwise`]: Bank::transact_stepwise
    /// [`try_transact`]: Bank::try_transact
    pub fn transact<T>(
        &self,
        options: impl Into<Options>,
        body: impl FnMut(&mut BankUpdate<'_, '_>) -> Result<T, Error>,
    ) -> Result<T, Error> {
        self.try_transact(options, body)
    }

    /// Runs an update like [`transact`](Bank::transact), by a body with its own error type.
    ///
    /// ```
    /// use esr::{Bank, Error};
    ///
    /// #[derive(Debug, PartialEq)]
    /// enum Failed {
    ///     TooLittle(i64),
    ///     Engine(Error),
    /// }
    ///
    /// impl From<Error> for Failed {
    ///     fn from(error: Error) -> Failed {
    ///         Failed::Engine(error)
    ///     }
    /// }
    ///
    /// let bank = Bank::builder().item("checking", 50).open()?;
    /// let result = bank.try_transact(100, |update| match update.add("checking", -100)? {
    ///     left if left < 0 => Err(Failed::TooLittle(left)),
    ///     left => Ok(left),
    /// });
    /// assert_eq!(result, Err(Failed::TooLittle(-50)));
    /// assert_eq!(bank.value("checking")?, 50);
    /// # Ok::<(), Error>(())
    /// ```
    ///
    /// # Errors
    /// Those of [`transact`](Bank::transact).
    pub fn try_transact<T, E: From<Error>>(
        &self,
        options: impl Into<Options>,
        mut body: impl FnMut(&mut BankUpdate<'_, '_>) -> Result<T, E>,
    ) -> Result<T, E> {
        let options = options.into();
        self.watched(&options, false, |watch| {
            let mut waiting = None;
            if self.is_optimistic && options.limit <= MAX_LIMIT {
                let _counter = PanicCounter::of(self);
                if let Some(result) = self.run_ahead(&options, &mut waiting, &mut body, watch) {
                    return result;
                }
            }
            let waiting = waiting.unwrap_or_else(|| self.waiting_of(&options));
            self.run_stepwise(&options, waiting, body, watch)
        })
    }

    /// Runs an update like [`transact`](Bank::transact), but executes each event at once: the update takes its locks as the
    /// body runs, and a report that reads meanwhile sees its work in progress and is charged for it.
    ///
    /// ```
    /// let bank = esr::Bank::builder().item("checking", 500).open()?;
    /// bank.transact_stepwise(100, |update| {
    ///     update.add("checking", -100)?;
    ///     assert_eq!(bank.report_unaudited(100, |report| report.read("checking"))?.0, 400);
    ///     Ok(())
    /// })?;
    /// # Ok::<(), esr::Error>(())
    /// ```
    ///
    /// # Errors
    /// Those of [`transact`](Bank::transact).
    pub fn transact_stepwise<T>(
        &self,
        options: impl Into<Options>,
        body: impl FnMut(&mut BankUpdate<'_, '_>) -> Result<T, Error>,
    ) -> Result<T, Error> {
        self.try_transact_stepwise(options, body)
    }

    /// Runs an update like [`transact_stepwise`](Bank::transact_stepwise), by a body with its own error type.
    ///
    /// ```
    /// let bank = esr::Bank::builder().item("checking", 50).open()?;
    /// let result = bank.try_transact_stepwise(100, |update| match update.add("checking", -100)? {
    ///     left if left < 0 => Err(Box::<dyn std::error::Error>::from("too little")),
    ///     left => Ok(left),
    /// });
    /// assert_eq!(result.unwrap_err().to_string(), "too little");
    /// # Ok::<(), esr::Error>(())
    /// ```
    ///
    /// # Errors
    /// Those of [`transact`](Bank::transact).
    pub fn try_transact_stepwise<T, E: From<Error>>(
        &self,
        options: impl Into<Options>,
        body: impl FnMut(&mut BankUpdate<'_, '_>) -> Result<T, E>,
    ) -> Result<T, E> {
        let options = options.into();
        let waiting = self.waiting_of(&options);
        self.watched(&options, false, |watch| {
            self.run_stepwise(&options, waiting, body, watch)
        })
    }

    fn run_stepwise<T, E: From<Error>>(
        &self,
        options: &Options,
        waiting: Waiting,
        mut body: impl FnMut(&mut BankUpdate<'_, '_>) -> Result<T, E>,
        watch: &Watch<'_>,
    ) -> Result<T, E> {
        self.run(
            options,
            false,
            waiting,
            |handle| {
                let mode = Mode::Steps(handle);
                body(&mut BankUpdate { mode })
            },
            |handle, value| handle.commit().map(|()| value),
            watch,
        )
    }

    /// Runs a report: begins a query, runs the body, commits, and audits. The body runs again as that of an update does.
    ///
    /// ```
    /// let bank = esr::Bank::builder().item("checking", 500).item("savings", 1500).open()?;
    /// let (sum, finding) = bank.report(100, |report| Ok(report.read("checking")? + report.read("savings")?))?;
    /// assert_eq!((sum, finding.distance), (2000, 0));
    /// # Ok::<(), esr::Error>(())
    /// ```
    ///
    /// # Errors
    /// Those of [`transact`](Bank::transact).
    pub fn report<T>(
        &self,
        options: impl Into<Options>,
        body: impl FnMut(&mut BankQuery<'_, '_>) -> Result<T, Error>,
    ) -> Result<(T, Finding), Error> {
        self.try_report(options, body)
    }

    /// Runs a report like [`report`](Bank::report), by a body with its own error type.
    ///
    /// ```
    /// let bank = esr::Bank::builder().item("checking", 50).open()?;
    /// let result = bank.try_report(100, |report| match report.read("checking")? {
    ///     left if left < 100 => Err(Box::<dyn std::error::Error>::from("too little")),
    ///     left => Ok(left),
    /// });
    /// assert_eq!(result.unwrap_err().to_string(), "too little");
    /// # Ok::<(), esr::Error>(())
    /// ```
    ///
    /// # Errors
    /// Those of [`transact`](Bank::transact).
    pub fn try_report<T, E: From<Error>>(
        &self,
        options: impl Into<Options>,
        body: impl FnMut(&mut BankQuery<'_, '_>) -> Result<T, E>,
    ) -> Result<(T, Finding), E> {
        self.query(&options.into(), body, |handle, value| {
            Ok((value, handle.commit_and_audit()?))
        })
    }

    /// Runs a strict report: its audit places it after all updates that had committed when it began.
    ///
    /// ```
    /// let bank = esr::Bank::builder().item("checking", 500).open()?;
    /// bank.transact(0, |update| update.write("checking", 400))?;
    /// let (value, finding) = bank.strict_report(100, |report| report.read("checking"))?;
    /// assert_eq!((value, finding.distance, finding.before.len()), (400, 0, 1));
    /// # Ok::<(), esr::Error>(())
    /// ```
    ///
    /// # Errors
    /// Those of [`transact`](Bank::transact).
    pub fn strict_report<T>(
        &self,
        options: impl Into<Options>,
        body: impl FnMut(&mut BankQuery<'_, '_>) -> Result<T, Error>,
    ) -> Result<(T, Finding), Error> {
        self.try_report(options.into().strict(), body)
    }

    /// Runs a report that is audited later: by [`audit`](Bank::audit), or before the bank is renewed.
    ///
    /// ```
    /// let bank = esr::Bank::builder().item("checking", 500).open()?;
    /// let (value, report) = bank.report_unaudited(100, |report| report.read("checking"))?;
    /// println!("{value}, off by {}", bank.audit(report)?.distance);
    /// # Ok::<(), esr::Error>(())
    /// ```
    ///
    /// # Errors
    /// Those of [`transact`](Bank::transact).
    pub fn report_unaudited<T>(
        &self,
        options: impl Into<Options>,
        body: impl FnMut(&mut BankQuery<'_, '_>) -> Result<T, Error>,
    ) -> Result<(T, Report), Error> {
        self.query(&options.into(), body, |handle, value| {
            Ok((value, handle.commit_as_due()?))
        })
    }

    fn query<T, E: From<Error>, R>(
        &self,
        options: &Options,
        mut body: impl FnMut(&mut BankQuery<'_, '_>) -> Result<T, E>,
        end: impl Fn(Handle<'_>, T) -> Result<R, Error>,
    ) -> Result<R, E> {
        self.watched(options, true, |watch| {
            self.run(
                options,
                true,
                self.waiting_of(options),
                |handle| body(&mut BankQuery { handle }),
                end,
                watch,
            )
        })
    }
}

/// Committed reports and the history.
impl Bank {
    fn report_of(&self, state: &State, query: Txn) -> Report {
        Report {
            bank: self.items.bank(),
            renewals: state.renewals,
            query,
        }
    }

    /// Takes the lock, if the history still has the report.
    fn lock_with(&self, report: Report) -> Result<Hold<'_>, Error> {
        self.check_not_inside_renewal()?;
        let state = self.lock();
        self.check_running()?;
        if report.bank != self.items.bank() {
            return Err(Error::NotACommittedQuery);
        }
        if report.renewals != state.renewals {
            return Err(Error::ReportExpired);
        }
        Ok(state)
    }

    /// Audits a report that ended without an audit.
    ///
    /// ```
    /// let bank = esr::Bank::builder().item("checking", 500).open()?;
    /// let (_, report) = bank.report_unaudited(100, |report| report.read("checking"))?;
    /// assert_eq!(bank.audit(report)?.to_string(), "distance 0 import 0 before -");
    /// # Ok::<(), esr::Error>(())
    /// ```
    ///
    /// # Errors
    /// `ReportExpired` if the bank has been renewed since, `NotACommittedQuery` for another bank's report, `NoMemory`.
    pub fn audit(&self, report: Report) -> Result<Finding, Error> {
        let mut state = self.lock_with(report)?;
        state.due.retain(|due| *due != report.query);
        self.audit_of(state, report)
    }

    /// Audits a committed report, on the second engine if there is one.
    fn audit_of<'a>(&'a self, mut state: Hold<'a>, report: Report) -> Result<Finding, Error> {
        let (begun, mut is_background) = (Instant::now(), false);
        let past = state.past(report.query);
        let carried = past.finding(&mut state.engine, report.query)?;
        let found = match &mut state.feed {
            _ if carried.is_some() => carried.ok_or(Error::NoMemory),
            Some(feed) if feed.can_audit() => {
                let receiver = feed.ask(report.query);
                drop(state);
                self.wake_twin();
                let found = receiver.recv().unwrap_or(Err(Error::NoMemory));
                state = self.lock();
                is_background = found.is_ok();
                state.metrics.background_audits += u64::from(is_background);
                found
            }
            _ => Err(Error::NoMemory),
        };
        let finding = match found {
            // the second engine was given up, or has not been asked
            Err(Error::NoMemory) if state.renewals == report.renewals => {
                state.engine.audit(report.query)?
            }
            found => found?,
        };
        let time = begun.elapsed();
        state.metrics.count_audit(&finding, time);
        drop(state);
        self.observe(|observer| {
            observer.audited(&Audited {
                finding: &finding,
                time,
                is_background,
            });
        });
        Ok(finding)
    }

    /// Returns the history since the last renewal as a script of `esr run`, with the accepted and blocked events. Items have
    /// their names; one that is not a name of a script (a letter, and up to 15 letters, digits or underscores) is called
    /// `i` and its number. Transactions are called `t1`, `t2`, or by their name: see [`Options::name`].
    ///
    /// ```
    /// let bank = esr::Bank::builder().item("checking", 500).open()?;
    /// bank.transact(0, |update| update.add("checking", -100))?;
    /// let script = bank.script()?;
    /// assert!(script.starts_with("item checking 500\nbegin t1 update 0\n"));
    /// # Ok::<(), esr::Error>(())
    /// ```
    ///
    /// # Errors
    /// `NoMemory`.
    pub fn script(&self) -> Result<String, Error> {
        self.check_not_inside_renewal()?;
        let mut state = self.lock();
        let text = state.engine.script_by(self.items.texts())?;
        let text = self.named(&state, text);
        drop(state);
        self.wait_for_store()?;
        Ok(text)
    }

    fn named(&self, state: &State, text: String) -> String {
        if state.names.is_empty() {
            return text;
        }
        with_names(text, &self.items, |txn| {
            state.names.get(&txn).map(Cow::as_ref)
        })
    }

    /// Explains a report as `esr explain` does: each read with the value of the nearest serial placement, and each charge
    /// with the update that caused it.
    ///
    /// ```
    /// let bank = esr::Bank::builder().item("checking", 500).open()?;
    /// let (_, report) = bank.report_unaudited(0, |report| report.read("checking"))?;
    /// assert_eq!(
    ///     bank.explain(report)?,
    ///     "read checking 500 nearest 500 off 0\nbefore -\nafter -\ndistance 0 import 0\n"
    /// );
    /// assert!(bank.picture(report)?.starts_with("<svg"));
    /// # Ok::<(), esr::Error>(())
    /// ```
    ///
    /// # Errors
    /// Those of [`audit`](Bank::audit).
    pub fn explain(&self, report: Report) -> Result<String, Error> {
        let mut state = self.lock_with(report)?;
        let text = state.engine.explain_by(report.query, self.items.texts())?;
        let past = state.past(report.query);
        let text = past.explained(&mut state.engine, report.query, text)?;
        let text = self.named(&state, text);
        drop(state);
        self.wait_for_store()?;
        Ok(text)
    }

    /// Returns the audit of a report as a JSON object, its problem and a certificate of the least distance, which `esr check`
    /// verifies without this engine.
    ///
    /// ```
    /// let bank = esr::Bank::builder().item("checking", 500).open()?;
    /// let (_, report) = bank.report_unaudited(0, |report| report.read("checking"))?;
    /// assert!(bank.bundle(report)?.starts_with(b"{"));
    /// # Ok::<(), esr::Error>(())
    /// ```
    ///
    /// # Errors
    /// Those of [`audit`](Bank::audit), and `ReportCarried`.
    pub fn bundle(&self, report: Report) -> Result<Vec<u8>, Error> {
        let mut state = self.lock_with(report)?;
        state.past(report.query).check_exact()?;
        let bundle = state.engine.bundle(report.query)?;
        drop(state);
        self.wait_for_store()?;
        Ok(bundle)
    }

    /// Draws the audit of a report as one SVG, in which transactions have their numbers.
    ///
    /// ```
    /// let bank = esr::Bank::builder().item("checking", 500).open()?;
    /// let (_, report) = bank.report_unaudited(100, |report| report.read("checking"))?;
    /// assert!(bank.picture(report)?.starts_with("<svg"));
    /// # Ok::<(), esr::Error>(())
    /// ```
    ///
    /// # Errors
    /// Those of [`audit`](Bank::audit), and `ReportCarried`.
    pub fn picture(&self, report: Report) -> Result<String, Error> {
        let mut state = self.lock_with(report)?;
        state.past(report.query).check_exact()?;
        let picture = state.engine.picture_by(report.query, self.items.texts())?;
        drop(state);
        self.wait_for_store()?;
        Ok(picture)
    }

    /// Returns the ledger of the history since the last renewal as CSV, a line for each transaction: see
    /// [`Engine::ledger`](crate::Engine::ledger).
    ///
    /// ```
    /// let bank = esr::Bank::builder().item("checking", 500).open()?;
    /// bank.transact(200, |update| update.add("checking", -100))?;
    /// assert!(bank.ledger()?.contains("\n1,t1,update,200,0,200,"));
    /// # Ok::<(), esr::Error>(())
    /// ```
    ///
    /// # Errors
    /// `NoMemory`.
    pub fn ledger(&self) -> Result<String, Error> {
        self.check_not_inside_renewal()?;
        let mut state = self.lock();
        let text = state.engine.ledger()?;
        let text = self.named(&state, text);
        drop(state);
        self.wait_for_store()?;
        Ok(text)
    }

    /// Returns the size of the history since the last renewal, and what is left of it.
    ///
    /// ```
    /// let bank = esr::Bank::builder().item("checking", 500).open()?;
    /// bank.transact(0, |update| update.add("checking", -100))?;
    /// let counts = bank.counts()?;
    /// assert_eq!((counts.transactions, counts.active), (1, 0));
    /// # Ok::<(), esr::Error>(())
    /// ```
    ///
    /// # Errors
    /// [`Error::StoreStopped`] if the bank has stopped because its store failed.
    pub fn counts(&self) -> Result<Counts, Error> {
        self.check_running()?;
        Ok(self.lock().engine.counts())
    }

    /// Returns the total import since the last renewal, and the number of entries.
    ///
    /// ```
    /// let bank = esr::Bank::builder().item("checking", 500).open()?;
    /// assert_eq!(bank.totals()?.import, 0);
    /// # Ok::<(), esr::Error>(())
    /// ```
    ///
    /// # Errors
    /// [`Error::StoreStopped`] if the bank has stopped because its store failed.
    pub fn totals(&self) -> Result<Totals, Error> {
        self.check_running()?;
        Ok(self.lock().engine.totals())
    }
}

/// Values, and what an operator watches.
impl Bank {
    /// Returns a handle of an item, by which it is read and written without a look-up of its name.
    ///
    /// ```
    /// let bank = esr::Bank::builder().item("checking", 500).open()?;
    /// let checking = bank.item("checking")?;
    /// assert_eq!(bank.report(0, |report| report.read(checking))?.0, 500);
    /// # Ok::<(), esr::Error>(())
    /// ```
    ///
    /// # Errors
    /// `Refused` if no item has that name.
    pub fn item(&self, name: &str) -> Result<Item, Error> {
        Ok(Item {
            bank: self.items.bank(),
            number: name.number(&self.items)?,
        })
    }

    /// Returns the committed value of an item, without the lock; with a store, the value that the store has.
    ///
    /// ```
    /// let bank = esr::Bank::builder().item("checking", 500).open()?;
    /// assert_eq!(bank.value("checking")?, 500);
    /// # Ok::<(), esr::Error>(())
    /// ```
    ///
    /// # Errors
    /// `Refused` if no item has that name, `StoreStopped`.
    pub fn value(&self, item: impl ItemKey) -> Result<i64, Error> {
        let number = item.number(&self.items)?;
        match &self.store {
            Some(queue) => queue.value(number),
            None => Ok(self.mirror.value(number)),
        }
    }

    /// Returns the committed values of all items at one moment, by their names; with a store, the values that the store has.
    /// They are exact and need no limit. Values that an active update has written are not among them: a report reads those,
    /// and its audit computes by how much it is off.
    ///
    /// ```
    /// let bank = esr::Bank::builder().item("checking", 500).item("savings", 1500).open()?;
    /// let snapshot = bank.snapshot()?;
    /// assert_eq!((snapshot["checking"], snapshot.values().sum::<i64>()), (500, 2000));
    /// # Ok::<(), esr::Error>(())
    /// ```
    ///
    /// # Errors
    /// `NoMemory`, `StoreStopped`.
    pub fn snapshot(&self) -> Result<HashMap<&str, i64>, Error> {
        let values = self.snapshot_in_order()?;
        Ok(self.items.names().zip(values).collect())
    }

    /// Returns a [`snapshot`](Bank::snapshot) in the order in which the builder was given the items.
    ///
    /// ```
    /// let bank = esr::Bank::builder().item("checking", 500).item("savings", 1500).open()?;
    /// assert_eq!(bank.snapshot_in_order()?, [500, 1500]);
    /// # Ok::<(), esr::Error>(())
    /// ```
    ///
    /// # Errors
    /// `NoMemory`, `StoreStopped`.
    pub fn snapshot_in_order(&self) -> Result<Vec<i64>, Error> {
        if let Some(queue) = &self.store {
            return queue.values();
        }
        self.check_not_inside_renewal()?;
        self.lock().engine.values()
    }

    /// Returns counters since the bank was opened.
    ///
    /// ```
    /// let bank = esr::Bank::builder().item("checking", 500).open()?;
    /// bank.transact(0, |update| update.add("checking", -100))?;
    /// assert_eq!(bank.metrics().updates, 1);
    /// # Ok::<(), esr::Error>(())
    /// ```
    #[must_use]
    pub fn metrics(&self) -> Metrics {
        let state = self.lock();
        let mut metrics = state.metrics.clone();
        metrics.aborts += self.dropped.load(Ordering::Relaxed);
        metrics.active = state.active.len() as u64;
        let ages = state.active.iter().map(|active| active.since.elapsed());
        metrics.oldest_active = ages.max().unwrap_or_default();
        let counts = self.store.as_ref().map(StoreQueue::counts);
        (metrics.store_writes, metrics.store_updates) = counts.unwrap_or_default();
        metrics
    }

    /// Returns the active transactions, the oldest first. Bodies that run optimistically are not among them.
    ///
    /// ```
    /// let bank = esr::Bank::builder().item("checking", 500).open()?;
    /// assert!(bank.active().is_empty());
    /// # Ok::<(), esr::Error>(())
    /// ```
    #[must_use]
    pub fn active(&self) -> Vec<Active> {
        let mut state = self.lock();
        let handles = state.active.iter().map(|active| active.handle);
        let handles: Vec<u64> = handles.collect();
        let charges: Vec<u64> = handles.iter().map(|h| state.charged(*h)).collect();
        let mut list = Vec::with_capacity(charges.len());
        for (active, charged) in state.active.iter().zip(charges) {
            let wait = state.waits.wait_of(active.txn);
            list.push(Active {
                txn: active.txn,
                name: active.name.as_ref().map(ToString::to_string),
                is_query: active.is_query,
                age: active.since.elapsed(),
                limit: active.limit,
                charged,
                waits_for: wait.and_then(|(blocker, _)| blocker),
                waits_at: wait.map(|(_, item)| self.items.name(item).to_owned()),
            });
        }
        list.sort_by_key(|active| active.txn);
        list
    }

    /// Returns why the last renewal failed, if its work failed and it has not succeeded since.
    ///
    /// ```
    /// let bank = esr::Bank::builder().item("checking", 500).open()?;
    /// assert_eq!(bank.renewal_failure(), None);
    /// # Ok::<(), esr::Error>(())
    /// ```
    #[must_use]
    pub fn renewal_failure(&self) -> Option<String> {
        let state = self.lock();
        state.failed_renewal.as_ref().map(|(_, why)| why.clone())
    }

    /// Returns how the values of the store differed from those of the builder when the bank was opened, if it has a store.
    ///
    /// ```
    /// let bank = esr::Bank::builder().item("checking", 500).open()?;
    /// assert_eq!(bank.store_opening(), None);
    /// # Ok::<(), esr::Error>(())
    /// ```
    #[must_use]
    pub fn store_opening(&self) -> Option<StoreOpening> {
        self.store_opening
    }

    /// Returns how often the bank has been renewed.
    ///
    /// ```
    /// let bank = esr::Bank::builder().item("checking", 500).open()?;
    /// assert_eq!(bank.renewals(), 0);
    /// # Ok::<(), esr::Error>(())
    /// ```
    #[must_use]
    pub fn renewals(&self) -> u64 {
        self.lock().renewals
    }
}

impl fmt::Debug for Bank {
    fn fmt(&self, f: &mut fmt::Formatter<'_>) -> fmt::Result {
        f.debug_struct("Bank")
            .field("items", &self.items.len())
            .finish_non_exhaustive()
    }
}
