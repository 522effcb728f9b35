//! The part of a bank that is under its lock: the engine, and what is known of active transactions.
//!
//! A renewal carries the active transactions over, in one hold of the lock: the engine repeats their operations in the new
//! history, which is proved to succeed. A transaction then has another number and the rest of its limit, so the numbers of
//! all that is kept here are mapped: of active and waiting transactions, and of names. The part of its charges that is
//! *settled* in earlier histories is kept (`Past`), because its limit, its charges and the finding of a report are those over
//! all histories. Nothing waits for an active transaction, unless nearly all entries of the history are of active ones.
//!
//! A renewal that carries searches the whole history for the operations of active transactions, and all threads wait meanwhile.
//! So a history with a carried transaction is short, which divides the same time among more renewals. A renewal without active
//! transactions does not search, and the engine keeps its memory.

use super::{past::Past, watch::Watch};
use crate::{
    Carried, Counts, Engine, Error, Event, Metrics, Refusal, Reply, Txn,
    engine::{MAX_ENTRIES, MAX_TRANSACTIONS},
    error::Refused,
    gate::Guard,
    sync::{Instant, Thread},
    twin::Feed,
    waits::{Age, Holds, Waiter, Waits},
};
use std::{borrow::Cow, collections::HashMap, time::Duration};

/// With fewer entries left a renewal is due before a begin, so that active transactions can continue.
const NEARLY_FULL: u64 = MAX_ENTRIES / 10;
/// The transaction numbers that are kept for the time until a failed renewal is retried.
pub(super) const RESERVED_NUMBERS: u64 = MAX_TRANSACTIONS as u64 / 10;
/// With fewer entries left nothing begins in a history whose renewal failed, or frees too little.
const FULL: u64 = 10_000;
/// A renewal that frees fewer entries costs more than it gains, unless it frees transaction numbers.
const MIN_FREED: u64 = 25_000;
/// A history into which a transaction was carried is renewed at this number of entries plus twice those at its opening: a
/// renewal that carries takes a time for each entry, in which all threads wait.
const SHORT: u64 = 100_000;
/// A failed renewal is retried after this time.
pub(super) const RETRY: Duration = Duration::from_millis(100);

/// Items with their values.
pub(super) type Values = Vec<(u32, i64)>;

/// An active transaction.
pub(super) struct ActiveTxn {
    /// Its handle. The number in the history changes at a renewal.
    pub(super) handle: u64,
    pub(super) txn: Txn,
    pub(super) is_query: bool,
    pub(super) limit: u64,
    pub(super) name: Option<Cow<'static, str>>,
    pub(super) since: Instant,
    /// The number of its accepted entries, which a renewal repeats.
    entries: u64,
    /// The committed values that an update has read, under read locks.
    pub(super) reads: Values,
    /// The current values of the items that it has locked for writing.
    pub(super) writes: Values,
}

impl ActiveTxn {
    fn has_locked(&self, item: u32) -> bool {
        self.writes.iter().any(|(mine, _)| *mine == item)
    }
}

/// The transaction that an event belongs to.
#[derive(Clone, Copy)]
pub(super) struct Me {
    pub(super) handle: u64,
    pub(super) age: Age,
    pub(super) holds: Holds,
}

/// Fields are aligned apart from the lock itself, at which waiting threads poll.
#[repr(align(128))]
pub(super) struct State {
    pub(super) engine: Engine,
    /// The number of bodies that have begun, each counted once.
    pub(super) bodies: u64,
    pub(super) renewals: u64,
    pub(super) waits: Waits,
    /// The committed reports that were not audited.
    pub(super) due: Vec<Txn>,
    pub(super) active: Vec<ActiveTxn>,
    /// Lists of reads and writes for reuse.
    spare: Vec<(Values, Values)>,
    /// The number of handles so far.
    handles: u64,
    pub(super) metrics: Metrics,
    /// Logs the history for the second engine, unless audits always hold the lock.
    pub(super) feed: Option<Feed>,
    /// A renewal is due when this number of transactions is left.
    pub(super) reserved: u64,
    /// The active transactions that were carried into this history.
    carried: usize,
    /// With this number of entries a renewal is due if there are any.
    short: u64,
    /// When a failed renewal is retried, and why it failed.
    pub(super) failed_renewal: Option<(Instant, String)>,
    /// The threads that wait for capacity in the history.
    waiting_for_capacity: Vec<Thread>,
    /// The names of transactions of this history.
    pub(super) names: HashMap<u32, Cow<'static, str>>,
    /// What the transactions of this history that were carried into it have of earlier ones, by their numbers.
    pub(super) pasts: HashMap<u32, Past>,
}

impl State {
    pub(super) fn new(engine: Engine, feed: Option<Feed>, reserved: u64) -> State {
        State {
            engine,
            bodies: 0,
            renewals: 0,
            waits: Waits::default(),
            due: Vec::new(),
            active: Vec::new(),
            spare: Vec::new(),
            handles: 0,
            metrics: Metrics::default(),
            feed,
            reserved,
            carried: 0,
            short: SHORT,
            failed_renewal: None,
            waiting_for_capacity: Vec::new(),
            names: HashMap::new(),
            pasts: HashMap::new(),
        }
    }

    pub(super) fn is_nearly_full(&mut self) -> bool {
        let counts = self.engine.counts();
        self.is_nearly_full_at(&counts)
    }

    pub(super) fn is_nearly_full_at(&self, counts: &Counts) -> bool {
        counts.transactions_left <= self.reserved
            || counts.entries_left <= NEARLY_FULL
            || (self.carried > 0 && counts.entries >= self.short)
    }

    /// Reports whether a history that is nearly full is continued: it has capacity, and either a failed renewal is not
    /// retried yet, or a renewal would free too little.
    pub(super) fn may_continue(&mut self) -> bool {
        let retry = self.failed_renewal.as_ref().map(|(retry, _)| *retry);
        let is_early = retry.is_some_and(|retry| Instant::now() < retry);
        let counts = self.engine.counts();
        let has_capacity = counts.transactions_left > 0 && counts.entries_left > FULL;
        has_capacity && (is_early || !self.is_worth_renewing())
    }

    /// Reports whether a renewal frees capacity: it repeats the entries of active transactions only.
    pub(super) fn is_worth_renewing(&mut self) -> bool {
        let counts = self.engine.counts();
        let repeated: u64 = self.active.iter().map(|active| active.entries).sum();
        let entries = counts.entries.saturating_sub(repeated);
        let numbers = counts.transactions - counts.active;
        let min = (u64::from(MAX_TRANSACTIONS) - self.reserved) / 8;
        entries >= MIN_FREED || numbers >= min.max(1)
    }

    /// Returns what a transaction of this history has of earlier ones.
    pub(super) fn past(&self, txn: Txn) -> Past {
        self.pasts.get(&txn.number()).copied().unwrap_or_default()
    }

    /// Adds a transaction that the engine has begun, and returns its handle.
    pub(super) fn add(
        &mut self,
        txn: Txn,
        is_query: bool,
        limit: u64,
        name: Option<Cow<'static, str>>,
    ) -> u64 {
        if let Some(name) = &name {
            self.names.insert(txn.number(), name.clone());
        }
        let (reads, writes) = self.spare.pop().unwrap_or_default();
        self.handles += 1;
        self.active.push(ActiveTxn {
            handle: self.handles,
            txn,
            is_query,
            limit,
            name,
            since: Instant::now(),
            entries: 1,
            reads,
            writes,
        });
        self.handles
    }

    pub(super) fn active(&mut self, handle: u64) -> &mut ActiveTxn {
        let mut active = self.active.iter_mut();
        let found = active.find(|active| active.handle == handle);
        found.expect("it is active")
    }

    /// Returns a transaction by its number in this history.
    pub(super) fn waiter(&mut self, me: Me) -> Waiter {
        let txn = self.active(me.handle).txn;
        let Me { age, holds, .. } = me;
        Waiter { txn, age, holds }
    }

    /// Reports whether a transaction that was blocked may retry its event, or is the victim of a deadlock.
    pub(super) fn may_retry(&mut self, me: Me) -> bool {
        let txn = self.active(me.handle).txn;
        self.waits.may_retry(txn)
    }

    /// Returns the charges of an active transaction over all histories.
    pub(super) fn charged(&mut self, handle: u64) -> u64 {
        let txn = self.active(handle).txn;
        let account = self.engine.account(txn);
        self.past(txn).settled + account.map_or(0, |account| account.charged)
    }

    /// Describes why an event of a transaction is refused.
    pub(super) fn describe(&mut self, me: Me, reason: Refusal, item: &str) -> Refused {
        let name = self.active(me.handle).name.clone();
        self.describe_as(name.as_deref(), reason, item)
    }

    /// Describes why an event of a transaction with this name is refused.
    pub(super) fn describe_as(
        &mut self,
        name: Option<&str>,
        reason: Refusal,
        item: &str,
    ) -> Refused {
        let mut refused = Refused::of(reason).item(item);
        refused.name = name.map(ToString::to_string);
        if let Some(other) = reason.names() {
            refused.other = self.names.get(&other.number()).map(ToString::to_string);
            if !matches!(reason, Refusal::BlockedByLock(_)) {
                let account = self.engine.account(other).ok();
                let settled = self.past(other).settled;
                refused.limit = account.map(|account| settled + account.limit);
            }
        }
        refused
    }

    /// Counts the time for which a transaction has waited, if it has.
    pub(super) fn count_wait(&mut self, waited: Duration, watch: &Watch<'_>) {
        if !waited.is_zero() {
            self.metrics.waits += 1;
            self.metrics.waited += waited;
            watch.wait(waited);
        }
    }

    fn keep_write(&mut self, me: Me, item: u32, value: i64) {
        let active = self.active(me.handle);
        active.entries += 1;
        match active.writes.iter_mut().find(|(mine, _)| *mine == item) {
            Some((_, last)) => *last = value,
            None => active.writes.push((item, value)),
        }
    }

    /// Renews the engine, carries the active transactions over, and wakes the threads that wait for capacity.
    pub(super) fn renew(&mut self) -> Result<(), Error> {
        let values = match &self.feed {
            Some(_) => self.engine.values()?,
            None => Vec::new(),
        };
        if self.active.is_empty() {
            self.engine.renew()?;
            (self.pasts, self.names) = Default::default();
        } else {
            let carried = self.engine.renew_carrying()?;
            self.renumber(&carried);
        }
        self.carried = self.active.len();
        self.short = 2 * self.engine.counts().entries + SHORT;
        if let Some(feed) = &mut self.feed {
            feed.renew(values);
        }
        self.log_carried();
        self.failed_renewal = None;
        self.renewals += 1;
        self.due.clear();
        self.wake_for_capacity();
        Ok(())
    }

    /// Gives the carried transactions their new numbers wherever the old ones are kept.
    fn renumber(&mut self, carried: &[Carried]) {
        let numbers: HashMap<Txn, Txn> = carried.iter().map(|one| (one.old, one.new)).collect();
        let (mut pasts, mut names) = (HashMap::new(), HashMap::new());
        for one in carried {
            let past = self.past(one.old).carried(one.settled);
            pasts.insert(one.new.number(), past);
            let name = self.names.remove(&one.old.number());
            names.extend(name.map(|name| (one.new.number(), name)));
        }
        (self.pasts, self.names) = (pasts, names);
        self.waits.renumber(|old| numbers.get(&old).copied());
        for active in &mut self.active {
            active.txn = numbers[&active.txn];
            self.metrics.carried += u64::from(!active.is_query);
            self.metrics.carried_reports += u64::from(active.is_query);
        }
    }

    /// Logs the carried transactions for the second engine: their begins, and what updates have read and written last. It
    /// omits the reads of reports, because a carried report is not audited.
    fn log_carried(&mut self) {
        if self.feed.is_none() {
            return;
        }
        self.active.sort_by_key(|active| active.txn);
        let mut operations = Vec::new();
        for index in 0..self.active.len() {
            let active = &mut self.active[index];
            let (txn, is_query) = (active.txn, active.is_query);
            active.reads.sort_unstable();
            active.reads.dedup();
            let reads = active
                .reads
                .iter()
                .map(|&(item, value)| (Event::Read { txn, item }, value));
            operations.extend(reads.map(|(read, value)| (read, txn, value)));
            let writes = active.writes.iter();
            let writes = writes.map(|&(item, value)| Event::Write { txn, item, value });
            operations.extend(writes.map(|write| (write, txn, 0)));
            let limit = active.limit - self.past(txn).settled;
            let begin = match is_query {
                true => Event::BeginQuery {
                    limit,
                    strict: false, // no update has committed in this history
                },
                false => Event::BeginUpdate { limit },
            };
            self.log(begin, txn, 0);
        }
        for (event, txn, value) in operations {
            self.log(event, txn, value);
        }
    }

    /// Adds the thread to those that wait for capacity in the history.
    pub(super) fn wait_for_capacity(&mut self, thread: Thread) {
        self.waiting_for_capacity.push(thread);
    }

    pub(super) fn wake_for_capacity(&mut self) {
        for thread in self.waiting_for_capacity.drain(..) {
            thread.unpark();
        }
    }

    /// Logs an accepted event for the second engine. A read has the value that was read.
    pub(super) fn log(&mut self, event: Event, txn: Txn, value: i64) {
        let Some(feed) = &mut self.feed else {
            return;
        };
        let (kind, item, value) = match event {
            Event::BeginUpdate { limit } => (1, 0, limit as i64),
            Event::Read { item, .. } => (2, item, value),
            Event::Write { item, value, .. } => (3, item, value),
            Event::Commit { .. } => (4, 0, 0),
            Event::Abort { .. } => (5, 0, 0),
            Event::BeginQuery { limit, strict } => (if strict { 7 } else { 6 }, 0, limit as i64),
        };
        feed.push(kind, txn.number(), item, value);
    }

    /// Executes a read of a transaction once.
    pub(super) fn read(&mut self, me: Me, item: u32) -> Result<Reply, Error> {
        let waiter = self.waiter(me);
        let txn = waiter.txn;
        let read = Event::Read { txn, item };
        let reply = self.step(waiter, item, |engine| engine.step(read))?;
        if let Reply::Value(value) = reply {
            self.log(read, txn, value);
            let active = self.active(me.handle);
            active.entries += 1;
            if !active.is_query && !active.has_locked(item) {
                active.reads.push((item, value));
            }
        }
        Ok(reply)
    }

    /// Executes a write of an update once.
    pub(super) fn write(&mut self, me: Me, item: u32, value: i64) -> Result<Reply, Error> {
        let waiter = self.waiter(me);
        let txn = waiter.txn;
        let write = Event::Write { txn, item, value };
        let reply = self.step(waiter, item, |engine| engine.step(write))?;
        if let Reply::Wrote = reply {
            self.log(write, txn, 0);
            self.keep_write(me, item, value);
        }
        Ok(reply)
    }

    /// Locks an item for writing and reads it.
    pub(super) fn read_for_update(&mut self, me: Me, item: u32) -> Result<Reply, Error> {
        let waiter = self.waiter(me);
        let txn = waiter.txn;
        let reply = self.step(waiter, item, |engine| engine.step_for_update(txn, item))?;
        if let Reply::Value(value) = reply {
            // the engine takes the lock by a write of the current value, which is an entry of the history
            if !self.active(me.handle).has_locked(item) {
                self.log(Event::Write { txn, item, value }, txn, 0);
                self.keep_write(me, item, value);
            }
            self.active(me.handle).entries += 1;
            self.log(Event::Read { txn, item }, txn, value);
        }
        Ok(reply)
    }

    /// Executes an event of a transaction at an item once, and registers the transaction as waiting if another one blocks it.
    fn step(
        &mut self,
        waiter: Waiter,
        item: u32,
        event: impl FnOnce(&mut Engine) -> Result<Reply, Error>,
    ) -> Result<Reply, Error> {
        let txn = waiter.txn;
        if let Some(reason) = self.waits.victim(txn) {
            return Err(deadlock(reason));
        }
        self.waits.end(txn);
        let reply = event(&mut self.engine)?;
        if let Reply::Refused(reason) = reply {
            if let Some(other) = reason.other_than(txn) {
                self.waits.begin(waiter, item, other, reason);
            }
        }
        if let Some(reason) = self.waits.victim(txn) {
            return Err(deadlock(reason));
        }
        Ok(reply)
    }

    /// Removes a transaction that has ended. Returns the transaction it waited for, if it was a deadlock's victim.
    pub(super) fn remove(&mut self, handle: u64) -> Option<Txn> {
        let index = self
            .active
            .iter()
            .position(|active| active.handle == handle);
        let mut active = self.active.swap_remove(index.expect("it is active"));
        self.carried -= usize::from(self.pasts.contains_key(&active.txn.number()));
        active.reads.clear();
        active.writes.clear();
        self.spare.push((active.reads, active.writes));
        self.waits.forget(active.txn)
    }
}

fn deadlock(reason: Refusal) -> Error {
    Error::Deadlock(Box::new(Refused::of(reason)))
}

/// A hold of a bank's lock.
pub(super) type Hold<'a> = Guard<'a, State>;
