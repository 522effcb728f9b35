//! An engine: one transaction engine of the C library, used by one thread at a time.

use crate::{
    Account, Carried, Counts, Error, Event, Finding, Refusal, Reply, Standing, Totals, Txn,
    error::Refused, mirror::MAX_VALUE, sys,
};
use std::fmt;

/// The maximum number of items of an engine.
///
/// ```
/// assert!(esr::Engine::open(&[0; esr::MAX_ITEMS]).is_ok());
/// assert!(esr::Engine::open(&[0; esr::MAX_ITEMS + 1]).is_err());
/// ```
pub const MAX_ITEMS: usize = 4_096;

/// The maximum number of entries of a history. One is reserved for the end of each active transaction, so a commit or an
/// abort always succeeds; an event with no entry left fails with `HistoryFull`.
///
/// ```
/// let mut engine = esr::Engine::open(&[500])?;
/// assert_eq!(engine.counts().entries_left, esr::MAX_ENTRIES);
/// # Ok::<(), esr::Error>(())
/// ```
pub const MAX_ENTRIES: u64 = 1_000_000;

/// The maximum number of transactions of a history. After that a begin fails with `HistoryFull` until [`Engine::renew`].
///
/// ```
/// let mut engine = esr::Engine::open(&[500])?;
/// assert_eq!(engine.counts().transactions_left, u64::from(esr::MAX_TRANSACTIONS));
/// # Ok::<(), esr::Error>(())
/// ```
pub const MAX_TRANSACTIONS: u32 = 65_535;

/// A transaction engine. It is closed when it is dropped.
///
/// ```
/// let mut engine = esr::Engine::open(&[500])?;
/// let update = engine.begin_update(0)?;
/// engine.write(update, 0, 400)?;
/// engine.commit(update)?;
/// assert_eq!(engine.values()?, [400]);
/// # Ok::<(), esr::Error>(())
/// ```
pub struct Engine {
    raw: sys::Engine,
}

// SAFETY: only this value refers to the engine's memory, and the library has no thread-local state.
unsafe impl Send for Engine {}

/// Why an event has not the expected reply.
#[derive(Debug)]
pub(crate) enum Misfit {
    /// It has another one.
    Differs,
    /// It is refused.
    Refused(Refusal),
    /// It was not executed.
    Failed(Error),
}

impl Misfit {
    #[cold]
    fn of(status: u32, reply: sys::Reply) -> Misfit {
        match check(status).map(|()| reply_of(reply)) {
            Ok(Reply::Refused(reason)) => Misfit::Refused(reason),
            Ok(_) => Misfit::Differs,
            Err(error) => Misfit::Failed(error),
        }
    }
}

fn check(status: u32) -> Result<(), Error> {
    match status {
        0 => Ok(()),
        5 => Err(Error::BadNames),
        6 => Err(Error::NotACommittedQuery),
        12 => Err(Error::HistoryFull),
        13 => Err(Error::NoMemory),
        16 => Err(Error::TransactionActive),
        // 1, 2, 3 and 4 are handled by the calls that return them; 8, 14 and 15 are returned for events without a kind and
        // for engines that are closed or opened twice, which this crate does not pass
        other => unreachable!("status {other}"),
    }
}

fn refusal_of(reply: sys::Reply) -> Refusal {
    let txn = Txn(reply.txn);
    match reply.refusal {
        1 => Refusal::NoSuchTransaction,
        2 => Refusal::AlreadyEnded,
        3 => Refusal::NoSuchItem,
        4 => Refusal::QueryMayNotWrite,
        5 => Refusal::ValueOutOfRange,
        6 => Refusal::LimitOutOfRange,
        7 => Refusal::TooManyTransactions,
        8 => Refusal::TooManyReads,
        9 => Refusal::BlockedByLock(txn),
        10 => Refusal::BlockedByImport(txn),
        11 => Refusal::BlockedByExport(txn),
        other => unreachable!("refusal {other}"),
    }
}

/// Reports whether `reply_of` returns this reply, which is not a refusal.
#[inline(always)]
fn is_reply(reply: sys::Reply, other: Reply) -> bool {
    match other {
        Reply::Begun(txn) => reply.kind == 1 && reply.txn == txn.0,
        Reply::Value(value) => reply.kind == 2 && reply.value == value,
        Reply::Wrote => reply.kind == 3,
        Reply::Committed => reply.kind == 4,
        Reply::Aborted => reply.kind == 5,
        Reply::Refused(_) => false,
    }
}

fn reply_of(reply: sys::Reply) -> Reply {
    match reply.kind {
        1 => Reply::Begun(Txn(reply.txn)),
        2 => Reply::Value(reply.value),
        3 => Reply::Wrote,
        4 => Reply::Committed,
        5 => Reply::Aborted,
        6 => Reply::Refused(refusal_of(reply)),
        other => unreachable!("reply {other}"),
    }
}

/// Returns the reply, or a refusal as an error that names the item or value of the event.
fn accepted(reply: Reply, event: Event) -> Result<Reply, Error> {
    let Reply::Refused(reason) = reply else {
        return Ok(reply);
    };
    let refused = Refused::of(reason);
    Err(match event {
        Event::BeginUpdate { limit } | Event::BeginQuery { limit, .. } => refused.limit(limit),
        Event::Read { item, .. } => refused.item(item),
        Event::Write { item, value, .. } => refused.item(item).value(value),
        Event::Commit { .. } | Event::Abort { .. } => refused,
    }
    .into())
}

fn event_of(event: Event) -> sys::Event {
    let empty = sys::Event::default();
    match event {
        Event::BeginUpdate { limit } => sys::Event {
            kind: 1,
            limit,
            ..empty
        },
        Event::BeginQuery { limit, strict } => sys::Event {
            kind: if strict { 7 } else { 6 },
            limit,
            ..empty
        },
        Event::Read { txn, item } => sys::Event {
            kind: 2,
            txn: txn.0,
            item,
            ..empty
        },
        Event::Write { txn, item, value } => sys::Event {
            kind: 3,
            txn: txn.0,
            item,
            value,
            ..empty
        },
        Event::Commit { txn } => sys::Event {
            kind: 4,
            txn: txn.0,
            ..empty
        },
        Event::Abort { txn } => sys::Event {
            kind: 5,
            txn: txn.0,
            ..empty
        },
    }
}

/// Converts the bytes of a text that the library wrote.
fn text(bytes: Vec<u8>) -> String {
    String::from_utf8(bytes).expect("texts are ASCII")
}

/// Returns the list that a call writes to a buffer, calling it again if the buffer was too small. The buffer is not
/// initialized, so unused capacity costs little.
///
/// # Safety
/// When the call returns 0, it has written the counted number of elements to the buffer, which has capacity for them.
unsafe fn list_by<T: Copy>(
    capacity: usize,
    mut call: impl FnMut(*mut T, usize, &mut usize) -> u32,
) -> Result<Vec<T>, Error> {
    let mut list: Vec<T> = Vec::new();
    // if there is no memory for the whole buffer, the second call requests the exact size
    let _ = list.try_reserve_exact(capacity);
    let mut count = 0;
    let mut status = call(list.as_mut_ptr(), list.capacity(), &mut count);
    if status == 7 {
        #[cfg(test)]
        tests::SECOND_TRIES.set(tests::SECOND_TRIES.get() + 1);
        list.try_reserve_exact(count).map_err(|_| Error::NoMemory)?;
        status = call(list.as_mut_ptr(), list.capacity(), &mut count);
    }
    check(status)?;
    assert!(count <= list.capacity());
    // SAFETY: this number of elements was written, as the caller promises.
    unsafe { list.set_len(count) };
    list.shrink_to_fit();
    Ok(list)
}

impl Engine {
    /// Opens an engine over items with the given values.
    ///
    /// ```
    /// let mut engine = esr::Engine::open(&[500])?;
    /// assert_eq!(engine.values()?, [500]);
    /// # Ok::<(), esr::Error>(())
    /// ```
    ///
    /// # Errors
    /// `TooManyItems`, `ValueOutOfRange`, `NoMemory`.
    pub fn open(opening: &[i64]) -> Result<Engine, Error> {
        Engine::open_weighted(opening, &[])
    }

    /// Opens an engine whose items have weights, 1 to 1,000, by which differences are multiplied. Items without a weight
    /// have weight 1.
    ///
    /// ```
    /// // 15 phones at 900, and money: a limit is an amount of money.
    /// let mut engine = esr::Engine::open_weighted(&[15, 0], &[900])?;
    /// let sale = engine.begin_update(900)?;
    /// engine.write(sale, 0, 14)?;
    /// let count = engine.begin_query(1_000)?;
    /// engine.read(count, 0)?;
    /// assert_eq!(engine.account(count)?.charged, 900);
    /// # Ok::<(), esr::Error>(())
    /// ```
    ///
    /// # Errors
    /// `TooManyItems`, `ValueOutOfRange`, `WeightOutOfRange`, `NoMemory`.
    pub fn open_weighted(opening: &[i64], weights: &[u32]) -> Result<Engine, Error> {
        Engine::open_labelled(opening, weights, |number| number.to_string())
    }

    /// Opens an engine. Errors call an item by its label.
    pub(crate) fn open_labelled(
        opening: &[i64],
        weights: &[u32],
        label: impl Fn(usize) -> String,
    ) -> Result<Engine, Error> {
        let mut engine = Engine { raw: sys::CLOSED };
        // SAFETY: the pointers and the lengths are those of two slices, which are borrowed for the call.
        let status = unsafe {
            sys::esr_open_weighted(
                &mut engine.raw,
                opening.as_ptr(),
                opening.len(),
                weights.as_ptr(),
                weights.len(),
            )
        };
        let is_in_range = |value: &i64| (-MAX_VALUE..=MAX_VALUE).contains(value);
        match status {
            1 => Err(Error::TooManyItems {
                count: opening.len().max(weights.len()),
            }),
            2 => {
                let number = opening.iter().position(|value| !is_in_range(value));
                let number = number.expect("a value is out of range");
                let (item, value) = (label(number), opening[number]);
                Err(Error::ValueOutOfRange { item, value })
            }
            4 => {
                let number = weights
                    .iter()
                    .position(|weight| !(1..=1_000).contains(weight));
                let number = number.expect("a weight is out of range");
                let (item, weight) = (label(number), weights[number]);
                Err(Error::WeightOutOfRange { item, weight })
            }
            status => check(status).map(|()| engine),
        }
    }

    /// Executes an event and returns the reply, which may be a refusal.
    ///
    /// ```
    /// use esr::{Engine, Event, Refusal, Reply};
    ///
    /// let mut engine = Engine::open(&[500])?;
    /// let txn = engine.begin_update(0)?;
    /// assert_eq!(engine.step(Event::Read { txn, item: 0 })?, Reply::Value(500));
    /// assert_eq!(engine.step(Event::Read { txn, item: 1 })?, Reply::Refused(Refusal::NoSuchItem));
    /// # Ok::<(), esr::Error>(())
    /// ```
    ///
    /// # Errors
    /// `HistoryFull`, `NoMemory`: then nothing has changed.
    pub fn step(&mut self, event: Event) -> Result<Reply, Error> {
        let mut reply = sys::Reply::default();
        check(self.call(event, &mut reply))?;
        Ok(reply_of(reply))
    }

    #[inline(always)]
    fn call(&mut self, event: Event, reply: &mut sys::Reply) -> u32 {
        let raw = &mut self.raw;
        match event {
            Event::BeginUpdate { limit } => sys::esr_begin_update(raw, limit, reply),
            Event::BeginQuery { limit, strict } => sys::esr_begin_query(raw, limit, strict, reply),
            Event::Read { txn, item } => sys::esr_read(raw, txn.0, item, reply),
            Event::Write { txn, item, value } => sys::esr_write(raw, txn.0, item, value, reply),
            Event::Commit { txn } => sys::esr_commit(raw, txn.0, reply),
            Event::Abort { txn } => sys::esr_abort(raw, txn.0, reply),
        }
    }

    /// Executes an event, and checks that the reply is the expected one. A bank calls this for each event of most updates, with
    /// constant kinds of event and reply, so it is compiled into the caller.
    #[inline(always)]
    pub(crate) fn expect(&mut self, event: Event, expected: Reply) -> Result<(), Misfit> {
        let mut reply = sys::Reply::default();
        let status = self.call(event, &mut reply);
        if status == 0 && is_reply(reply, expected) {
            return Ok(());
        }
        Err(Misfit::of(status, reply))
    }

    fn accept(&mut self, event: Event) -> Result<Reply, Error> {
        let reply = self.step(event)?;
        accepted(reply, event)
    }

    /// Executes events one after another, as [`step`](Engine::step) would each. Ends at the first error, and if `stop` is set
    /// after the first refusal. Returns the replies of the executed events, and the error.
    ///
    /// ```
    /// use esr::{Engine, Event, Refusal, Reply};
    ///
    /// let mut engine = Engine::open(&[500, 1500])?;
    /// let t = engine.begin_update(0)?;
    /// let (replies, error) = engine.steps(
    ///     &[
    ///         Event::Write { txn: t, item: 0, value: 400 },
    ///         Event::Write { txn: t, item: 7, value: 1600 },
    ///         Event::Commit { txn: t },
    ///     ],
    ///     true,
    /// );
    /// assert_eq!(replies, [Reply::Wrote, Reply::Refused(Refusal::NoSuchItem)]);
    /// assert_eq!(error, None);
    /// # Ok::<(), esr::Error>(())
    /// ```
    pub fn steps(&mut self, events: &[Event], stop: bool) -> (Vec<Reply>, Option<Error>) {
        let events: Vec<sys::Event> = events.iter().copied().map(event_of).collect();
        let mut replies = vec![sys::Reply::default(); events.len()];
        let mut answered = 0;
        // SAFETY: the pointers and the lengths are those of two lists of this function.
        let status = unsafe {
            sys::esr_do(
                &mut self.raw,
                events.as_ptr(),
                events.len(),
                replies.as_mut_ptr(),
                replies.len(),
                stop,
                &mut answered,
            )
        };
        replies.truncate(answered);
        (
            replies.into_iter().map(reply_of).collect(),
            check(status).err(),
        )
    }

    fn begin(&mut self, event: Event) -> Result<Txn, Error> {
        match self.accept(event)? {
            Reply::Begun(txn) => Ok(txn),
            other => unreachable!("{other:?}"),
        }
    }

    /// Begins an update. Here and in the calls below a refusal is an error.
    ///
    /// ```
    /// let mut engine = esr::Engine::open(&[500])?;
    /// let update = engine.begin_update(200)?;
    /// engine.write(update, 0, 400)?;
    /// # Ok::<(), esr::Error>(())
    /// ```
    ///
    /// # Errors
    /// Those of [`step`](Engine::step), and `Refused`.
    pub fn begin_update(&mut self, limit: u64) -> Result<Txn, Error> {
        self.begin(Event::BeginUpdate { limit })
    }

    /// Begins a query that is not strict.
    ///
    /// ```
    /// let mut engine = esr::Engine::open(&[500])?;
    /// let report = engine.begin_query(200)?;
    /// assert_eq!(engine.read(report, 0)?, 500);
    /// # Ok::<(), esr::Error>(())
    /// ```
    ///
    /// # Errors
    /// Those of [`step`](Engine::step), and `Refused`.
    pub fn begin_query(&mut self, limit: u64) -> Result<Txn, Error> {
        self.begin(Event::BeginQuery {
            limit,
            strict: false,
        })
    }

    /// Reads an item. An item that an update is going to write is read by [`read_for_update`](Engine::read_for_update).
    ///
    /// ```
    /// let mut engine = esr::Engine::open(&[500])?;
    /// let report = engine.begin_query(200)?;
    /// assert_eq!(engine.read(report, 0)?, 500);
    /// # Ok::<(), esr::Error>(())
    /// ```
    ///
    /// # Errors
    /// Those of [`step`](Engine::step), and `Refused`.
    pub fn read(&mut self, txn: Txn, item: u32) -> Result<i64, Error> {
        match self.accept(Event::Read { txn, item })? {
            Reply::Value(value) => Ok(value),
            other => unreachable!("{other:?}"),
        }
    }

    /// Writes an item.
    ///
    /// ```
    /// let mut engine = esr::Engine::open(&[500])?;
    /// let update = engine.begin_update(0)?;
    /// engine.write(update, 0, 400)?;
    /// assert_eq!(engine.read(update, 0)?, 400);
    /// # Ok::<(), esr::Error>(())
    /// ```
    ///
    /// # Errors
    /// Those of [`step`](Engine::step), and `Refused`.
    pub fn write(&mut self, txn: Txn, item: u32, value: i64) -> Result<(), Error> {
        self.accept(Event::Write { txn, item, value }).map(drop)
    }

    /// Commits a transaction.
    ///
    /// ```
    /// let mut engine = esr::Engine::open(&[500])?;
    /// let update = engine.begin_update(0)?;
    /// engine.write(update, 0, 400)?;
    /// engine.commit(update)?;
    /// assert_eq!(engine.values()?, [400]);
    /// # Ok::<(), esr::Error>(())
    /// ```
    ///
    /// # Errors
    /// Those of [`step`](Engine::step), and `Refused`.
    pub fn commit(&mut self, txn: Txn) -> Result<(), Error> {
        self.accept(Event::Commit { txn }).map(drop)
    }

    /// Aborts a transaction: its writes are undone.
    ///
    /// ```
    /// let mut engine = esr::Engine::open(&[500])?;
    /// let update = engine.begin_update(0)?;
    /// engine.write(update, 0, 400)?;
    /// engine.abort(update)?;
    /// assert_eq!(engine.values()?, [500]);
    /// # Ok::<(), esr::Error>(())
    /// ```
    ///
    /// # Errors
    /// Those of [`step`](Engine::step), and `Refused`.
    pub fn abort(&mut self, txn: Txn) -> Result<(), Error> {
        self.accept(Event::Abort { txn }).map(drop)
    }

    /// Reads an item that the update is going to write. It takes the write lock first, so that no other transaction writes the
    /// item in between, and two updates that do so do not deadlock.
    ///
    /// ```
    /// let mut engine = esr::Engine::open(&[500])?;
    /// let update = engine.begin_update(0)?;
    /// let value = engine.read_for_update(update, 0)?;
    /// engine.write(update, 0, value - 100)?;
    /// engine.commit(update)?;
    /// assert_eq!(engine.values()?, [400]);
    /// # Ok::<(), esr::Error>(())
    /// ```
    ///
    /// # Errors
    /// Those of [`step`](Engine::step), and `Refused`. With `NoMemory` the lock may have been taken.
    pub fn read_for_update(&mut self, txn: Txn, item: u32) -> Result<i64, Error> {
        let reply = self.step_for_update(txn, item)?;
        match accepted(reply, Event::Read { txn, item })? {
            Reply::Value(value) => Ok(value),
            other => unreachable!("{other:?}"),
        }
    }

    pub(crate) fn step_for_update(&mut self, txn: Txn, item: u32) -> Result<Reply, Error> {
        let mut reply = sys::Reply::default();
        check(sys::esr_read_for_update(
            &mut self.raw,
            txn.0,
            item,
            &mut reply,
        ))?;
        Ok(reply_of(reply))
    }

    /// Returns the size of the history, and what is left of it.
    ///
    /// ```
    /// let mut engine = esr::Engine::open(&[500])?;
    /// engine.begin_update(0)?;
    /// assert_eq!((engine.counts().transactions, engine.counts().active), (1, 1));
    /// # Ok::<(), esr::Error>(())
    /// ```
    pub fn counts(&mut self) -> Counts {
        let mut counts = sys::Counts::default();
        check(sys::esr_counts_of(&mut self.raw, &mut counts)).expect("an open engine has counts");
        Counts {
            entries: counts.entries,
            transactions: counts.transactions,
            active: counts.active,
            entries_left: counts.entries_left,
            transactions_left: counts.transactions_left,
        }
    }

    /// Returns the account of a transaction, active or not.
    ///
    /// ```
    /// let mut engine = esr::Engine::open(&[500])?;
    /// let update = engine.begin_update(200)?;
    /// let account = engine.account(update)?;
    /// assert_eq!((account.is_query, account.limit, account.charged), (false, 200, 0));
    /// # Ok::<(), esr::Error>(())
    /// ```
    ///
    /// # Errors
    /// `NotBegun`.
    pub fn account(&mut self, txn: Txn) -> Result<Account, Error> {
        let mut account = sys::Account::default();
        match sys::esr_account_of(&mut self.raw, txn.0, &mut account) {
            3 => return Err(Error::NotBegun { txn }),
            status => check(status)?,
        }
        Ok(Account {
            is_query: account.query,
            standing: match account.standing {
                0 => Standing::Active,
                4 => Standing::Committed,
                5 => Standing::Aborted,
                other => unreachable!("standing {other}"),
            },
            limit: account.limit,
            charged: account.charged,
        })
    }

    /// Returns the total import, and the number of entries.
    ///
    /// ```
    /// let mut engine = esr::Engine::open(&[500])?;
    /// let (update, report) = (engine.begin_update(100)?, engine.begin_query(100)?);
    /// engine.write(update, 0, 400)?;
    /// engine.read(report, 0)?;
    /// assert_eq!(engine.totals().import, 100);
    /// # Ok::<(), esr::Error>(())
    /// ```
    pub fn totals(&mut self) -> Totals {
        let mut totals = sys::Totals::default();
        check(sys::esr_totals_of(&mut self.raw, &mut totals)).expect("an open engine has totals");
        Totals {
            import: u128::from(totals.high) << 64 | u128::from(totals.low),
            entries: totals.entries,
        }
    }

    /// Returns the committed values of the items, in their order.
    ///
    /// ```
    /// let mut engine = esr::Engine::open(&[500])?;
    /// assert_eq!(engine.values()?, [500]);
    /// # Ok::<(), esr::Error>(())
    /// ```
    ///
    /// # Errors
    /// `NoMemory`.
    pub fn values(&mut self) -> Result<Vec<i64>, Error> {
        // SAFETY: the pointer and the length are those of one list, whose head the call writes.
        unsafe {
            list_by(MAX_ITEMS, |values, capacity, count| {
                sys::esr_values(&mut self.raw, values, capacity, count)
            })
        }
    }

    /// Audits a committed query.
    ///
    /// ```
    /// let mut engine = esr::Engine::open(&[500])?;
    /// let (update, report) = (engine.begin_update(100)?, engine.begin_query(100)?);
    /// engine.write(update, 0, 400)?;
    /// engine.read(report, 0)?;
    /// engine.commit(report)?;
    /// engine.abort(update)?;
    /// assert_eq!(engine.audit(report)?.to_string(), "distance 100 import 100 before -");
    /// # Ok::<(), esr::Error>(())
    /// ```
    ///
    /// # Errors
    /// `NotACommittedQuery`, `NoMemory`.
    pub fn audit(&mut self, query: Txn) -> Result<Finding, Error> {
        let mut found = sys::Finding::default();
        // with capacity for all from the start there is one audit
        let all = self.counts().transactions as usize;
        // SAFETY: the pointer and the length are those of one list, whose head the call writes.
        let before = unsafe {
            list_by(all, |before, capacity, count| {
                let status = sys::esr_audit(&mut self.raw, query.0, before, capacity, &mut found);
                *count = found.count;
                status
            })?
        };
        Ok(Finding {
            distance: found.distance,
            import: found.import,
            before: before.into_iter().map(Txn).collect(),
            renewals: 0,
        })
    }

    /// Returns the audit of a committed query as a JSON object, which `esr check` verifies without this engine.
    ///
    /// ```
    /// let mut engine = esr::Engine::open(&[500])?;
    /// let (update, report) = (engine.begin_update(100)?, engine.begin_query(100)?);
    /// engine.write(update, 0, 400)?;
    /// engine.read(report, 0)?;
    /// engine.commit(report)?;
    /// assert!(engine.bundle(report)?.starts_with(b"{"));
    /// # Ok::<(), esr::Error>(())
    /// ```
    ///
    /// # Errors
    /// `NotACommittedQuery`, `NoMemory`.
    pub fn bundle(&mut self, query: Txn) -> Result<Vec<u8>, Error> {
        let capacity = self.text_capacity();
        // SAFETY: the pointer and the length are those of one list, whose head the call writes.
        unsafe {
            list_by(capacity, |bytes, capacity, count| {
                sys::esr_bundle(&mut self.raw, query.0, bytes, capacity, count)
            })
        }
    }

    /// Returns the history so far as a script of `esr run`, with the accepted and blocked events. Items have the given names,
    /// or `i0`, `i1` if the list is empty; transactions are called `t1`, `t2`.
    ///
    /// ```
    /// let mut engine = esr::Engine::open(&[500])?;
    /// let t = engine.begin_update(0)?;
    /// engine.write(t, 0, 400)?;
    /// let script = "item checking 500\nbegin t1 update 0\nwrite t1 checking 400\n";
    /// assert_eq!(engine.script(&["checking"])?, script);
    /// # Ok::<(), esr::Error>(())
    /// ```
    ///
    /// # Errors
    /// `BadNames`, `NoMemory`.
    pub fn script(&mut self, names: &[&str]) -> Result<String, Error> {
        self.script_by(&names.join("\n"))
    }

    /// Returns the script, by names that are given one on each line.
    pub(crate) fn script_by(&mut self, names: &str) -> Result<String, Error> {
        let capacity = self.text_capacity();
        // SAFETY: the pointers and the lengths are those of two lists; the call writes the head of one.
        let bytes = unsafe {
            list_by(capacity, |bytes, capacity, count| {
                let (raw, length) = (&mut self.raw, names.len());
                sys::esr_history_script(raw, names.as_ptr(), length, bytes, capacity, count)
            })?
        };
        Ok(text(bytes))
    }

    /// Returns a capacity for any text of the history, so that it is made once: a line of a script has at most 46 bytes, a row
    /// of the ledger 160. A longer text is made twice.
    fn text_capacity(&mut self) -> usize {
        let counts = self.counts();
        (1 << 18) + 128 * counts.entries as usize + 256 * counts.transactions as usize
    }

    /// Executes events one after another, up to the first error or refusal, without allocating. Returns the number of executed
    /// events, and the error.
    pub(crate) fn replay(
        &mut self,
        events: &[sys::Event],
        replies: &mut [sys::Reply],
    ) -> (usize, Option<Error>) {
        let mut answered = 0;
        // SAFETY: the pointers and the lengths are those of two borrowed slices.
        let status = unsafe {
            sys::esr_do(
                &mut self.raw,
                events.as_ptr(),
                events.len(),
                replies.as_mut_ptr(),
                replies.len(),
                true,
                &mut answered,
            )
        };
        (answered, check(status).err())
    }

    /// Returns a text about a query, by names that are given one on each line.
    fn text_of(&mut self, call: sys::QueryText, query: Txn, names: &str) -> Result<String, Error> {
        let capacity = self.text_capacity();
        // SAFETY: the pointers and the lengths are those of two lists; the call writes the head of one.
        let bytes = unsafe {
            list_by(capacity, |bytes, capacity, count| {
                let (raw, length) = (&mut self.raw, names.len());
                call(raw, query.0, names.as_ptr(), length, bytes, capacity, count)
            })?
        };
        Ok(text(bytes))
    }

    pub(crate) fn explain_by(&mut self, query: Txn, names: &str) -> Result<String, Error> {
        self.text_of(sys::esr_explain, query, names)
    }

    pub(crate) fn picture_by(&mut self, query: Txn, names: &str) -> Result<String, Error> {
        self.text_of(sys::esr_picture, query, names)
    }

    /// Explains a committed query as `esr explain` does: each read with the value of the nearest serial placement, each charge
    /// with the update that caused it, and the sums. Items are called as in [`script`](Engine::script).
    ///
    /// ```
    /// let mut engine = esr::Engine::open(&[500])?;
    /// let query = engine.begin_query(0)?;
    /// engine.read(query, 0)?;
    /// engine.commit(query)?;
    /// let read = "read checking 500 nearest 500 off 0\n";
    /// assert!(engine.explain(query, &["checking"])?.starts_with(read));
    /// # Ok::<(), esr::Error>(())
    /// ```
    ///
    /// # Errors
    /// `NotACommittedQuery`, `BadNames`, `NoMemory`.
    pub fn explain(&mut self, query: Txn, names: &[&str]) -> Result<String, Error> {
        self.explain_by(query, &names.join("\n"))
    }

    /// Draws the audit of a committed query as `esr picture` does: one SVG. Items are called as in [`script`](Engine::script).
    ///
    /// ```
    /// let mut engine = esr::Engine::open(&[500])?;
    /// let query = engine.begin_query(0)?;
    /// engine.read(query, 0)?;
    /// engine.commit(query)?;
    /// assert!(engine.picture(query, &[])?.starts_with("<svg"));
    /// # Ok::<(), esr::Error>(())
    /// ```
    ///
    /// # Errors
    /// Those of [`explain`](Engine::explain).
    pub fn picture(&mut self, query: Txn, names: &[&str]) -> Result<String, Error> {
        self.picture_by(query, &names.join("\n"))
    }

    /// Returns the ledger of the history so far as CSV, as `esr ledger` writes it: a header, and a line for each transaction
    /// with its limit, charges, end, and the distance of a committed query.
    ///
    /// ```
    /// let mut engine = esr::Engine::open(&[500])?;
    /// engine.begin_update(200)?;
    /// assert!(engine.ledger()?.contains("\n1,t1,update,200,0,200,"));
    /// # Ok::<(), esr::Error>(())
    /// ```
    ///
    /// # Errors
    /// `NoMemory`.
    pub fn ledger(&mut self) -> Result<String, Error> {
        let capacity = self.text_capacity();
        // SAFETY: the pointer and the length are those of one list, whose head the call writes.
        let bytes = unsafe {
            list_by(capacity, |bytes, capacity, count| {
                sys::esr_ledger(&mut self.raw, bytes, capacity, count)
            })?
        };
        Ok(text(bytes))
    }

    /// Starts an empty history from the committed values, in which transactions are numbered from 1. A history ends at
    /// [`MAX_ENTRIES`] and at [`MAX_TRANSACTIONS`]: then end active transactions, audit the reports of interest, and renew.
    ///
    /// ```
    /// let mut engine = esr::Engine::open(&[500])?;
    /// let update = engine.begin_update(0)?;
    /// assert_eq!(engine.renew(), Err(esr::Error::TransactionActive));
    /// engine.commit(update)?;
    /// engine.renew()?;
    /// assert_eq!(engine.counts().entries, 0);
    /// # Ok::<(), esr::Error>(())
    /// ```
    ///
    /// # Errors
    /// `TransactionActive`, `NoMemory`: then nothing has changed.
    pub fn renew(&mut self) -> Result<(), Error> {
        check(sys::esr_renew(&mut self.raw))
    }

    /// Renews like [`renew`](Engine::renew), but aborts active transactions first.
    ///
    /// ```
    /// let mut engine = esr::Engine::open(&[500])?;
    /// let update = engine.begin_update(0)?;
    /// engine.write(update, 0, 400)?;
    /// engine.renew_aborting()?;
    /// assert_eq!(engine.values()?, [500]);
    /// # Ok::<(), esr::Error>(())
    /// ```
    ///
    /// # Errors
    /// `NoMemory`: then nothing has changed, and active transactions still are.
    pub fn renew_aborting(&mut self) -> Result<(), Error> {
        check(sys::esr_renew_aborting(&mut self.raw))
    }

    /// Renews like [`renew`](Engine::renew), but carries active transactions over: in the new history each continues with
    /// its reads, its locks and the rest of its limit. Returns them in the order of their begins; their new numbers are 1, 2
    /// and so on.
    ///
    /// Of the limit and the charges of a transaction, [`Carried::settled`] is in the old history only: add it to those of
    /// [`account`](Engine::account), once for each renewal. The reads of a carried query are repeated at the current values,
    /// so an [`audit`](Engine::audit) of it is of the repeated reads. What it has read is off by at most its charges over all
    /// histories.
    ///
    /// ```
    /// let mut engine = esr::Engine::open(&[500, 1500])?;
    /// let (payment, report) = (engine.begin_update(100)?, engine.begin_query(100)?);
    /// engine.read(report, 0)?;
    /// engine.write(payment, 0, 440)?;
    /// engine.commit(payment)?;
    /// let carried = engine.renew_carrying()?;
    /// assert_eq!((carried[0].old, carried[0].settled), (report, 60));
    /// let report = carried[0].new;
    /// assert_eq!((report.number(), engine.account(report)?.limit), (1, 40));
    /// engine.read(report, 1)?;
    /// engine.commit(report)?;
    /// assert_eq!(carried[0].settled + engine.account(report)?.charged, 60);
    /// # Ok::<(), esr::Error>(())
    /// ```
    ///
    /// # Errors
    /// `NoMemory`: then nothing has changed.
    pub fn renew_carrying(&mut self) -> Result<Vec<Carried>, Error> {
        let active = self.counts().active as usize;
        // SAFETY: the pointer and the length are those of one list, whose head the call writes.
        let carried = unsafe {
            list_by(active, |carried, capacity, count| {
                sys::esr_renew_carrying(&mut self.raw, carried, capacity, count)
            })?
        };
        let txn_of = |one: sys::Carried| Carried {
            old: Txn(one.old_txn),
            new: Txn(one.new_txn),
            settled: one.settled,
        };
        Ok(carried.into_iter().map(txn_of).collect())
    }
}

impl Drop for Engine {
    fn drop(&mut self) {
        sys::esr_close(&mut self.raw);
    }
}

impl fmt::Debug for Engine {
    fn fmt(&self, f: &mut fmt::Formatter<'_>) -> fmt::Result {
        f.debug_struct("Engine").finish_non_exhaustive()
    }
}

#[cfg(test)]
mod tests {
    use super::*;
    use std::cell::Cell;

    thread_local! {
        pub(crate) static SECOND_TRIES: Cell<u32> = const { Cell::new(0) };
    }

    /// Buffers have capacity for audits and texts from the start, so each is made once.
    #[test]
    fn audits_and_texts_are_made_once() -> Result<(), Error> {
        let mut engine = Engine::open(&[0; 300])?;
        for n in 0..1_000 {
            let update = engine.begin_update(0)?;
            engine.write(update, n % 300, -999_999_999_999)?;
            engine.commit(update)?;
        }
        let late = engine.begin_update(10_u64.pow(18))?;
        engine.write(late, 7, 5)?;
        let query = engine.begin_query(10_u64.pow(18))?;
        for item in 0..1_000 {
            engine.read(query, item % 300)?;
        }
        engine.commit(query)?;
        engine.abort(late)?;
        let finding = engine.audit(query)?;
        assert!(finding.before.capacity() <= finding.before.len().max(16));
        let lengths = [
            engine.bundle(query)?.len(),
            engine.explain(query, &[])?.len(),
            engine.picture(query, &[])?.len(),
            engine.script(&[])?.len(),
            engine.ledger()?.len(),
        ];
        println!("{} before, texts {lengths:?}", finding.before.len());
        assert_eq!(SECOND_TRIES.get(), 0);
        Ok(())
    }
}
