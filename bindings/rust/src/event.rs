//! Events, replies, refusals and findings.

use std::{error, fmt};

/// The number of a transaction in one history, from 1, in the order of the begins. Only an engine creates one.
///
/// ```
/// let mut engine = esr::Engine::open(&[0])?;
/// assert_eq!(engine.begin_update(0)?.number(), 1);
/// # Ok::<(), esr::Error>(())
/// ```
#[derive(Clone, Copy, PartialEq, Eq, PartialOrd, Ord, Hash, Debug)]
pub struct Txn(pub(crate) u32);

impl Txn {
    /// Returns the number.
    ///
    /// ```
    /// let mut engine = esr::Engine::open(&[500])?;
    /// assert_eq!(engine.begin_query(0)?.number(), 1);
    /// # Ok::<(), esr::Error>(())
    /// ```
    #[must_use]
    pub fn number(self) -> u32 {
        self.0
    }
}

impl fmt::Display for Txn {
    fn fmt(&self, f: &mut fmt::Formatter<'_>) -> fmt::Result {
        self.0.fmt(f)
    }
}

/// An event that a program passes to an engine.
///
/// ```
/// use esr::{Engine, Event, Reply};
///
/// let mut engine = Engine::open(&[500])?;
/// let txn = engine.begin_query(0)?;
/// assert_eq!(engine.step(Event::Read { txn, item: 0 })?, Reply::Value(500));
/// # Ok::<(), esr::Error>(())
/// ```
#[derive(Clone, Copy, PartialEq, Eq, Debug)]
#[non_exhaustive]
pub enum Event {
    /// Begins an update that may export up to `limit`.
    BeginUpdate {
        /// At most 10^18.
        limit: u64,
    },
    /// Begins a query that may import up to `limit`. The audit of a strict one places it after all updates that had
    /// committed when it began.
    BeginQuery {
        /// At most 10^18.
        limit: u64,
        /// Whether it is placed after all updates that had committed.
        strict: bool,
    },
    /// Reads an item.
    Read {
        /// The reading transaction.
        txn: Txn,
        /// The item's number, from 0.
        item: u32,
    },
    /// Writes an item.
    Write {
        /// The writing update.
        txn: Txn,
        /// The item's number, from 0.
        item: u32,
        /// From -10^12 to 10^12.
        value: i64,
    },
    /// Commits a transaction.
    Commit {
        /// The transaction.
        txn: Txn,
    },
    /// Aborts a transaction: its writes are undone.
    Abort {
        /// The transaction.
        txn: Txn,
    },
}

/// The reply of an engine to an event.
///
/// ```
/// use esr::{Engine, Event, Reply};
///
/// let mut engine = Engine::open(&[500])?;
/// match engine.step(Event::BeginUpdate { limit: 0 })? {
///     Reply::Begun(txn) => println!("it is {txn}"),
///     Reply::Refused(why) => println!("{why}"),
///     _ => unreachable!("no other reply to a begin"),
/// }
/// # Ok::<(), esr::Error>(())
/// ```
#[derive(Clone, Copy, PartialEq, Eq, Debug)]
#[non_exhaustive]
pub enum Reply {
    /// The transaction has begun, and this is its number.
    Begun(Txn),
    /// The value that was read.
    Value(i64),
    /// The item was written.
    Wrote,
    /// The transaction has committed.
    Committed,
    /// The transaction was aborted.
    Aborted,
    /// The event is refused.
    Refused(Refusal),
}

/// Why an event is refused. The refusal is an entry of the history, and changes nothing else.
///
/// ```
/// use esr::{Engine, Refusal};
///
/// let mut engine = Engine::open(&[500])?;
/// let txn = engine.begin_query(0)?;
/// let error = engine.write(txn, 0, 400).unwrap_err();
/// assert_eq!(error.refusal(), Some(Refusal::QueryMayNotWrite));
/// # Ok::<(), esr::Error>(())
/// ```
#[derive(Clone, Copy, PartialEq, Eq, Debug)]
#[non_exhaustive]
pub enum Refusal {
    /// No transaction has that number.
    NoSuchTransaction,
    /// The transaction has ended.
    AlreadyEnded,
    /// No item has that number or name.
    NoSuchItem,
    /// A query only reads.
    QueryMayNotWrite,
    /// A written value outside -10^12 to 10^12.
    ValueOutOfRange,
    /// Above 10^18.
    LimitOutOfRange,
    /// Not returned by this crate, whose calls fail with `HistoryFull` after 65,535 begins.
    TooManyTransactions,
    /// More than 1,000 reads of one query.
    TooManyReads,
    /// Another update holds a conflicting lock.
    BlockedByLock(Txn),
    /// The import of a query would exceed its limit.
    BlockedByImport(Txn),
    /// The export of an update would exceed its limit.
    BlockedByExport(Txn),
}

impl Refusal {
    /// Reports whether the same event may be accepted after another transaction has ended.
    ///
    /// ```
    /// assert!(!esr::Refusal::NoSuchItem.may_pass_later());
    /// ```
    #[must_use]
    pub fn may_pass_later(self) -> bool {
        matches!(
            self,
            Refusal::BlockedByLock(_) | Refusal::BlockedByImport(_) | Refusal::BlockedByExport(_)
        )
    }

    /// Returns the transaction that is in the way, unless it is `txn` itself: a query may be blocked by its own limit.
    pub(crate) fn other_than(self, txn: Txn) -> Option<Txn> {
        self.names().filter(|other| *other != txn)
    }

    /// Returns the refusal with the number that its transaction has after a renewal.
    pub(crate) fn renumbered(self, new: impl Fn(Txn) -> Txn) -> Refusal {
        match self {
            Refusal::BlockedByLock(other) => Refusal::BlockedByLock(new(other)),
            Refusal::BlockedByImport(other) => Refusal::BlockedByImport(new(other)),
            Refusal::BlockedByExport(other) => Refusal::BlockedByExport(new(other)),
            other => other,
        }
    }

    /// Returns the transaction that the refusal names.
    pub(crate) fn names(self) -> Option<Txn> {
        match self {
            Refusal::BlockedByLock(other)
            | Refusal::BlockedByImport(other)
            | Refusal::BlockedByExport(other) => Some(other),
            _ => None,
        }
    }
}

impl fmt::Display for Refusal {
    fn fmt(&self, f: &mut fmt::Formatter<'_>) -> fmt::Result {
        f.write_str(match self {
            Refusal::NoSuchTransaction => "no such transaction",
            Refusal::AlreadyEnded => "already ended",
            Refusal::NoSuchItem => "no such item",
            Refusal::QueryMayNotWrite => "a query may not write",
            Refusal::ValueOutOfRange => "value out of range",
            Refusal::LimitOutOfRange => "limit out of range",
            Refusal::TooManyTransactions => "too many transactions",
            Refusal::TooManyReads => "too many reads",
            Refusal::BlockedByLock(txn) => return write!(f, "blocked by a lock of {txn}"),
            Refusal::BlockedByImport(txn) => {
                return write!(f, "blocked by the import limit of {txn}");
            }
            Refusal::BlockedByExport(txn) => {
                return write!(f, "blocked by the export limit of {txn}");
            }
        })
    }
}

impl error::Error for Refusal {}

/// The total import, which equals the total export, and the number of entries.
///
/// ```
/// let mut engine = esr::Engine::open(&[500])?;
/// let totals = engine.totals();
/// assert_eq!((totals.import, totals.entries), (0, 0));
/// # Ok::<(), esr::Error>(())
/// ```
#[derive(Clone, Copy, PartialEq, Eq, Debug)]
#[non_exhaustive]
pub struct Totals {
    /// The total import of all queries, and export of all updates.
    pub import: u128,
    /// The number of entries, including refusals.
    pub entries: u64,
}

/// The size of a history, and what is left of it.
///
/// ```
/// let mut engine = esr::Engine::open(&[500])?;
/// engine.begin_update(0)?;
/// let counts = engine.counts();
/// assert_eq!((counts.entries, counts.active, counts.transactions_left), (1, 1, 65_534));
/// # Ok::<(), esr::Error>(())
/// ```
#[derive(Clone, Copy, PartialEq, Eq, Debug)]
#[non_exhaustive]
pub struct Counts {
    /// The number of entries, including refusals.
    pub entries: u64,
    /// The number of transactions that have begun.
    pub transactions: u64,
    /// The number of active transactions.
    pub active: u64,
    /// The number of entries left, without those reserved for the ends of active transactions.
    pub entries_left: u64,
    /// The number of transactions that can still begin.
    pub transactions_left: u64,
}

/// The state of a transaction.
///
/// ```
/// let mut engine = esr::Engine::open(&[500])?;
/// let txn = engine.begin_update(0)?;
/// assert_eq!(engine.account(txn)?.standing, esr::Standing::Active);
/// # Ok::<(), esr::Error>(())
/// ```
#[derive(Clone, Copy, PartialEq, Eq, Debug)]
#[non_exhaustive]
pub enum Standing {
    /// It has not ended.
    Active,
    /// It has committed.
    Committed,
    /// It was aborted.
    Aborted,
}

/// The account of a transaction. The reads of a query so far are off by at most its charges.
///
/// ```
/// let mut engine = esr::Engine::open(&[500])?;
/// let report = engine.begin_query(100)?;
/// println!("{}, off by at most {}", engine.read(report, 0)?, engine.account(report)?.charged);
/// # Ok::<(), esr::Error>(())
/// ```
#[derive(Clone, Copy, PartialEq, Eq, Debug)]
#[non_exhaustive]
pub struct Account {
    /// Whether it is a query; otherwise it is an update.
    pub is_query: bool,
    /// Its state.
    pub standing: Standing,
    /// Its limit.
    pub limit: u64,
    /// Its charges so far: the import of a query, the export of an update.
    pub charged: u64,
}

/// An active transaction that [`Engine::renew_carrying`](crate::Engine::renew_carrying) has carried over.
///
/// ```
/// let mut engine = esr::Engine::open(&[500])?;
/// let (ended, report) = (engine.begin_query(0)?, engine.begin_query(100)?);
/// engine.commit(ended)?;
/// let carried = engine.renew_carrying()?;
/// assert_eq!(carried.len(), 1);
/// assert_eq!((carried[0].old, carried[0].new.number()), (report, 1));
/// # Ok::<(), esr::Error>(())
/// ```
#[derive(Clone, Copy, PartialEq, Eq, Debug)]
#[non_exhaustive]
pub struct Carried {
    /// Its number in the old history.
    pub old: Txn,
    /// Its number in the new history.
    pub new: Txn,
    /// The part of its limit and of its charges that is in the old history only.
    pub settled: u64,
}

/// The result of the audit of a committed query.
///
/// ```
/// let mut engine = esr::Engine::open(&[500])?;
/// let report = engine.begin_query(100)?;
/// engine.read(report, 0)?;
/// engine.commit(report)?;
/// let finding = engine.audit(report)?;
/// assert_eq!((finding.distance, finding.import, finding.before.len()), (0, 0, 0));
/// # Ok::<(), esr::Error>(())
/// ```
#[derive(Clone, PartialEq, Eq, Debug)]
#[non_exhaustive]
pub struct Finding {
    /// The distance of the values that the query read from the nearest serial placement. It is exact if
    /// [`is_exact`](Finding::is_exact). Otherwise they are off by at most this.
    pub distance: u64,
    /// The import of the query over all histories, which is at least the distance.
    pub import: u64,
    /// The smallest set of updates before such a placement, in the order of their commits. Empty if the distance is not exact.
    pub before: Vec<Txn>,
    /// How many renewals a bank's report was carried over.
    pub renewals: u64,
}

impl Finding {
    /// Returns the finding of a query that was carried over renewals: its import bounds its distance from the state that the
    /// updates before its commit left.
    pub(crate) fn of_carried(import: u64, renewals: u64) -> Finding {
        Finding {
            distance: import,
            import,
            before: Vec::new(),
            renewals,
        }
    }

    /// Reports whether the distance is exact. It is an upper bound if the report was carried over a renewal, because the
    /// history of its first reads is gone.
    ///
    /// ```
    /// let bank = esr::Bank::builder().item("checking", 500).open()?;
    /// let (_, finding) = bank.report(100, |report| report.read("checking"))?;
    /// assert!(finding.is_exact());
    /// # Ok::<(), esr::Error>(())
    /// ```
    #[must_use]
    pub fn is_exact(&self) -> bool {
        self.renewals == 0
    }
}

impl fmt::Display for Finding {
    fn fmt(&self, f: &mut fmt::Formatter<'_>) -> fmt::Result {
        if !self.is_exact() {
            let (most, import) = (self.distance, self.import);
            let renewals = self.renewals;
            return write!(
                f,
                "distance at most {most} import {import} renewals {renewals}"
            );
        }
        write!(
            f,
            "distance {} import {} before",
            self.distance, self.import
        )?;
        if self.before.is_empty() {
            return f.write_str(" -");
        }
        for (i, txn) in self.before.iter().enumerate() {
            write!(f, "{}{txn}", if i == 0 { ' ' } else { ',' })?;
        }
        Ok(())
    }
}
