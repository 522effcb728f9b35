//! Errors of calls, with the item, value, range and transaction that they are about.

use crate::{Refusal, Txn, engine::MAX_ITEMS, mirror::MAX_VALUE};
use std::{any::Any, error, fmt};

/// The largest limit of a transaction.
pub(crate) const MAX_LIMIT: u64 = 1_000_000_000_000_000_000;
const MAX_WEIGHT: u32 = 1_000;
const MAX_READS: u32 = 1_000;

/// Why a call failed. Except for the refusal, which is in the history, the engine has not changed.
///
/// ```
/// let bank = esr::Bank::builder().item("checking", 500).open()?;
/// let error = bank.transact(0, |update| update.write("cheking", 400)).unwrap_err();
/// assert_eq!(error.to_string(), "refused: no such item: cheking");
/// assert_eq!(error.refusal(), Some(esr::Refusal::NoSuchItem));
/// # Ok::<(), esr::Error>(())
/// ```
#[derive(Clone, PartialEq, Eq, Debug)]
#[non_exhaustive]
pub enum Error {
    /// More than 4,096 items.
    TooManyItems {
        /// The number of items.
        count: usize,
    },
    /// An opening value outside -10^12 to 10^12.
    ValueOutOfRange {
        /// The item: its name in a bank, its number in an engine.
        item: String,
        /// The value.
        value: i64,
    },
    /// A weight of 0, or above 1,000.
    WeightOutOfRange {
        /// The item: its name in a bank, its number in an engine.
        item: String,
        /// The weight.
        weight: u32,
    },
    /// Two items of one name.
    NameTwice {
        /// The name.
        name: String,
    },
    /// No transaction has that number.
    NotBegun {
        /// The number.
        txn: Txn,
    },
    /// A text needs one name for each item: a letter and up to 15 letters, digits or underscores, all different.
    BadNames,
    /// The transaction is not a query, or has not committed.
    NotACommittedQuery,
    /// The bank has been renewed since the report, so its history is gone. Audit in
    /// [`BankBuilder::before_renewal`](crate::BankBuilder::before_renewal) or earlier.
    ReportExpired,
    /// The report was carried over renewals, so its distance has an upper bound, and neither certificate nor picture.
    ReportCarried {
        /// How many renewals.
        renewals: u64,
    },
    /// The history has no capacity left for the event: end active transactions and [`renew`](crate::Engine::renew).
    HistoryFull,
    /// The allocation failed.
    NoMemory,
    /// A transaction is active.
    TransactionActive,
    /// The transaction was the youngest of a ring of transactions that waited for each other, and patience has ended.
    Deadlock(Box<Refused>),
    /// Other updates changed what the body of an optimistic update had read. The body returns this error and runs again;
    /// no caller gets it, but an observer of the restart does.
    Overtaken,
    /// The history is full, and the work before its renewal failed: see
    /// [`BankBuilder::try_before_renewal`](crate::BankBuilder::try_before_renewal).
    RenewalFailed {
        /// The error of the work.
        why: String,
    },
    /// The work before a renewal began a transaction in its own bank, which waits for that work.
    InsideRenewal,
    /// The store cannot be opened as that of a bank: see [`BankBuilder::store`](crate::BankBuilder::store).
    StoreUnfit {
        /// What is wrong, with the row or setting.
        why: String,
    },
    /// Another bank has the store open.
    StoreInUse {
        /// Which store that is.
        why: String,
    },
    /// The store has failed for longer than [`BankBuilder::store_patience`](crate::BankBuilder::store_patience), so the bank
    /// has stopped. Drop it, and open another one from the store.
    StoreStopped {
        /// The last error of the store.
        why: String,
        /// Whether the store may have the update that ends with this error. Otherwise it certainly does not.
        may_be_written: bool,
    },
    /// The event was refused. [`Engine::step`](crate::Engine::step) returns [`Reply::Refused`](crate::Reply::Refused)
    /// instead.
    Refused(Box<Refused>),
}

impl Error {
    /// Returns the reason if the event was refused.
    ///
    /// ```
    /// let bank = esr::Bank::builder().item("checking", 500).open()?;
    /// let error = bank.value("savings").unwrap_err();
    /// assert_eq!(error.refusal(), Some(esr::Refusal::NoSuchItem));
    /// # Ok::<(), esr::Error>(())
    /// ```
    #[must_use]
    pub fn refusal(&self) -> Option<Refusal> {
        match self {
            Error::Refused(refused) => Some(refused.reason),
            _ => None,
        }
    }

    /// Adds the item to a refusal that does not name one.
    pub(crate) fn at(mut self, item: &dyn fmt::Display) -> Error {
        if let Error::Refused(refused) = &mut self {
            refused.item.get_or_insert_with(|| item.to_string());
        }
        self
    }
}

impl fmt::Display for Error {
    fn fmt(&self, f: &mut fmt::Formatter<'_>) -> fmt::Result {
        match self {
            Error::TooManyItems { count } => {
                write!(f, "too many items: {count} (at most {MAX_ITEMS})")
            }
            Error::ValueOutOfRange { item, value } => write!(
                f,
                "value out of range: {value} for item {item} ({} to {MAX_VALUE})",
                -MAX_VALUE
            ),
            Error::WeightOutOfRange { item, weight } => write!(
                f,
                "weight out of range: {weight} for item {item} (1 to {MAX_WEIGHT})"
            ),
            Error::NameTwice { name } => write!(f, "two items of one name: {name}"),
            Error::NotBegun { txn } => write!(f, "no such transaction: {txn}"),
            Error::BadNames => f.write_str("not a name for each item"),
            Error::NotACommittedQuery => f.write_str("not a committed query"),
            Error::ReportExpired => f.write_str(
                "the report's history was renewed: audit it in before_renewal or earlier",
            ),
            Error::ReportCarried { renewals } => write!(
                f,
                "carried over {renewals} renewals: the report has a bound, and neither certificate nor picture"
            ),
            Error::HistoryFull => f.write_str("history full"),
            Error::NoMemory => f.write_str("out of memory"),
            Error::TransactionActive => f.write_str("a transaction is active"),
            Error::Deadlock(refused) => write!(
                f,
                "deadlock: given up as the youngest transaction of a ring, {refused}"
            ),
            Error::Overtaken => f.write_str("overtaken: other updates changed what was read"),
            Error::RenewalFailed { why } => {
                write!(f, "history full: the work before its renewal failed: {why}")
            }
            Error::InsideRenewal => f.write_str(
                "the work before a renewal uses its own bank: use the Closing that it is passed",
            ),
            Error::StoreUnfit { why } => write!(f, "unfit store: {why}"),
            Error::StoreInUse { why } => write!(f, "store in use: {why}"),
            Error::StoreStopped {
                why,
                may_be_written,
            } => {
                f.write_str("the bank has stopped")?;
                if *may_be_written {
                    f.write_str("; whether the store has this update is unknown")?;
                }
                write!(f, ": {why}; reopen it from the store")
            }
            Error::Refused(refused) => write!(f, "refused: {refused}"),
        }
    }
}

/// Returns the text of a panic.
pub(crate) fn text_of(panic: &(dyn Any + Send)) -> String {
    let text = panic.downcast_ref::<&str>().map(ToString::to_string);
    text.or_else(|| panic.downcast_ref::<String>().cloned())
        .unwrap_or_else(|| "a value that is not text".into())
}

impl error::Error for Error {
    fn source(&self) -> Option<&(dyn error::Error + 'static)> {
        match self {
            Error::Refused(refused) | Error::Deadlock(refused) => Some(&refused.reason),
            _ => None,
        }
    }
}

/// A refusal with its circumstances.
///
/// ```
/// use esr::{Bank, Error};
///
/// let bank = Bank::builder().item("checking", 500).open()?;
/// match bank.transact(0, |update| update.write("checking", i64::MAX)) {
///     Err(Error::Refused(refused)) => {
///         assert_eq!((refused.item.as_deref(), refused.value), (Some("checking"), Some(i64::MAX)));
///     }
///     other => panic!("{other:?}"),
/// }
/// # Ok::<(), Error>(())
/// ```
#[derive(Clone, PartialEq, Eq, Debug)]
#[non_exhaustive]
pub struct Refused {
    /// The reason.
    pub reason: Refusal,
    /// The item, by the name or number that the caller used.
    pub item: Option<String>,
    /// The value that was to be written.
    pub value: Option<i64>,
    /// The limit that is out of range or was reached.
    pub limit: Option<u64>,
    /// The name of the transaction: see [`Options::name`](crate::Options::name).
    pub name: Option<String>,
    /// The name of the transaction that is in the way.
    pub other: Option<String>,
}

impl Refused {
    pub(crate) fn of(reason: Refusal) -> Refused {
        Refused {
            reason,
            item: None,
            value: None,
            limit: None,
            name: None,
            other: None,
        }
    }

    pub(crate) fn value(mut self, value: i64) -> Refused {
        self.value = Some(value);
        self
    }

    pub(crate) fn limit(mut self, limit: u64) -> Refused {
        self.limit = Some(limit);
        self
    }

    pub(crate) fn item(mut self, item: impl fmt::Display) -> Refused {
        self.item = Some(item.to_string());
        self
    }
}

impl From<Refused> for Error {
    fn from(refused: Refused) -> Error {
        Error::Refused(Box::new(refused))
    }
}

impl From<Refusal> for Error {
    fn from(reason: Refusal) -> Error {
        Refused::of(reason).into()
    }
}

impl fmt::Display for Refused {
    fn fmt(&self, f: &mut fmt::Formatter<'_>) -> fmt::Result {
        if let Some(name) = &self.name {
            write!(f, "{name}: ")?;
        }
        let item = self.item.as_deref();
        match self.reason {
            Refusal::NoSuchItem => {
                write!(f, "{}", self.reason)?;
                item.map_or(Ok(()), |item| write!(f, ": {item}"))
            }
            Refusal::ValueOutOfRange => {
                write!(f, "{}", self.reason)?;
                if let Some(value) = self.value {
                    write!(f, ": {value}")?;
                }
                if let Some(item) = item {
                    write!(f, " for item {item}")?;
                }
                write!(f, " ({} to {MAX_VALUE})", -MAX_VALUE)
            }
            Refusal::LimitOutOfRange => {
                write!(f, "{}", self.reason)?;
                if let Some(limit) = self.limit {
                    write!(f, ": {limit}")?;
                }
                write!(f, " (0 to {MAX_LIMIT})")
            }
            Refusal::TooManyReads => {
                write!(
                    f,
                    "{}: a query reads at most {MAX_READS} times",
                    self.reason
                )?;
                item.map_or(Ok(()), |item| write!(f, ", item {item} is one more"))
            }
            Refusal::BlockedByLock(_)
            | Refusal::BlockedByImport(_)
            | Refusal::BlockedByExport(_) => {
                write!(f, "{}", self.reason)?;
                if let Some(other) = &self.other {
                    write!(f, " ({other})")?;
                }
                if let Some(limit) = self.limit {
                    write!(f, ", which is {limit},")?;
                }
                item.map_or(Ok(()), |item| write!(f, " at item {item}"))
            }
            _ => {
                write!(f, "{}", self.reason)?;
                item.map_or(Ok(()), |item| write!(f, " (item {item})"))
            }
        }
    }
}

impl error::Error for Refused {}
