//! Keeps the committed values of a bank in a store, a database that survives the process.
//!
//! The engine commits first, and the update enters a queue in the same hold of the bank's lock, so the queue is in commit
//! order. A thread writes the whole queue in one transaction of the store, of each item the last value. Only then do the
//! calls return that wait for it: updates, reports, and bodies that failed because of values that they had read.
//!
//! Invariants:
//!
//! 1. If an update has returned, the store has all of it.
//! 2. If it has not returned, the store has all of it or nothing.
//! 3. If the store has an update, it has each update whose values that one read or overwrote, since it has a prefix of the
//!    queue.
//! 4. The store has each update that a report's finding places before the report, once the report has returned.
//! 5. The engine's committed values are those of the store, except for the updates in the queue.
//! 6. One bank writes a store. Each opening increases an epoch, which every write checks.
//!
//! Rejected: a commit in the store before the commit in the engine. It holds locks for milliseconds, so practically every
//! report would be charged. Also rejected: the first waiting caller as the writer. A store would need `Sync` or a second lock,
//! and a panic of a store would unwind the call of a thread that has nothing to do with it.

mod queue;
#[cfg(feature = "sqlite")]
mod sqlite;

pub(crate) use queue::{Place, StoreQueue};
#[cfg(feature = "sqlite")]
pub use sqlite::{SqliteStore, Synchronous};

use crate::{Error, mirror::MAX_VALUE};
use std::{collections::HashMap, error, fmt};

/// A change of an item.
///
/// ```
/// use esr::{Change, Error, Store, StoreError};
///
/// /// Prints what it should keep.
/// struct Printer;
///
/// impl Store for Printer {
///     fn open(&mut self, items: &[(&str, i64)]) -> Result<Vec<(String, i64)>, Error> {
///         Ok(items.iter().map(|(name, value)| (name.to_string(), *value)).collect())
///     }
///
///     fn write(&mut self, number: u64, changes: &[Change<'_>]) -> Result<(), StoreError> {
///         for change in changes {
///             println!("write {number}: {} was {} and is {}", change.name, change.old, change.new);
///         }
///         Ok(())
///     }
///
///     fn resolve(&mut self, _number: u64) -> Result<bool, StoreError> {
///         Ok(true)
///     }
///
///     fn close(&mut self) {}
/// }
///
/// let bank = esr::Bank::builder().item("checking", 500).store(Printer).open()?;
/// bank.transact(0, |update| update.add("checking", -100))?;
/// # Ok::<(), Error>(())
/// ```
#[derive(Clone, Copy, PartialEq, Eq, Debug)]
pub struct Change<'a> {
    /// The name of the item.
    pub name: &'a str,
    /// The value that the store has now.
    pub old: i64,
    /// The value that it is to have.
    pub new: i64,
}

/// Why a store has not written changes, or cannot find out whether it has.
///
/// ```
/// let full = esr::StoreError::NotWritten("disk full".into());
/// assert_eq!(full.to_string(), "disk full");
/// ```
#[derive(Clone, PartialEq, Eq, Debug)]
pub enum StoreError {
    /// The changes are certainly not in the store. The bank writes them again as long as the store patience lasts.
    NotWritten(String),
    /// The changes are certainly not in the store, and the same write would fail again: a constraint forbids it, or another
    /// bank has opened the store. The bank stops at once.
    Final(String),
    /// Whether the changes are in the store is unknown: the COMMIT has failed. The bank calls [`Store::resolve`].
    Unknown(String),
}

impl fmt::Display for StoreError {
    fn fmt(&self, f: &mut fmt::Formatter<'_>) -> fmt::Result {
        match self {
            StoreError::NotWritten(why) | StoreError::Final(why) | StoreError::Unknown(why) => {
                f.write_str(why)
            }
        }
    }
}

impl error::Error for StoreError {}

/// A place for the committed values of a bank. `SqliteStore` is one, with the feature `sqlite`. One thread at a time uses it:
/// the one that opens the bank, and then a thread of the bank.
///
/// A store keeps the items, an epoch that counts the openings, and the number of the last write. After `open` or `resolve`
/// has returned, its values are those of exactly the writes with a number of at most the last one, and no earlier write can
/// still take effect.
///
/// [`Change`] has an example of a store.
pub trait Store {
    /// Opens the store for one bank, adds the items that it does not have, and returns all values.
    ///
    /// # Errors
    /// [`Error::StoreUnfit`] if it cannot be a store, [`Error::StoreInUse`] if another bank has it open.
    fn open(&mut self, items: &[(&str, i64)]) -> Result<Vec<(String, i64)>, Error>;

    /// Writes changes of different items and the number in one transaction. They survive a crash once it returns.
    ///
    /// # Errors
    /// A [`StoreError`], which says whether the changes may be in the store. A panic counts as [`StoreError::Unknown`].
    fn write(&mut self, number: u64, changes: &[Change<'_>]) -> Result<(), StoreError>;

    /// Connects again, makes sure that no earlier write can still take effect, and returns whether the store has the write
    /// with this number.
    ///
    /// # Errors
    /// [`StoreError::Final`] if another bank has opened the store, another [`StoreError`] if the outcome is still unknown.
    fn resolve(&mut self, number: u64) -> Result<bool, StoreError>;

    /// Releases the store. A second call does nothing.
    fn close(&mut self);
}

/// How the values of a store differed from those of the builder when a bank was opened: see
/// [`Bank::store_opening`](crate::Bank::store_opening).
///
/// ```
/// let bank = esr::Bank::builder().item("checking", 500).open()?;
/// let opening: Option<esr::StoreOpening> = bank.store_opening();
/// assert_eq!(opening, None); // it has no store
/// # Ok::<(), esr::Error>(())
/// ```
#[derive(Clone, Copy, PartialEq, Eq, Debug, Default)]
#[non_exhaustive]
pub struct StoreOpening {
    /// The number of opening values that those of the store have replaced.
    pub replaced: usize,
    /// The number of items that only the store had.
    pub others: usize,
}

impl fmt::Display for StoreOpening {
    fn fmt(&self, f: &mut fmt::Formatter<'_>) -> fmt::Result {
        let StoreOpening { replaced, others } = self;
        write!(
            f,
            "the store replaces {replaced} opening values, and has {others} more items"
        )
    }
}

/// Replaces opening values by those of a store, and appends the items that only the store has.
pub(crate) fn merge(
    names: &mut Vec<String>,
    values: &mut Vec<i64>,
    stored: Vec<(String, i64)>,
) -> Result<StoreOpening, Error> {
    let unfit = |why: String| Err(Error::StoreUnfit { why });
    let known = names.iter().cloned().enumerate();
    let numbers: HashMap<String, usize> = known.map(|(number, name)| (name, number)).collect();
    let mut is_stored = vec![false; names.len()];
    let mut opening = StoreOpening::default();
    for (name, value) in stored {
        if !(-MAX_VALUE..=MAX_VALUE).contains(&value) {
            return unfit(format!(
                "item {name:?} of the store has the value {value}, and must have {} to {MAX_VALUE}",
                -MAX_VALUE
            ));
        }
        match numbers.get(&name) {
            Some(&number) => {
                opening.replaced += usize::from(values[number] != value);
                (values[number], is_stored[number]) = (value, true);
            }
            None => {
                opening.others += 1;
                names.push(name);
                values.push(value);
            }
        }
    }
    match is_stored.iter().position(|is_stored| !is_stored) {
        Some(number) => unfit(format!("the store has no item {:?}", names[number])),
        None => Ok(opening),
    }
}
