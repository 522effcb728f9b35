//! The transactions that bodies are passed.

use super::{Bank, handle::Handle, items::ItemKey};
use crate::{Error, mirror::Draft};
use std::fmt;

/// An update that [`Bank::transact`] runs.
///
/// ```
/// let bank = esr::Bank::builder().item("checking", 500).open()?;
/// let both = bank.transact(0, |update: &mut esr::BankUpdate| {
///     let before = update.read("checking")?;
///     Ok((before, update.add("checking", -100)?))
/// })?;
/// assert_eq!(both, (500, 400));
/// # Ok::<(), esr::Error>(())
/// ```
pub struct BankUpdate<'h, 'b> {
    pub(super) mode: Mode<'h, 'b>,
}

/// How an update runs: by single events of the engine, or on the mirror.
pub(super) enum Mode<'h, 'b> {
    Steps(&'h mut Handle<'b>),
    Ahead(&'b Bank, &'h mut Draft),
}

impl BankUpdate<'_, '_> {
    fn bank(&self) -> &Bank {
        match &self.mode {
            Mode::Steps(handle) => handle.bank,
            Mode::Ahead(bank, _) => bank,
        }
    }

    fn labelled(&self, error: Error, item: &impl ItemKey) -> Error {
        error.at(&item.label(&self.bank().items))
    }

    /// Reads an item.
    ///
    /// ```
    /// let bank = esr::Bank::builder().item("checking", 500).open()?;
    /// let value = bank.transact(0, |update| update.read("checking"))?;
    /// assert_eq!(value, 500);
    /// # Ok::<(), esr::Error>(())
    /// ```
    ///
    /// # Errors
    /// `Refused` if no item has that name. `Overtaken`, `Deadlock`, `HistoryFull`, or `Refused` by a transaction that stays in
    /// the way: then the update is given up, and every later call fails with the same error.
    pub fn read(&mut self, item: impl ItemKey) -> Result<i64, Error> {
        let number = item.number(&self.bank().items)?;
        match &mut self.mode {
            Mode::Steps(handle) => handle.read(number),
            Mode::Ahead(bank, draft) => draft.read(&bank.mirror, number),
        }
    }

    /// Writes an item.
    ///
    /// ```
    /// let bank = esr::Bank::builder().item("checking", 500).open()?;
    /// bank.transact(0, |update| update.write("checking", 400))?;
    /// assert_eq!(bank.value("checking")?, 400);
    /// # Ok::<(), esr::Error>(())
    /// ```
    ///
    /// # Errors
    /// Those of [`read`](BankUpdate::read), and `Refused` if the value is out of range.
    pub fn write(&mut self, item: impl ItemKey, value: i64) -> Result<(), Error> {
        let number = item.number(&self.bank().items)?;
        let result = match &mut self.mode {
            Mode::Steps(handle) => handle.write(number, value),
            Mode::Ahead(_, draft) => draft.write(number, value),
        };
        result.map_err(|error| self.labelled(error, &item))
    }

    /// Adds to an item and returns its new value. It takes the write lock before it reads, so two updates that add to one
    /// item do not deadlock.
    ///
    /// ```
    /// let bank = esr::Bank::builder().item("checking", 500).open()?;
    /// assert_eq!(bank.transact(0, |update| update.add("checking", -100))?, 400);
    /// # Ok::<(), esr::Error>(())
    /// ```
    ///
    /// # Errors
    /// Those of [`write`](BankUpdate::write).
    pub fn add(&mut self, item: impl ItemKey, more: i64) -> Result<i64, Error> {
        let number = item.number(&self.bank().items)?;
        let result = match &mut self.mode {
            Mode::Steps(handle) => handle.add(number, more),
            Mode::Ahead(bank, draft) => draft.read(&bank.mirror, number).and_then(|value| {
                let sum = value.saturating_add(more);
                draft.write(number, sum).map(|()| sum)
            }),
        };
        result.map_err(|error| self.labelled(error, &item))
    }

    /// Returns the inconsistency that the update has exported so far. That is 0 for an optimistic one, which the engine
    /// charges when it commits.
    ///
    /// ```
    /// let bank = esr::Bank::builder().item("checking", 500).open()?;
    /// let exported = bank.transact_stepwise(100, |update| {
    ///     update.add("checking", -100)?;
    ///     Ok(update.charged())
    /// })?;
    /// assert_eq!(exported, 0); // no report has read meanwhile
    /// # Ok::<(), esr::Error>(())
    /// ```
    #[must_use]
    pub fn charged(&self) -> u64 {
        match &self.mode {
            Mode::Steps(handle) => handle.charged(),
            Mode::Ahead(..) => 0,
        }
    }
}

impl fmt::Debug for BankUpdate<'_, '_> {
    fn fmt(&self, f: &mut fmt::Formatter<'_>) -> fmt::Result {
        let txn = match &self.mode {
            Mode::Steps(handle) => Some(handle.txn()),
            Mode::Ahead(..) => None,
        };
        f.debug_struct("BankUpdate").field("txn", &txn).finish()
    }
}

/// A query that [`Bank::report`] runs.
///
/// ```
/// let bank = esr::Bank::builder().item("checking", 500).open()?;
/// let (text, _) = bank.report(100, |report: &mut esr::BankQuery| {
///     let value = report.read("checking")?;
///     Ok(format!("{value}, off by at most {}", report.charged()))
/// })?;
/// assert_eq!(text, "500, off by at most 0");
/// # Ok::<(), esr::Error>(())
/// ```
pub struct BankQuery<'h, 'b> {
    pub(super) handle: &'h mut Handle<'b>,
}

impl BankQuery<'_, '_> {
    /// Reads an item.
    ///
    /// ```
    /// let bank = esr::Bank::builder().item("checking", 500).open()?;
    /// assert_eq!(bank.report(100, |report| report.read("checking"))?.0, 500);
    /// # Ok::<(), esr::Error>(())
    /// ```
    ///
    /// # Errors
    /// Those of [`BankUpdate::read`], and `Refused` at the 1,001st read.
    pub fn read(&mut self, item: impl ItemKey) -> Result<i64, Error> {
        let number = item.number(&self.handle.bank.items)?;
        self.handle.read(number)
    }

    /// Reads items in one hold of the bank's lock, in the given order. No update commits in between, unless a read is blocked
    /// and follows later. This is several times faster than one call for each item.
    ///
    /// ```
    /// let bank = esr::Bank::builder().item("checking", 500).item("savings", 1500).open()?;
    /// let (values, _) = bank.report(100, |report| report.read_all(["savings", "checking"]))?;
    /// assert_eq!(values, [1500, 500]);
    /// # Ok::<(), esr::Error>(())
    /// ```
    ///
    /// # Errors
    /// Those of [`read`](BankQuery::read).
    pub fn read_all<K: ItemKey>(
        &mut self,
        items: impl IntoIterator<Item = K>,
    ) -> Result<Vec<i64>, Error> {
        let known = &self.handle.bank.items;
        let numbers = items.into_iter().map(|item| item.number(known));
        let numbers: Vec<u32> = numbers.collect::<Result<_, Error>>()?;
        self.handle.read_all(&numbers)
    }

    /// Returns the inconsistency that the report has imported so far: its reads are off by at most that.
    ///
    /// ```
    /// let bank = esr::Bank::builder().item("checking", 500).open()?;
    /// let (so_far, _) = bank.report(100, |report| {
    ///     report.read("checking")?;
    ///     Ok(report.charged())
    /// })?;
    /// assert_eq!(so_far, 0);
    /// # Ok::<(), esr::Error>(())
    /// ```
    #[must_use]
    pub fn charged(&self) -> u64 {
        self.handle.charged()
    }
}

impl fmt::Debug for BankQuery<'_, '_> {
    fn fmt(&self, f: &mut fmt::Formatter<'_>) -> fmt::Result {
        f.debug_struct("BankQuery")
            .field("txn", &self.handle.txn())
            .finish()
    }
}
