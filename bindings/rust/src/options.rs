//! How a transaction runs: its limit, name and patience.

use crate::Patience;
use std::borrow::Cow;

/// The limit of a transaction, and what else it may differ in. A number is the options with that limit.
///
/// ```
/// use esr::{Bank, Options};
///
/// let bank = Bank::builder().item("checking", 500).open()?;
/// bank.transact(200, |update| update.add("checking", -100))?;
/// bank.transact(Options::limit(200).name("fee"), |update| update.add("checking", -1))?;
/// let (value, report) = bank.report_unaudited(Options::limit(10).strict(), |report| report.read("checking"))?;
/// assert_eq!((value, bank.audit(report)?.before.len()), (399, 2));
/// # Ok::<(), esr::Error>(())
/// ```
#[derive(Clone, PartialEq, Eq, Debug, Default)]
#[must_use]
pub struct Options {
    pub(crate) limit: u64,
    pub(crate) name: Option<Cow<'static, str>>,
    pub(crate) is_strict: bool,
    pub(crate) patience: Option<Patience>,
}

impl Options {
    /// Returns options with a limit, at most 10^18: an update exports, and a report imports, up to this.
    ///
    /// ```
    /// let bank = esr::Bank::builder().item("checking", 500).open()?;
    /// bank.transact(esr::Options::limit(100), |update| update.add("checking", -100))?;
    /// # Ok::<(), esr::Error>(())
    /// ```
    pub fn limit(limit: u64) -> Options {
        Options {
            limit,
            ..Options::default()
        }
    }

    /// Names the transaction, in [`Bank::active`](crate::Bank::active), in errors, and in scripts, explanations and ledgers
    /// as `NAME_5` for the fifth transaction of the history, if that is a name of a script.
    ///
    /// ```
    /// use esr::{Bank, Options};
    ///
    /// let bank = Bank::builder().item("checking", 500).open()?;
    /// bank.transact(Options::limit(100).name("fee"), |update| update.add("checking", -1))?;
    /// assert!(bank.script()?.contains("\nbegin fee_1 update 100\n"));
    /// # Ok::<(), esr::Error>(())
    /// ```
    pub fn name(mut self, name: impl Into<Cow<'static, str>>) -> Options {
        self.name = Some(name.into());
        self
    }

    /// Makes a report strict: its audit places it after all updates that had committed when it began. Updates are always
    /// placed so.
    ///
    /// ```
    /// use esr::{Bank, Options};
    ///
    /// let bank = Bank::builder().item("checking", 500).open()?;
    /// bank.transact(0, |update| update.write("checking", 400))?;
    /// let (_, finding) = bank.report(Options::limit(0).strict(), |report| report.read("checking"))?;
    /// assert_eq!(finding.before.len(), 1);
    /// # Ok::<(), esr::Error>(())
    /// ```
    pub fn strict(mut self) -> Options {
        self.is_strict = true;
        self
    }

    /// Replaces the bank's patience for this transaction.
    ///
    /// ```
    /// use esr::{Bank, Options, Patience};
    /// use std::time::Duration;
    ///
    /// let bank = Bank::builder().item("checking", 500).open()?;
    /// let short = Options::limit(0).patience(Patience::of(Duration::from_millis(5)));
    /// bank.transact(short, |update| update.add("checking", 1))?;
    /// # Ok::<(), esr::Error>(())
    /// ```
    pub fn patience(mut self, patience: Patience) -> Options {
        self.patience = Some(patience);
        self
    }
}

impl From<u64> for Options {
    fn from(limit: u64) -> Options {
        Options::limit(limit)
    }
}
