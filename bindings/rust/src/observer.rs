//! Observers, which a bank calls when a transaction begins, is blocked, runs again or ends, and at audits and renewals.
//!
//! The crate has no dependencies. Observers that forward to the crates `tracing` and `metrics` are macros: see `forward`.

use crate::{Error, Finding, Refused};
use std::time::Duration;

/// Observes the transactions, audits and renewals of a bank: see [`BankBuilder::observer`](crate::BankBuilder::observer).
/// Each method does nothing by default.
///
/// The calls about a transaction are made on its thread: one of [`begun`](Observer::begun), then those about its runs, then
/// one of [`ended`](Observer::ended). A transaction that another one's body calls ends before that one. The bank's lock is
/// not held during a call, so an observer may call [`Bank::metrics`](crate::Bank::metrics). The transaction waits for it,
/// and others may wait for the transaction, so a call should be short. An observer must not panic, and must not begin
/// transactions in its own bank.
///
/// The counts of calls and the sums of their times are those of [`Metrics`](crate::Metrics), except that its `aborts` do not
/// include transactions that could not begin. It has no count of blocked events.
///
/// # Forwarding
/// With the features `tracing` and `metrics` of this crate, the macros `tracing_observer!` and `metrics_observer!` define
/// observers that forward to the crates of these names, in the versions of the calling package.
///
/// ```
/// use esr::{Audited, Bank, Ended, Error, Observed, Observer};
/// use std::sync::{Arc, Mutex};
///
/// #[derive(Clone, Default)]
/// struct Log(Arc<Mutex<Vec<String>>>);
///
/// impl Observer for Log {
///     fn audited(&self, audited: &Audited<'_>) {
///         let Audited { finding, .. } = audited;
///         self.0.lock().unwrap().push(format!("charged {}, off by {}", finding.import, finding.distance));
///     }
///     fn ended(&self, transaction: &Observed<'_>, ended: &Ended) {
///         self.0.lock().unwrap().push(format!("{} {}", transaction.kind(), ended.outcome.as_str()));
///     }
/// }
///
/// let log = Log::default();
/// let bank = Bank::builder().item("checking", 500).observer(log.clone()).open()?;
/// bank.report(100, |report| report.read("checking"))?;
/// assert_eq!(*log.0.lock().unwrap(), ["charged 0, off by 0", "report committed"]);
/// # Ok::<(), Error>(())
/// ```
#[allow(unused_variables)]
pub trait Observer: Send + Sync {
    /// Observes that a transaction begins: an update, or a report.
    fn begun(&self, transaction: &Observed<'_>) {}

    /// Observes that another transaction blocks an event. It is called once for each blocked event, not at its retries.
    fn blocked(&self, transaction: &Observed<'_>, refused: &Refused) {}

    /// Observes that the transaction was aborted as the victim of a deadlock. Its body runs again, or its patience has ended.
    fn deadlocked(&self, transaction: &Observed<'_>, refused: &Refused) {}

    /// Observes that the body runs again, and why its last run was given up.
    fn restarted(&self, transaction: &Observed<'_>, why: &Error) {}

    /// Observes the end of a transaction, also by a panic of its body. The report's audit, if any, was before.
    fn ended(&self, transaction: &Observed<'_>, ended: &Ended) {}

    /// Observes an audit of [`report`](crate::Bank::report), [`strict_report`](crate::Bank::strict_report) or
    /// [`audit`](crate::Bank::audit).
    fn audited(&self, audited: &Audited<'_>) {}

    /// Observes a renewal.
    fn renewed(&self, renewed: &Renewed) {}

    /// Observes that the work before a renewal has failed, by its error. The renewal is retried later.
    fn renewal_failed(&self, why: &str) {}
}

/// A transaction that is observed.
///
/// ```
/// use esr::{Bank, Error, Observed, Observer, Options};
///
/// struct Prints;
///
/// impl Observer for Prints {
///     fn begun(&self, transaction: &Observed<'_>) {
///         assert_eq!((transaction.kind(), transaction.name, transaction.limit), ("update", Some("fee"), 100));
///     }
/// }
///
/// let bank = Bank::builder().item("checking", 500).observer(Prints).open()?;
/// bank.transact(Options::limit(100).name("fee"), |update| update.add("checking", -1))?;
/// # Ok::<(), Error>(())
/// ```
#[derive(Clone, Copy, PartialEq, Eq, Debug)]
#[non_exhaustive]
pub struct Observed<'a> {
    /// Its number among the transactions of the bank that were observed, from 1. All runs of its body have this number,
    /// whereas each run is another transaction of the history.
    pub id: u64,
    /// Whether it is a report; otherwise it is an update.
    pub is_query: bool,
    /// Its name: see [`Options::name`](crate::Options::name).
    pub name: Option<&'a str>,
    /// Its limit.
    pub limit: u64,
    /// Whether it is a strict report.
    pub is_strict: bool,
}

impl Observed<'_> {
    /// Returns `update`, `report` or `strict report`.
    ///
    /// ```
    /// struct Prints;
    ///
    /// impl esr::Observer for Prints {
    ///     fn begun(&self, transaction: &esr::Observed<'_>) {
    ///         assert_eq!(transaction.kind(), "strict report");
    ///     }
    /// }
    ///
    /// let bank = esr::Bank::builder().item("checking", 500).observer(Prints).open()?;
    /// bank.strict_report(100, |report| report.read("checking"))?;
    /// # Ok::<(), esr::Error>(())
    /// ```
    #[must_use]
    pub fn kind(&self) -> &'static str {
        match (self.is_query, self.is_strict) {
            (false, _) => "update",
            (true, false) => "report",
            (true, true) => "strict report",
        }
    }
}

/// How a transaction ended.
///
/// ```
/// use esr::{Bank, Ended, Error, Observed, Observer, Outcome};
///
/// struct Prints;
///
/// impl Observer for Prints {
///     fn ended(&self, _: &Observed<'_>, ended: &Ended) {
///         assert_eq!((ended.outcome, ended.runs), (Outcome::Committed, 1));
///     }
/// }
///
/// let bank = Bank::builder().item("checking", 500).observer(Prints).open()?;
/// bank.transact(100, |update| update.add("checking", -1))?;
/// # Ok::<(), Error>(())
/// ```
#[derive(Clone, Copy, PartialEq, Eq, Debug)]
#[non_exhaustive]
pub struct Ended {
    /// Whether it has committed.
    pub outcome: Outcome,
    /// Whether it has committed as an optimistic update: see [`BankBuilder::optimistic`](crate::BankBuilder::optimistic).
    pub is_optimistic: bool,
    /// The number of runs of its body: 0 if it could not begin.
    pub runs: u64,
    /// The time for which it waited for others.
    pub waited: Duration,
    /// Its charges in its last run: the import of a report, the export of an update. 0 if the engine has executed no run.
    pub charged: u64,
    /// The time since its begin, including waiting and the report's audit.
    pub time: Duration,
}

/// Whether a transaction has committed.
///
/// ```
/// assert_eq!(esr::Outcome::Committed.as_str(), "committed");
/// ```
#[derive(Clone, Copy, PartialEq, Eq, Hash, Debug)]
#[non_exhaustive]
pub enum Outcome {
    /// It has committed.
    Committed,
    /// Its body failed, or the bank could not run it.
    Failed,
    /// Its body panicked.
    Panicked,
}

impl Outcome {
    /// Returns `committed`, `failed` or `panicked`.
    ///
    /// ```
    /// assert_eq!(esr::Outcome::Failed.as_str(), "failed");
    /// ```
    #[must_use]
    pub fn as_str(self) -> &'static str {
        match self {
            Outcome::Committed => "committed",
            Outcome::Failed => "failed",
            Outcome::Panicked => "panicked",
        }
    }
}

/// An audit that is observed.
///
/// ```
/// use esr::{Audited, Bank, Error, Observer};
///
/// struct Prints;
///
/// impl Observer for Prints {
///     fn audited(&self, audited: &Audited<'_>) {
///         assert_eq!((audited.finding.import, audited.finding.distance), (0, 0));
///     }
/// }
///
/// let bank = Bank::builder().item("checking", 500).observer(Prints).open()?;
/// bank.report(100, |report| report.read("checking"))?;
/// # Ok::<(), Error>(())
/// ```
#[derive(Clone, Copy, PartialEq, Eq, Debug)]
#[non_exhaustive]
pub struct Audited<'a> {
    /// Its result.
    pub finding: &'a Finding,
    /// The time for which the caller waited.
    pub time: Duration,
    /// Whether it was on the second engine: see [`BankBuilder::background_audits`](crate::BankBuilder::background_audits).
    pub is_background: bool,
}

/// A renewal that is observed.
///
/// ```
/// use esr::{Bank, Error, Observer, Renewed};
///
/// struct Prints;
///
/// impl Observer for Prints {
///     fn renewed(&self, renewed: &Renewed) {
///         println!("renewed in {:?}, {} updates carried over", renewed.time, renewed.carried);
///     }
/// }
///
/// let bank = Bank::builder().item("checking", 500).observer(Prints).open()?;
/// # Ok::<(), Error>(())
/// ```
#[derive(Clone, Copy, PartialEq, Eq, Debug)]
#[non_exhaustive]
pub struct Renewed {
    /// Its time, including the work before it. No transaction ran during it.
    pub time: Duration,
    /// The number of active updates that were carried over.
    pub carried: u64,
    /// The number of active reports that were carried over.
    pub carried_reports: u64,
}
