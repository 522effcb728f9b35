//! The history that the work before a renewal is passed.

use super::{
    items::{Items, with_names},
    past::Past,
    state::State,
};
use crate::{Engine, Error, Finding, Txn};
use std::{borrow::Cow, collections::HashMap, fmt};

/// A history that is about to be renewed, in which committed reports can be audited for the last time. Active updates and
/// reports continue in the next history.
///
/// ```
/// let bank = esr::Bank::builder()
///     .item("hits", 0)
///     .before_renewal(|closing| {
///         let explained = closing.due().to_vec().into_iter().map(|report| closing.explain(report));
///         println!("{:?}", explained.collect::<Result<Vec<_>, _>>());
///     })
///     .open()?;
/// # Ok::<(), esr::Error>(())
/// ```
pub struct Closing<'a> {
    engine: &'a mut Engine,
    items: &'a Items,
    names: &'a HashMap<u32, Cow<'static, str>>,
    due: &'a [Txn],
    pasts: &'a HashMap<u32, Past>,
}

impl<'a> Closing<'a> {
    pub(super) fn of(state: &'a mut State, items: &'a Items) -> Closing<'a> {
        Closing {
            engine: &mut state.engine,
            items,
            names: &state.names,
            due: &state.due,
            pasts: &state.pasts,
        }
    }

    fn past(&self, report: Txn) -> Past {
        let past = self.pasts.get(&report.number());
        past.copied().unwrap_or_default()
    }

    fn named(&self, text: String) -> String {
        with_names(text, self.items, |txn| {
            self.names.get(&txn).map(Cow::as_ref)
        })
    }

    /// Returns the committed reports that were not audited when they ended. A report that is still active is not due.
    ///
    /// ```
    /// let bank = esr::Bank::builder()
    ///     .item("hits", 0)
    ///     .before_renewal(|closing| {
    ///         println!("{} reports are due", closing.due().len());
    ///     })
    ///     .open()?;
    /// # Ok::<(), esr::Error>(())
    /// ```
    #[must_use]
    pub fn due(&self) -> &[Txn] {
        self.due
    }

    /// Audits one of them.
    ///
    /// ```
    /// let bank = esr::Bank::builder()
    ///     .item("hits", 0)
    ///     .before_renewal(|closing| {
    ///         for report in closing.due().to_vec() {
    ///             println!("{}", closing.audit(report).expect("it has committed"));
    ///         }
    ///     })
    ///     .open()?;
    /// # Ok::<(), esr::Error>(())
    /// ```
    ///
    /// # Errors
    /// `NotACommittedQuery`, `NoMemory`.
    pub fn audit(&mut self, report: Txn) -> Result<Finding, Error> {
        self.past(report).audit(self.engine, report)
    }

    /// Returns the bundle of one of them, which `esr check` verifies.
    ///
    /// ```
    /// let bank = esr::Bank::builder()
    ///     .item("hits", 0)
    ///     .before_renewal(|closing| {
    ///         for report in closing.due().to_vec() {
    ///             let bundle = closing.bundle(report).expect("it has committed");
    ///             println!("{}", String::from_utf8_lossy(&bundle));
    ///         }
    ///     })
    ///     .open()?;
    /// # Ok::<(), esr::Error>(())
    /// ```
    ///
    /// # Errors
    /// `NotACommittedQuery`, `NoMemory`, `ReportCarried`.
    pub fn bundle(&mut self, report: Txn) -> Result<Vec<u8>, Error> {
        self.past(report).check_exact()?;
        self.engine.bundle(report)
    }

    /// Returns the whole history as a script: see [`Bank::script`](crate::Bank::script).
    ///
    /// ```
    /// let bank = esr::Bank::builder()
    ///     .item("hits", 0)
    ///     .before_renewal(|closing| {
    ///         println!("{}", closing.script().expect("memory for it"));
    ///     })
    ///     .open()?;
    /// # Ok::<(), esr::Error>(())
    /// ```
    ///
    /// # Errors
    /// `NoMemory`.
    pub fn script(&mut self) -> Result<String, Error> {
        let text = self.engine.script_by(self.items.texts())?;
        Ok(self.named(text))
    }

    /// Explains one of the reports: see [`Bank::explain`](crate::Bank::explain).
    ///
    /// ```
    /// let bank = esr::Bank::builder()
    ///     .item("hits", 0)
    ///     .before_renewal(|closing| {
    ///         for report in closing.due().to_vec() {
    ///             println!("{}", closing.explain(report).expect("it has committed"));
    ///         }
    ///     })
    ///     .open()?;
    /// # Ok::<(), esr::Error>(())
    /// ```
    ///
    /// # Errors
    /// `NotACommittedQuery`, `NoMemory`.
    pub fn explain(&mut self, report: Txn) -> Result<String, Error> {
        let text = self.engine.explain_by(report, self.items.texts())?;
        let past = self.past(report);
        let text = past.explained(self.engine, report, text)?;
        Ok(self.named(text))
    }

    /// Draws one of the reports: see [`Bank::picture`](crate::Bank::picture).
    ///
    /// ```
    /// let bank = esr::Bank::builder()
    ///     .item("hits", 0)
    ///     .before_renewal(|closing| {
    ///         for report in closing.due().to_vec() {
    ///             println!("{}", closing.picture(report).expect("it has committed"));
    ///         }
    ///     })
    ///     .open()?;
    /// # Ok::<(), esr::Error>(())
    /// ```
    ///
    /// # Errors
    /// `NotACommittedQuery`, `NoMemory`, `ReportCarried`.
    pub fn picture(&mut self, report: Txn) -> Result<String, Error> {
        self.past(report).check_exact()?;
        self.engine.picture_by(report, self.items.texts())
    }

    /// Returns the ledger of the whole history: see [`Bank::ledger`](crate::Bank::ledger).
    ///
    /// ```
    /// let bank = esr::Bank::builder()
    ///     .item("hits", 0)
    ///     .before_renewal(|closing| {
    ///         println!("{}", closing.ledger().expect("memory for it"));
    ///     })
    ///     .open()?;
    /// # Ok::<(), esr::Error>(())
    /// ```
    ///
    /// # Errors
    /// `NoMemory`.
    pub fn ledger(&mut self) -> Result<String, Error> {
        let text = self.engine.ledger()?;
        Ok(self.named(text))
    }
}

impl fmt::Debug for Closing<'_> {
    fn fmt(&self, f: &mut fmt::Formatter<'_>) -> fmt::Result {
        f.debug_struct("Closing").field("due", &self.due).finish()
    }
}
