//! What a transaction that was carried over renewals has of earlier histories, and how a report's findings say so.
//!
//! In its last history the reads of a carried report are repeated at the values of the renewal, so an audit there is not of
//! what the report has read. Its import over all histories bounds that: at its commit it is off by at most this from the
//! state that the updates, one after another, have left.

use crate::{Engine, Error, Finding, Txn};

/// What a transaction has of earlier histories.
#[derive(Clone, Copy, Default, Debug)]
pub(super) struct Past {
    /// The part of its limit and of its charges that is in earlier histories only.
    pub(super) settled: u64,
    /// The renewals that it was carried over.
    pub(super) renewals: u64,
}

impl Past {
    /// Returns what it has after one more renewal.
    pub(super) fn carried(self, settled: u64) -> Past {
        Past {
            settled: self.settled + settled,
            renewals: self.renewals + 1,
        }
    }

    /// Returns the finding of a committed report if it was carried over a renewal: its import as a bound.
    pub(super) fn finding(self, engine: &mut Engine, query: Txn) -> Result<Option<Finding>, Error> {
        if self.renewals == 0 {
            return Ok(None);
        }
        let import = self.settled + engine.account(query)?.charged;
        Ok(Some(Finding::of_carried(import, self.renewals)))
    }

    /// Audits a committed report, or returns its bound if it was carried.
    pub(super) fn audit(self, engine: &mut Engine, query: Txn) -> Result<Finding, Error> {
        let finding = self.finding(engine, query)?;
        finding.map_or_else(|| engine.audit(query), Ok)
    }

    /// Puts its bound in front of the explanation of a carried report.
    pub(super) fn explained(
        self,
        engine: &mut Engine,
        query: Txn,
        text: String,
    ) -> Result<String, Error> {
        let Some(finding) = self.finding(engine, query)? else {
            return Ok(text);
        };
        Ok(format!(
            "{finding}\nin the last history, with earlier reads at the values of its opening:\n{text}"
        ))
    }

    /// Fails for a carried report: its audit in the last history is of repeated reads, so it has no certificate and no
    /// picture.
    pub(super) fn check_exact(self) -> Result<(), Error> {
        let renewals = self.renewals;
        if renewals > 0 {
            return Err(Error::ReportCarried { renewals });
        }
        Ok(())
    }
}
