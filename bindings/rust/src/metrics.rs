//! Counters of a bank, and its active transactions, for monitoring.

use crate::{Finding, Txn};
use std::{fmt::Write, time::Duration};

/// Counters of a bank since it was opened. A renewal does not reset them.
///
/// ```
/// use esr::{Bank, Error};
///
/// let bank = Bank::builder().item("checking", 500).open()?;
/// bank.transact(0, |update| update.add("checking", -100))?;
/// bank.report(0, |report| report.read("checking"))?;
/// let metrics = bank.metrics();
/// assert_eq!((metrics.updates, metrics.reports, metrics.distances[0]), (1, 1, 1));
/// assert!(metrics.to_prometheus().contains("\nesr_updates_total{mode=\"optimistic\"} 1\n"));
/// # Ok::<(), Error>(())
/// ```
#[derive(Clone, PartialEq, Eq, Debug, Default)]
#[non_exhaustive]
pub struct Metrics {
    /// Committed updates.
    pub updates: u64,
    /// The updates among them that ran optimistically: see [`BankBuilder::optimistic`](crate::BankBuilder::optimistic).
    pub optimistic_updates: u64,
    /// Committed reports.
    pub reports: u64,
    /// Updates and reports that failed: by an error or panic of their body, or at the end of their patience.
    pub aborts: u64,
    /// Bodies that ran again.
    pub reruns: u64,
    /// Victims of deadlocks.
    pub deadlocks: u64,
    /// Transactions that have waited for others.
    pub waits: u64,
    /// Their total waiting time.
    pub waited: Duration,
    /// Renewals.
    pub renewals: u64,
    /// Updates that were carried over a renewal, counted once for each renewal.
    pub carried: u64,
    /// Reports that were carried over a renewal, counted once for each renewal.
    pub carried_reports: u64,
    /// The total time of renewals, including the work before them. No transaction runs during it.
    pub renewing: Duration,
    /// The longest renewal.
    pub longest_renewal: Duration,
    /// Renewals whose work failed, and which are retried.
    pub failed_renewals: u64,
    /// Audits of [`report`](crate::Bank::report), [`strict_report`](crate::Bank::strict_report) and
    /// [`audit`](crate::Bank::audit).
    pub audits: u64,
    /// The audits among them on the second engine: see
    /// [`BankBuilder::background_audits`](crate::BankBuilder::background_audits).
    pub background_audits: u64,
    /// The total time that callers waited for audits.
    pub auditing: Duration,
    /// The longest audit.
    pub longest_audit: Duration,
    /// The number of audits with a distance of 0, at most 1, 10, 100 and so on, each counted once.
    pub distances: [u64; 20],
    /// The sum of the distances.
    pub distance: u128,
    /// Transactions of the store: see [`BankBuilder::store`](crate::BankBuilder::store).
    pub store_writes: u64,
    /// The updates in them.
    pub store_updates: u64,
    /// Active transactions, when this was read.
    pub active: u64,
    /// The age of the oldest of them.
    pub oldest_active: Duration,
}

impl Metrics {
    pub(crate) fn count_audit(&mut self, finding: &Finding, time: Duration) {
        self.audits += 1;
        self.auditing += time;
        self.longest_audit = self.longest_audit.max(time);
        self.distance += u128::from(finding.distance);
        let bucket = match finding.distance {
            0 => 0,
            distance => {
                1 + (distance - 1)
                    .checked_ilog10()
                    .map_or(0, |n| n as usize + 1)
            }
        };
        self.distances[bucket.min(19)] += 1;
    }

    pub(crate) fn count_renewal(&mut self, time: Duration) {
        self.renewals += 1;
        self.renewing += time;
        self.longest_renewal = self.longest_renewal.max(time);
    }

    /// Returns the counters in the text format of Prometheus.
    ///
    /// ```
    /// let bank = esr::Bank::builder().item("checking", 500).open()?;
    /// assert!(bank.metrics().to_prometheus().starts_with("# HELP esr_updates_total "));
    /// # Ok::<(), esr::Error>(())
    /// ```
    #[must_use]
    pub fn to_prometheus(&self) -> String {
        let mut text = String::new();
        let head = |text: &mut String, name: &str, kind: &str, help: &str| {
            _ = writeln!(text, "# HELP {name} {help}\n# TYPE {name} {kind}");
        };
        let name = "esr_updates_total";
        head(&mut text, name, "counter", "Committed updates.");
        let stepwise = self.updates - self.optimistic_updates;
        let optimistic = self.optimistic_updates;
        _ = writeln!(text, "{name}{{mode=\"optimistic\"}} {optimistic}");
        _ = writeln!(text, "{name}{{mode=\"stepwise\"}} {stepwise}");
        let seconds = |time: Duration| format!("{:.9}", time.as_secs_f64());
        for (name, help, value) in [
            (
                "esr_reports_total",
                "Committed reports.",
                self.reports.to_string(),
            ),
            (
                "esr_aborts_total",
                "Failed updates and reports.",
                self.aborts.to_string(),
            ),
            (
                "esr_reruns_total",
                "Bodies that ran again.",
                self.reruns.to_string(),
            ),
            (
                "esr_deadlocks_total",
                "Victims of deadlocks.",
                self.deadlocks.to_string(),
            ),
            (
                "esr_waits_total",
                "Transactions that waited for others.",
                self.waits.to_string(),
            ),
            (
                "esr_wait_seconds_total",
                "Their waiting time.",
                seconds(self.waited),
            ),
            (
                "esr_renewals_total",
                "Renewals of the history.",
                self.renewals.to_string(),
            ),
            (
                "esr_carried_updates_total",
                "Updates that were carried over a renewal.",
                self.carried.to_string(),
            ),
            (
                "esr_carried_reports_total",
                "Reports that were carried over a renewal.",
                self.carried_reports.to_string(),
            ),
            (
                "esr_renewal_seconds_total",
                "The time of renewals, during which no transaction runs.",
                seconds(self.renewing),
            ),
            (
                "esr_failed_renewals_total",
                "Renewals whose work failed.",
                self.failed_renewals.to_string(),
            ),
            (
                "esr_audits_total",
                "Audits of reports.",
                self.audits.to_string(),
            ),
            (
                "esr_background_audits_total",
                "Audits on the second engine.",
                self.background_audits.to_string(),
            ),
            (
                "esr_audit_seconds_total",
                "The time that callers waited for audits.",
                seconds(self.auditing),
            ),
            (
                "esr_store_writes_total",
                "Transactions of the store.",
                self.store_writes.to_string(),
            ),
            (
                "esr_store_updates_total",
                "Updates in them.",
                self.store_updates.to_string(),
            ),
        ] {
            head(&mut text, name, "counter", help);
            _ = writeln!(text, "{name} {value}");
        }
        for (name, help, value) in [
            (
                "esr_longest_renewal_seconds",
                "The longest renewal.",
                seconds(self.longest_renewal),
            ),
            (
                "esr_longest_audit_seconds",
                "The longest audit.",
                seconds(self.longest_audit),
            ),
            (
                "esr_active_transactions",
                "Active transactions.",
                self.active.to_string(),
            ),
            (
                "esr_oldest_active_seconds",
                "The age of the oldest active transaction.",
                seconds(self.oldest_active),
            ),
        ] {
            head(&mut text, name, "gauge", help);
            _ = writeln!(text, "{name} {value}");
        }
        let name = "esr_distance";
        head(
            &mut text,
            name,
            "histogram",
            "Distances of audited reports.",
        );
        let mut below = 0;
        for (n, count) in self.distances.iter().enumerate() {
            below += count;
            let bound = n.checked_sub(1).map_or(0, |n| 10_u64.pow(n as u32));
            _ = writeln!(text, "{name}_bucket{{le=\"{bound}\"}} {below}");
        }
        _ = writeln!(text, "{name}_bucket{{le=\"+Inf\"}} {below}");
        _ = writeln!(text, "{name}_sum {}\n{name}_count {below}", self.distance);
        text
    }
}

/// An active transaction of a bank.
///
/// ```
/// use esr::{Bank, Error};
///
/// let bank = Bank::builder().item("checking", 500).open()?;
/// bank.report(100, |report| {
///     report.read("checking")?;
///     let active = bank.active();
///     assert_eq!((active[0].is_query, active[0].limit, active[0].waits_for), (true, 100, None));
///     Ok(())
/// })?;
/// assert!(bank.active().is_empty());
/// # Ok::<(), Error>(())
/// ```
#[derive(Clone, PartialEq, Eq, Debug)]
#[non_exhaustive]
pub struct Active {
    /// Its number in the history.
    pub txn: Txn,
    /// Its name: see [`Options::name`](crate::Options::name).
    pub name: Option<String>,
    /// Whether it is a report; otherwise it is an update.
    pub is_query: bool,
    /// How long ago it began.
    pub age: Duration,
    /// Its limit.
    pub limit: u64,
    /// Its charges so far.
    pub charged: u64,
    /// The transaction that it waits for.
    pub waits_for: Option<Txn>,
    /// The item at which it waits.
    pub waits_at: Option<String>,
}

#[cfg(test)]
mod tests {
    use super::*;

    /// Each distance is counted once, under the first bound that it does not exceed.
    #[test]
    fn distances_are_counted() {
        let mut metrics = Metrics::default();
        let distances = [
            0,
            1,
            2,
            10,
            11,
            100,
            101,
            1_000_000_000_000_000_000,
            u64::MAX,
        ];
        for distance in distances {
            let finding = Finding {
                distance,
                import: distance,
                before: Vec::new(),
                renewals: 0,
            };
            metrics.count_audit(&finding, Duration::ZERO);
        }
        assert_eq!(metrics.distances[..5], [1, 1, 2, 2, 1]);
        assert_eq!((metrics.distances[19], metrics.audits), (2, 9));
        let text = metrics.to_prometheus();
        assert!(text.contains("esr_distance_bucket{le=\"10\"} 4\n"));
        assert!(text.ends_with("\nesr_distance_count 9\n"));
    }
}
