/// Defines an observer that forwards to the crate `metrics`, 0.22 or later, of the calling package. It needs the feature
/// `metrics`.
///
/// ```ignore
#[doc = include_str!("metrics_example.rs")]
/// ```
///
/// The macro takes attributes, a visibility and the name of a struct, which has `new` and `poll`. The first transaction
/// describes and registers the metrics, at the recorder that is installed then.
///
/// Names, labels and meanings are those of [`Metrics::to_prometheus`](crate::Metrics::to_prometheus), with these
/// differences:
///
/// - A counter of the crate `metrics` is an integer. So `esr_wait_seconds`, `esr_renewal_seconds` and `esr_audit_seconds` are
///   histograms, whose sums are the counters of the text.
/// - The histogram `esr_transaction_seconds` has the time of each transaction, from its begin to its end.
/// - `esr_waits_total` counts a transaction once, also if several runs of its body have waited.
/// - `esr_active_transactions` includes optimistic updates and transactions that wait for their begin.
/// - No event reports the longest renewal and audit, the age of the oldest active transaction, and the counters of the
///   store. `poll` takes these from the bank: call it before each scrape, or periodically.
#[macro_export]
macro_rules! metrics_observer {
    ($(#[$attribute:meta])* $visibility:vis $name:ident) => {
        /// Forwards the transactions, audits and renewals of a bank to `metrics`.
        $(#[$attribute])*
        $visibility struct $name {
            registered: ::std::sync::OnceLock<(
                [::metrics::Counter; 13],
                [::metrics::Histogram; 5],
                ::metrics::Gauge,
            )>,
        }

        #[allow(dead_code)]
        impl $name {
            /// Returns an observer, whose first transaction registers the metrics.
            $visibility const fn new() -> Self {
                Self { registered: ::std::sync::OnceLock::new() }
            }

            /// Sets the metrics that no event reports.
            $visibility fn poll(&self, bank: &$crate::Bank) {
                self.registered();
                let metrics = bank.metrics();
                let seconds = [metrics.longest_renewal, metrics.longest_audit, metrics.oldest_active];
                let [renewal, audit, active] = seconds.map(|time| time.as_secs_f64());
                ::metrics::gauge!("esr_longest_renewal_seconds").set(renewal);
                ::metrics::gauge!("esr_longest_audit_seconds").set(audit);
                ::metrics::gauge!("esr_oldest_active_seconds").set(active);
                ::metrics::counter!("esr_store_writes_total").absolute(metrics.store_writes);
                ::metrics::counter!("esr_store_updates_total").absolute(metrics.store_updates);
            }

            fn registered(&self) -> &([::metrics::Counter; 13], [::metrics::Histogram; 5], ::metrics::Gauge) {
                self.registered.get_or_init(|| {
                    Self::describe();
                    let counters = [
                        ::metrics::counter!("esr_updates_total", "mode" => "optimistic"),
                        ::metrics::counter!("esr_updates_total", "mode" => "stepwise"),
                        ::metrics::counter!("esr_reports_total"),
                        ::metrics::counter!("esr_aborts_total"),
                        ::metrics::counter!("esr_reruns_total"),
                        ::metrics::counter!("esr_deadlocks_total"),
                        ::metrics::counter!("esr_waits_total"),
                        ::metrics::counter!("esr_renewals_total"),
                        ::metrics::counter!("esr_carried_updates_total"),
                        ::metrics::counter!("esr_carried_reports_total"),
                        ::metrics::counter!("esr_failed_renewals_total"),
                        ::metrics::counter!("esr_audits_total"),
                        ::metrics::counter!("esr_background_audits_total"),
                    ];
                    let histograms = [
                        ::metrics::histogram!("esr_transaction_seconds"),
                        ::metrics::histogram!("esr_wait_seconds"),
                        ::metrics::histogram!("esr_renewal_seconds"),
                        ::metrics::histogram!("esr_audit_seconds"),
                        ::metrics::histogram!("esr_distance"),
                    ];
                    (counters, histograms, ::metrics::gauge!("esr_active_transactions"))
                })
            }

            fn describe() {
                for (name, text) in [
                    ("esr_updates_total", "Committed updates."),
                    ("esr_reports_total", "Committed reports."),
                    ("esr_aborts_total", "Failed updates and reports."),
                    ("esr_reruns_total", "Bodies that ran again."),
                    ("esr_deadlocks_total", "Victims of deadlocks."),
                    ("esr_waits_total", "Transactions that waited for others."),
                    ("esr_renewals_total", "Renewals of the history."),
                    ("esr_carried_updates_total", "Updates that were carried over a renewal."),
                    ("esr_carried_reports_total", "Reports that were carried over a renewal."),
                    ("esr_failed_renewals_total", "Renewals whose work failed."),
                    ("esr_audits_total", "Audits of reports."),
                    ("esr_background_audits_total", "Audits on the second engine."),
                    ("esr_store_writes_total", "Transactions of the store."),
                    ("esr_store_updates_total", "Updates in them."),
                ] {
                    ::metrics::describe_counter!(name, text);
                }
                ::metrics::describe_histogram!("esr_distance", "Distances of audited reports.");
                for (name, text) in [
                    ("esr_transaction_seconds", "The time of transactions, from begin to end."),
                    ("esr_wait_seconds", "Their waiting time."),
                    ("esr_renewal_seconds", "The time of renewals, during which no transaction runs."),
                    ("esr_audit_seconds", "The time that callers waited for audits."),
                ] {
                    ::metrics::describe_histogram!(name, ::metrics::Unit::Seconds, text);
                }
                ::metrics::describe_gauge!("esr_active_transactions", "Active transactions.");
                for (name, text) in [
                    ("esr_longest_renewal_seconds", "The longest renewal."),
                    ("esr_longest_audit_seconds", "The longest audit."),
                    ("esr_oldest_active_seconds", "The age of the oldest active transaction."),
                ] {
                    ::metrics::describe_gauge!(name, ::metrics::Unit::Seconds, text);
                }
            }
        }

        impl ::std::default::Default for $name {
            fn default() -> Self {
                Self::new()
            }
        }

        impl $crate::Observer for $name {
            fn begun(&self, _: &$crate::Observed<'_>) {
                self.registered().2.increment(1.0);
            }

            fn deadlocked(&self, _: &$crate::Observed<'_>, _: &$crate::Refused) {
                let ([_, _, _, _, _, deadlocks, ..], ..) = self.registered();
                deadlocks.increment(1);
            }

            fn ended(&self, transaction: &$crate::Observed<'_>, ended: &$crate::Ended) {
                let ([optimistic, stepwise, reports, aborts, reruns, _, waits, ..], [time, wait, ..], active) =
                    self.registered();
                active.decrement(1.0);
                match (ended.outcome, transaction.is_query, ended.is_optimistic) {
                    ($crate::Outcome::Committed, true, _) => reports.increment(1),
                    ($crate::Outcome::Committed, false, true) => optimistic.increment(1),
                    ($crate::Outcome::Committed, false, false) => stepwise.increment(1),
                    // a transaction that could not begin is not counted
                    _ => aborts.increment(u64::from(ended.runs > 0)),
                }
                reruns.increment(ended.runs.saturating_sub(1));
                time.record(ended.time.as_secs_f64());
                if !ended.waited.is_zero() {
                    waits.increment(1);
                    wait.record(ended.waited.as_secs_f64());
                }
            }

            fn audited(&self, audited: &$crate::Audited<'_>) {
                let ([.., audits, background], [.., time, distance], _) = self.registered();
                audits.increment(1);
                background.increment(u64::from(audited.is_background));
                time.record(audited.time.as_secs_f64());
                distance.record(audited.finding.distance as f64);
            }

            fn renewed(&self, renewed: &$crate::Renewed) {
                let ([.., renewals, updates, reports, _, _, _], [_, _, time, ..], _) = self.registered();
                renewals.increment(1);
                updates.increment(renewed.carried);
                reports.increment(renewed.carried_reports);
                time.record(renewed.time.as_secs_f64());
            }

            fn renewal_failed(&self, _: &str) {
                let ([.., failed, _, _], ..) = self.registered();
                failed.increment(1);
            }
        }
    };
}
