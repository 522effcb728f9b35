/// Defines an observer that forwards to the crate `tracing`, 0.1, of the calling package. It needs the feature `tracing`.
///
/// ```ignore
#[doc = include_str!("tracing_example.rs")]
/// ```
///
/// The macro takes attributes, a visibility and the name of a unit struct. The target of all spans and events is `esr`.
///
/// | | level | fields |
/// |---|---|---|
/// | span `transaction`, from its begin to its end | info | `transaction`, `kind`, `name` if it has one, `limit`; at its end `outcome`, `retries`, `waited`, `charged` |
/// | event `ended`, before the span closes | debug; warn if it failed; error if it panicked | `transaction`, `outcome`, `retries`, `waited`, `charged` |
/// | event `blocked` | debug | `transaction`, `reason` |
/// | event `restarted` | debug | `transaction`, `reason` |
/// | event `deadlock victim` | warn | `transaction`, `reason` |
/// | event `audited` | debug | `charged`, `distance`, `time`, `background` |
/// | event `renewed` | info | `carried`, `carried_reports`, `time` |
/// | event `renewal failed` | error | `reason` |
///
/// `transaction` is [`Observed::id`](crate::Observed::id), and `retries` is the number of runs of its body after the first.
/// `waited` and `time` have the format of a `Duration`. Events about a transaction are inside its span.
#[macro_export]
macro_rules! tracing_observer {
    ($(#[$attribute:meta])* $visibility:vis $name:ident) => {
        /// Forwards the transactions, audits and renewals of a bank to `tracing`.
        $(#[$attribute])*
        #[derive(Clone, Copy, Debug, Default)]
        $visibility struct $name;

        const _: () = {
            ::std::thread_local! {
                // nested transactions end in order, so the open spans of a thread are a stack
                static SPANS: ::std::cell::RefCell<::std::vec::Vec<::tracing::span::EnteredSpan>> =
                    const { ::std::cell::RefCell::new(::std::vec::Vec::new()) };
            }

            impl $crate::Observer for $name {
                fn begun(&self, transaction: &$crate::Observed<'_>) {
                    let span = ::tracing::info_span!(
                        target: "esr",
                        "transaction",
                        transaction = transaction.id,
                        kind = transaction.kind(),
                        name = transaction.name,
                        limit = transaction.limit,
                        outcome = ::tracing::field::Empty,
                        retries = ::tracing::field::Empty,
                        waited = ::tracing::field::Empty,
                        charged = ::tracing::field::Empty,
                    );
                    SPANS.with(|spans| spans.borrow_mut().push(span.entered()));
                }

                fn blocked(&self, transaction: &$crate::Observed<'_>, refused: &$crate::Refused) {
                    ::tracing::debug!(
                        target: "esr",
                        transaction = transaction.id,
                        reason = ::tracing::field::display(refused),
                        "blocked"
                    );
                }

                fn deadlocked(&self, transaction: &$crate::Observed<'_>, refused: &$crate::Refused) {
                    ::tracing::warn!(
                        target: "esr",
                        transaction = transaction.id,
                        reason = ::tracing::field::display(refused),
                        "deadlock victim"
                    );
                }

                fn restarted(&self, transaction: &$crate::Observed<'_>, why: &$crate::Error) {
                    ::tracing::debug!(
                        target: "esr",
                        transaction = transaction.id,
                        reason = ::tracing::field::display(why),
                        "restarted"
                    );
                }

                fn ended(&self, transaction: &$crate::Observed<'_>, ended: &$crate::Ended) {
                    let (outcome, retries) = (ended.outcome.as_str(), ended.runs.saturating_sub(1));
                    let Some(span) = SPANS.with(|spans| spans.borrow_mut().pop()) else {
                        return;
                    };
                    span.record("outcome", outcome);
                    span.record("retries", retries);
                    span.record("waited", ::tracing::field::debug(ended.waited));
                    span.record("charged", ended.charged);
                    match ended.outcome {
                        $crate::Outcome::Committed => ::tracing::debug!(
                            target: "esr",
                            transaction = transaction.id,
                            outcome = outcome,
                            retries = retries,
                            waited = ::tracing::field::debug(ended.waited),
                            charged = ended.charged,
                            "ended"
                        ),
                        $crate::Outcome::Panicked => ::tracing::error!(
                            target: "esr",
                            transaction = transaction.id,
                            outcome = outcome,
                            retries = retries,
                            waited = ::tracing::field::debug(ended.waited),
                            charged = ended.charged,
                            "ended"
                        ),
                        _ => ::tracing::warn!(
                            target: "esr",
                            transaction = transaction.id,
                            outcome = outcome,
                            retries = retries,
                            waited = ::tracing::field::debug(ended.waited),
                            charged = ended.charged,
                            "ended"
                        ),
                    }
                }

                fn audited(&self, audited: &$crate::Audited<'_>) {
                    ::tracing::debug!(
                        target: "esr",
                        charged = audited.finding.import,
                        distance = audited.finding.distance,
                        time = ::tracing::field::debug(audited.time),
                        background = audited.is_background,
                        "audited"
                    );
                }

                fn renewed(&self, renewed: &$crate::Renewed) {
                    ::tracing::info!(
                        target: "esr",
                        carried = renewed.carried,
                        carried_reports = renewed.carried_reports,
                        time = ::tracing::field::debug(renewed.time),
                        "renewed"
                    );
                }

                fn renewal_failed(&self, why: &str) {
                    ::tracing::error!(target: "esr", reason = why, "renewal failed");
                }
            }
        };
    };
}
