//! Reports what happens to transactions, at audits and at renewals to the bank's observer, if it has one.
//!
//! The observer is called without the lock, so that it may use the bank, and other transactions do not wait for it.

use super::Bank;
use crate::{Ended, Error, Observed, Observer, Options, Outcome, Refused, Renewed};
use std::{
    sync::{
        Mutex, MutexGuard, PoisonError,
        atomic::{AtomicBool, AtomicU64, Ordering},
    },
    time::{Duration, Instant},
};

/// The observer of a bank, and the number of transactions that it has observed.
pub(super) struct Observing {
    observer: Box<dyn Observer>,
    begun: AtomicU64,
}

impl Observing {
    pub(super) fn of(observer: Box<dyn Observer>) -> Observing {
        Observing {
            observer,
            begun: AtomicU64::new(0),
        }
    }
}

/// The outcome of a renewal.
pub(super) enum Renewal {
    Done(Renewed),
    /// Its work failed, and the bank continues in the old history.
    Failed {
        why: String,
    },
}

/// The observation of one transaction, over all runs of its body. It ends when this is dropped.
pub(super) struct Watch<'a> {
    /// `None` if the bank has no observer.
    watched: Option<Watched<'a>>,
    /// Whether its body has run.
    has_run: AtomicBool,
}

struct Watched<'a> {
    observer: &'a dyn Observer,
    observed: Observed<'a>,
    begun: Instant,
    progress: Mutex<Progress>,
}

#[derive(Default)]
struct Progress {
    runs: u64,
    waited: Duration,
    charged: u64,
    /// `None` as long as the body runs.
    outcome: Option<Outcome>,
    is_optimistic: bool,
    /// Why the last run was given up.
    why: Option<Error>,
}

impl Watched<'_> {
    fn progress(&self) -> MutexGuard<'_, Progress> {
        self.progress.lock().unwrap_or_else(PoisonError::into_inner)
    }
}

impl Watch<'_> {
    fn begin<'a>(bank: &'a Bank, options: &'a Options, is_query: bool) -> Watch<'a> {
        let has_run = AtomicBool::new(false);
        let Some(observing) = &bank.observing else {
            return Watch {
                watched: None,
                has_run,
            };
        };
        let watched = Watched {
            observer: &*observing.observer,
            observed: Observed {
                id: 1 + observing.begun.fetch_add(1, Ordering::Relaxed),
                is_query,
                name: options.name.as_deref(),
                limit: options.limit,
                is_strict: is_query && options.is_strict,
            },
            begun: Instant::now(),
            progress: Mutex::default(),
        };
        watched.observer.begun(&watched.observed);
        Watch {
            watched: Some(watched),
            has_run,
        }
    }

    pub(super) fn is_on(&self) -> bool {
        self.watched.is_some()
    }

    pub(super) fn has_run(&self) -> bool {
        self.has_run.load(Ordering::Relaxed)
    }

    /// Notes a run of the body. Reports it if it is not the first.
    pub(super) fn run(&self) {
        self.has_run.store(true, Ordering::Relaxed);
        let Some(watched) = &self.watched else {
            return;
        };
        let mut progress = watched.progress();
        progress.runs += 1;
        let why = progress.why.take();
        drop(progress);
        if let Some(why) = why {
            watched.observer.restarted(&watched.observed, &why);
        }
    }

    /// Reports that an event is blocked.
    pub(super) fn block(&self, refused: &Refused) {
        if let Some(watched) = &self.watched {
            watched.observer.blocked(&watched.observed, refused);
        }
    }

    /// Notes why a run is given up, and reports a deadlock.
    pub(super) fn give_up(&self, why: impl FnOnce() -> Error) {
        let Some(watched) = &self.watched else {
            return;
        };
        let why = why();
        if let Error::Deadlock(refused) = &why {
            watched.observer.deadlocked(&watched.observed, refused);
        }
        watched.progress().why = Some(why);
    }

    /// Notes a time for which it has waited. It calls no observer, so the lock may be held.
    pub(super) fn wait(&self, time: Duration) {
        if let Some(watched) = &self.watched {
            watched.progress().waited += time;
        }
    }

    /// Notes the charges of the last run that the engine has executed. It calls no observer, so the lock may be held.
    pub(super) fn charge(&self, charged: impl FnOnce() -> u64) {
        if let Some(watched) = &self.watched {
            let charged = charged();
            watched.progress().charged = charged;
        }
    }

    /// Notes that it has committed. It calls no observer, so the lock may be held.
    pub(super) fn commit(&self, is_optimistic: bool) {
        if let Some(watched) = &self.watched {
            let mut progress = watched.progress();
            progress.outcome = Some(Outcome::Committed);
            progress.is_optimistic = is_optimistic;
        }
    }

    /// Notes that it has failed, unless it has committed.
    fn fail(&self) {
        if let Some(watched) = &self.watched {
            watched.progress().outcome.get_or_insert(Outcome::Failed);
        }
    }
}

impl Drop for Watch<'_> {
    fn drop(&mut self) {
        let Some(watched) = &self.watched else {
            return;
        };
        let progress = watched.progress();
        let ended = Ended {
            outcome: progress.outcome.unwrap_or(Outcome::Panicked),
            is_optimistic: progress.is_optimistic,
            runs: progress.runs,
            waited: progress.waited,
            charged: progress.charged,
            time: watched.begun.elapsed(),
        };
        drop(progress);
        watched.observer.ended(&watched.observed, &ended);
    }
}

impl Bank {
    /// Runs a transaction, and reports its begin and its end.
    pub(super) fn watched<T, E>(
        &self,
        options: &Options,
        is_query: bool,
        run: impl FnOnce(&Watch<'_>) -> Result<T, E>,
    ) -> Result<T, E> {
        let watch = Watch::begin(self, options, is_query);
        let result = run(&watch);
        if result.is_err() {
            watch.fail();
        }
        result
    }

    /// Reports a renewal, or its failure. The lock must not be held.
    pub(super) fn observe_renewal(&self, renewal: Result<Renewal, Error>) -> Result<(), Error> {
        self.observe(|observer| match &renewal {
            Ok(Renewal::Done(renewed)) => observer.renewed(renewed),
            Ok(Renewal::Failed { why }) | Err(Error::RenewalFailed { why }) => {
                observer.renewal_failed(why);
            }
            Err(_) => {}
        });
        renewal.map(drop)
    }

    /// Calls the observer. The lock must not be held.
    pub(super) fn observe(&self, report: impl FnOnce(&dyn Observer)) {
        if let Some(observing) = &self.observing {
            report(&*observing.observer);
        }
    }
}
