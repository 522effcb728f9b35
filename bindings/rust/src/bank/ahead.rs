//! Optimistic updates: the body runs on the mirror, and the engine executes the draft in one hold of the lock.
//!
//! The argument why such an update is an ordinary transaction is at the head of `mirror`. This module decides what follows a
//! run. A draft whose reads are no longer current is dropped, without a submission if that is known before, and the body runs
//! again. If it has taken the lock by then, it reserves the lock, so that no other update overtakes a short body again; after
//! some such runs a short body gets priority for the lock, and after [`MAX_RERUNS`] the update runs step by step.
//! A draft that meets a lock is aborted, and the body runs again after the end of the transaction that holds it, at most
//! [`MAX_BLOCKED`] times. A draft that meets a limit or the end of the history is aborted, and the update runs step by step:
//! in that form it can wait for the end of a report, or for a renewal. So the number of optimistic runs is bounded, and each
//! wait spends patience.
//!
//! `transact` runs updates this way by default. Compared with `transact_stepwise`, a program can observe five differences,
//! which the documentation of `transact` permits: (a) Reports do not see the middle of such an update, so they import less,
//! never more; work in progress that is meant to be seen is `transact_stepwise`. (b) A body runs again more often; it must
//! have no other effects in any case, since a deadlock has the same consequence. (c) `charged` in a body is 0, and the history
//! has no entries of a body that fails, because the engine has not heard of it. (d) A body that begins another update of the
//! same item commits the inner one at each run; step by step it waits for itself until its patience ends. Both break the rule
//! that a body begins nothing else in its bank. (e) `add` is one read and one write of the history. In return, eight threads
//! run about four times as many updates, and no update blocks others while its body runs.

use super::{Bank, BankUpdate, Mode, state::State, watch::Watch};
use crate::{
    Error, Event, Options, Refusal, Reply, Txn,
    engine::Misfit,
    error::Refused,
    gate::{Priority, pause},
    mirror::Draft,
    patience::{Rounds, Waiting},
    store::Place,
    sync::Instant,
    turns,
};
use std::{sync::atomic::Ordering, time::Duration};

/// A body that was overtaken this often runs step by step.
const MAX_RERUNS: u32 = 64;
/// A body that was overtaken this often gets priority for the lock, if its last run took less than [`SHORT`].
const PATIENT_RERUNS: u32 = 8;
const SHORT: Duration = Duration::from_micros(20);
/// An update that met a lock this often runs step by step.
const MAX_BLOCKED: u32 = 4;
/// The number of polls for the end of a lock before the thread sleeps.
const POLLS: u32 = 400;

/// The outcome of a draft.
enum Outcome {
    /// The caller waits for this place in the queue of the store.
    Committed(Place),
    /// Other updates have changed what it had read.
    Stale,
    /// Transaction `other` holds a lock; `ends` transactions had ended by then.
    Locked {
        other: Txn,
        renewals: u64,
        ends: u64,
        /// Described for an observer.
        refused: Option<Box<Refused>>,
    },
    /// A limit is in the way, or the history has no capacity.
    Blocked(Option<Box<Refused>>),
}

impl Outcome {
    /// Reports a draft that has not committed.
    fn observe(&self, watch: &Watch<'_>) {
        let (Outcome::Locked { refused, .. } | Outcome::Blocked(refused)) = self else {
            return watch.give_up(|| Error::Overtaken);
        };
        let Some(refused) = refused else {
            return watch.give_up(|| Error::HistoryFull);
        };
        watch.block(refused);
        watch.give_up(|| Error::Refused(refused.clone()));
    }
}

/// A run of a body, whose draft is executed.
struct Attempt<'a> {
    reruns: u32,
    priority: Option<&'a Priority<'a>>,
    watch: &'a Watch<'a>,
}

impl Bank {
    /// Executes a draft as one transaction, in one hold of the lock.
    fn submit(
        &self,
        options: &Options,
        draft: &mut Draft,
        waiting: &mut Option<Waiting>,
        attempt: &Attempt<'_>,
    ) -> Result<Outcome, Error> {
        self.check_not_inside_renewal()?;
        let is_fresh = || !draft.is_stale(&self.mirror);
        let Some(mut state) = self.state.lock_while(attempt.priority, is_fresh) else {
            return Ok(Outcome::Stale);
        };
        self.check_running()?;
        if state.is_nearly_full() {
            drop(state);
            state = self.lock_with_capacity(self.waiting_in(options, waiting), false)?;
        }
        // no one else publishes during the hold: a draft that is not stale now has read the engine's committed values
        if draft.is_stale(&self.mirror) {
            state.reserve();
            return Ok(Outcome::Stale);
        }
        let outcome = self.submit_in(&mut state, options, draft, attempt)?;
        if let (Outcome::Committed(_), Some(waiting)) = (&outcome, waiting) {
            state.count_wait(waiting.waited(), attempt.watch);
        }
        Ok(outcome)
    }

    fn submit_in(
        &self,
        state: &mut State,
        options: &Options,
        draft: &Draft,
        attempt: &Attempt<'_>,
    ) -> Result<Outcome, Error> {
        let limit = options.limit;
        let begin = Event::BeginUpdate { limit };
        let txn = match state.engine.step(begin)? {
            Reply::Begun(txn) => txn,
            Reply::Refused(reason) => return Err(Refused::of(reason).limit(limit).into()),
            other => unreachable!("{other:?}"),
        };
        let (fitting, executed) = draft.execute(&mut state.engine, txn);
        state.log(begin, txn, 0);
        if let Some(feed) = &mut state.feed {
            feed.push_all(txn, &draft.operations()[..fitting]);
        }
        let commit = Event::Commit { txn };
        let committed = executed.and_then(|()| state.engine.expect(commit, Reply::Committed));
        let Err(misfit) = committed else {
            state.log(commit, txn, 0);
            return Ok(self.publish(state, options, txn, draft, attempt));
        };
        // the engine keeps capacity for the end of each active transaction
        let abort = Event::Abort { txn };
        state.engine.step(abort)?;
        state.log(abort, txn, 0);
        match misfit {
            Misfit::Differs => Ok(Outcome::Stale),
            Misfit::Failed(Error::HistoryFull) => Ok(Outcome::Blocked(None)),
            Misfit::Failed(error) => Err(error),
            Misfit::Refused(reason) => {
                let refused = attempt.watch.is_on().then(|| {
                    let item = self.items.name(draft.operations()[fitting].item());
                    Box::new(state.describe_as(options.name.as_deref(), reason, item))
                });
                Ok(self.outcome_of(state, reason, refused))
            }
        }
    }

    /// Publishes a draft that has committed, and counts it.
    fn publish(
        &self,
        state: &mut State,
        options: &Options,
        txn: Txn,
        draft: &Draft,
        attempt: &Attempt<'_>,
    ) -> Outcome {
        let place = self.enter_store(draft.writes());
        self.mirror.publish(draft.writes());
        if let Some(name) = &options.name {
            state.names.insert(txn.number(), name.clone());
        }
        state.metrics.updates += 1;
        state.metrics.optimistic_updates += 1;
        state.metrics.reruns += u64::from(attempt.reruns);
        attempt.watch.charge(|| {
            let account = state.engine.account(txn);
            account.map_or(0, |account| account.charged)
        });
        attempt.watch.commit(true);
        Outcome::Committed(place)
    }

    fn outcome_of(&self, state: &State, reason: Refusal, refused: Option<Box<Refused>>) -> Outcome {
        match reason {
            Refusal::BlockedByLock(other) => Outcome::Locked {
                other,
                renewals: state.renewals,
                ends: self.ends.load(Ordering::Relaxed),
                refused,
            },
            _ => Outcome::Blocked(refused),
        }
    }

    /// Returns the rest of an update's patience, which is all of it if it has not waited yet.
    fn waiting_in<'w>(
        &self,
        options: &Options,
        waiting: &'w mut Option<Waiting>,
    ) -> &'w mut Waiting {
        waiting.get_or_insert_with(|| self.waiting_of(options))
    }

    /// Waits for the end of a transaction that holds a lock: polls first, then sleeps.
    fn wait_for_lock(&self, other: Txn, renewals: u64, mut ends: u64, waiting: &mut Waiting) {
        let mut rounds = Rounds::default();
        let mut polls = 0;
        loop {
            let now = self.ends.load(Ordering::Acquire);
            if now != ends && self.has_ended(other, renewals) {
                return;
            }
            ends = now;
            if polls < POLLS {
                polls += 1;
                pause();
            } else if !waiting.pause(&mut rounds) || self.has_ended(other, renewals) {
                return;
            }
        }
    }

    /// Runs an update optimistically. Returns `None` if it has to run step by step.
    pub(super) fn run_ahead<T, E: From<Error>>(
        &self,
        options: &Options,
        waiting: &mut Option<Waiting>,
        body: &mut impl FnMut(&mut BankUpdate<'_, '_>) -> Result<T, E>,
        watch: &Watch<'_>,
    ) -> Option<Result<T, E>> {
        if let Err(stopped) = self.check_running() {
            return Some(Err(stopped.into()));
        }
        turns::begin_update(|| self.state.give_up_lease());
        let mut draft = Draft::take();
        let (mut reruns, mut blocked) = (0, 0);
        let mut last = Duration::MAX;
        let result = loop {
            watch.run();
            draft.restart(&self.mirror);
            let begun = (reruns > 0).then(Instant::now);
            let is_urgent = reruns >= PATIENT_RERUNS && last < SHORT;
            let priority = is_urgent.then(|| self.state.priority());
            let mode = Mode::Ahead(self, &mut draft);
            let result = body(&mut BankUpdate { mode });
            last = begun.map_or(Duration::MAX, |begun| begun.elapsed());
            let attempt = Attempt {
                reruns,
                priority: priority.as_ref(),
                watch,
            };
            let outcome = match result {
                _ if draft.is_overtaken() => Outcome::Stale,
                Ok(value) => match self.submit(options, &mut draft, waiting, &attempt) {
                    Ok(Outcome::Committed(place)) => break Some((Ok(value), place)),
                    Ok(outcome) => outcome,
                    Err(error) => break Some((Err(error.into()), self.last_place())),
                },
                // the body saw values of one moment, so this is its result, and there is nothing to undo
                Err(error) => {
                    self.dropped.fetch_add(1, Ordering::Relaxed);
                    break Some((Err(error), self.last_place()));
                }
            };
            drop(priority);
            outcome.observe(watch);
            match outcome {
                Outcome::Locked {
                    other,
                    renewals,
                    ends,
                    ..
                } if blocked < MAX_BLOCKED => {
                    blocked += 1;
                    reruns += 1;
                    self.wait_for_lock(other, renewals, ends, self.waiting_in(options, waiting));
                }
                Outcome::Stale if reruns < MAX_RERUNS => reruns += 1,
                _ => break None,
            }
        };
        draft.put_back();
        match &result {
            Some((Ok(_), _)) => {}
            Some((Err(_), _)) => self.count_uncommitted(reruns, waiting.as_ref(), watch),
            // its wait is counted step by step
            None => self.count_uncommitted(reruns, None, watch),
        }
        // no priority is held during the wait
        let (result, place) = result?;
        let waited = self.wait_for_place(place).map_err(E::from);
        Some(waited.and(result))
    }

    /// Counts the reruns and the wait of an update that has not committed optimistically.
    fn count_uncommitted(&self, reruns: u32, waiting: Option<&Waiting>, watch: &Watch<'_>) {
        if reruns > 0 || waiting.is_some() {
            let mut state = self.lock();
            state.metrics.reruns += u64::from(reruns);
            state.count_wait(waiting.map_or(Duration::ZERO, Waiting::waited), watch);
        }
    }
}
