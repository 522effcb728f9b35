//! A transaction that runs step by step: each event takes the lock for itself, so that others run in between.
//!
//! When an event is blocked, the thread is registered in `waits` and parks. It does not take the lock in between, because it
//! might sleep there and consume its wake-up (`gate`). With an observer, which may use the bank, it looks once more.

use super::{
    Bank, Report,
    state::{Hold, Me, State},
    watch::Watch,
};
use crate::{
    Error, Event, Finding, Refused, Reply, Txn,
    patience::{Rounds, Waiting},
    store::Place,
    waits::Holds,
};
use std::{
    cell::{Cell, RefCell},
    sync::atomic::Ordering,
    thread,
};

/// An active transaction. It is aborted if it is dropped before it has committed, so also by a panic of its body.
pub(super) struct Handle<'a> {
    pub(super) bank: &'a Bank,
    pub(super) me: Me,
    pub(super) waiting: Waiting,
    /// Why it has to be given up. Each later event fails with this error.
    pub(super) stop: Option<Error>,
    pub(super) is_active: bool,
    pub(super) is_query: bool,
    /// Whether its body has failed.
    pub(super) has_failed: bool,
    pub(super) watch: &'a Watch<'a>,
}

impl<'a> Handle<'a> {
    /// Executes events in one hold of the lock. When another transaction blocks one, all of them are retried later.
    fn step(
        &mut self,
        item: &Cell<u32>,
        events: impl Fn(&mut State) -> Result<Reply, Error>,
    ) -> Result<Reply, Error> {
        if let Some(error) = &self.stop {
            return Err(error.clone());
        }
        let mut rounds = Rounds::default();
        let mut blocked_at = None;
        loop {
            self.bank.check_running()?;
            let mut state = self.bank.lock();
            let reply = events(&mut state);
            // in the same hold: a renewal changes the numbers of transactions
            let refused = self.describe(&mut state, &reply, item.get());
            drop(state);
            match (reply, refused) {
                (Ok(Reply::Refused(reason)), Some(refused)) if reason.may_pass_later() => {
                    let is_new = blocked_at.replace(item.get()) != Some(item.get());
                    let may_retry = is_new && self.observe_block(&refused);
                    if !may_retry && !self.waiting.pause_for_event(&mut rounds) {
                        return Err(self.stop_for(refused.into()));
                    }
                }
                (Ok(Reply::Refused(_)), Some(refused)) => return Err(refused.into()),
                (Err(Error::Deadlock(_)), Some(refused)) => {
                    return Err(self.stop_for(Error::Deadlock(Box::new(refused))));
                }
                (Err(full @ Error::HistoryFull), _) => match self.bank.renew_for_event() {
                    Ok(true) => {}
                    Ok(false) => return Err(self.stop_for(full)),
                    Err(error) => return Err(self.stop_for(error)),
                },
                (Err(error), _) => return Err(error),
                (accepted, _) => {
                    self.me.holds = Holds::Locks;
                    return accepted;
                }
            }
        }
    }

    /// Describes why an event at an item is refused, if it is.
    fn describe(
        &self,
        state: &mut State,
        reply: &Result<Reply, Error>,
        item: u32,
    ) -> Option<Refused> {
        let reason = match reply {
            Ok(Reply::Refused(reason)) => *reason,
            Err(Error::Deadlock(refused)) => refused.reason,
            _ => return None,
        };
        Some(state.describe(self.me, reason, self.bank.items.name(item)))
    }

    /// Reports a blocked event to the observer, if there is one. Returns whether the event may be retried by now: this thread
    /// may have missed its wake-up, because the observer may use the bank.
    fn observe_block(&self, refused: &Refused) -> bool {
        self.watch.block(refused);
        self.watch.is_on() && self.bank.lock().may_retry(self.me)
    }

    fn stop_for(&mut self, error: Error) -> Error {
        self.stop = Some(error.clone());
        error
    }

    pub(super) fn read(&mut self, item: u32) -> Result<i64, Error> {
        let me = self.me;
        match self.step(&Cell::new(item), |state| state.read(me, item))? {
            Reply::Value(value) => Ok(value),
            other => unreachable!("{other:?}"),
        }
    }

    /// Reads items in one hold of the lock. After a read that was blocked the rest follows in another hold.
    pub(super) fn read_all(&mut self, items: &[u32]) -> Result<Vec<i64>, Error> {
        let me = self.me;
        let values = RefCell::new(Vec::with_capacity(items.len()));
        let at = Cell::new(0);
        if !items.is_empty() {
            self.step(&at, |state| {
                loop {
                    let item = items[values.borrow().len()];
                    at.set(item);
                    let reply = state.read(me, item)?;
                    let Reply::Value(value) = reply else {
                        return Ok(reply);
                    };
                    values.borrow_mut().push(value);
                    if values.borrow().len() == items.len() {
                        return Ok(reply);
                    }
                }
            })?;
        }
        Ok(values.into_inner())
    }

    pub(super) fn write(&mut self, item: u32, value: i64) -> Result<(), Error> {
        let me = self.me;
        let wrote = self.step(&Cell::new(item), |state| state.write(me, item, value));
        wrote.map(drop).map_err(|error| with_value(error, value))
    }

    pub(super) fn add(&mut self, item: u32, more: i64) -> Result<i64, Error> {
        let me = self.me;
        let sum = Cell::new(0);
        self.step(&Cell::new(item), |state| {
            let reply = state.read_for_update(me, item)?;
            let Reply::Value(value) = reply else {
                return Ok(reply);
            };
            sum.set(value.saturating_add(more));
            state.write(me, item, sum.get())
        })
        .map_err(|error| with_value(error, sum.get()))?;
        Ok(sum.get())
    }

    pub(super) fn charged(&self) -> u64 {
        self.bank.lock().charged(self.me.handle)
    }

    /// Returns its number in the current history.
    pub(super) fn txn(&self) -> Txn {
        self.bank.lock().active(self.me.handle).txn
    }

    /// Commits it. Returns the hold of the lock, its number, and its place in the queue of the store.
    fn end(mut self) -> Result<(Hold<'a>, Txn, Place), Error> {
        let mut state = self.bank.lock();
        self.bank.check_running()?;
        let txn = state.active(self.me.handle).txn;
        let commit = Event::Commit { txn };
        state.engine.step(commit)?;
        self.is_active = false;
        let writes = state.active(self.me.handle).writes.iter().copied();
        let place = self.bank.enter_store(writes.clone());
        self.bank.mirror.publish(writes);
        state.log(commit, txn, 0);
        self.watch.commit(false);
        if self.is_query {
            state.metrics.reports += 1;
        } else {
            state.metrics.updates += 1;
        }
        self.remove(&mut state);
        Ok((state, txn, place))
    }

    /// Removes it after its end. Returns the transaction it waited for, if it was a deadlock's victim.
    fn remove(&self, state: &mut State) -> Option<Txn> {
        self.watch.charge(|| state.charged(self.me.handle));
        let waited_for = state.remove(self.me.handle);
        state.count_wait(self.waiting.waited(), self.watch);
        self.bank.ends.fetch_add(1, Ordering::Release);
        if state.is_nearly_full() && state.is_worth_renewing() {
            state.wake_for_capacity();
        }
        waited_for
    }

    /// Aborts it. Returns the transaction it waited for, if it was a deadlock's victim.
    pub(super) fn abort(&mut self) -> Option<Txn> {
        let mut state = self.bank.lock();
        // the engine keeps capacity for the end of each active transaction
        let txn = state.active(self.me.handle).txn;
        if state.engine.abort(txn).is_ok() {
            state.log(Event::Abort { txn }, txn, 0);
        }
        self.is_active = false;
        if self.has_failed {
            state.metrics.aborts += 1;
        }
        self.remove(&mut state)
    }

    pub(super) fn commit(self) -> Result<(), Error> {
        let bank = self.bank;
        let (state, _, place) = self.end()?;
        drop(state);
        bank.wait_for_place(place)
    }

    pub(super) fn commit_and_audit(self) -> Result<Finding, Error> {
        let bank = self.bank;
        let (state, query, place) = self.end()?;
        let report = bank.report_of(&state, query);
        let finding = bank.audit_of(state, report)?;
        bank.wait_for_place(place)?;
        Ok(finding)
    }

    pub(super) fn commit_as_due(self) -> Result<Report, Error> {
        let bank = self.bank;
        let (mut state, query, place) = self.end()?;
        state.due.push(query);
        let report = bank.report_of(&state, query);
        drop(state);
        bank.wait_for_place(place)?;
        Ok(report)
    }
}

fn with_value(mut error: Error, value: i64) -> Error {
    if let Error::Refused(refused) = &mut error {
        refused.value = Some(value);
    }
    error
}

impl Drop for Handle<'_> {
    fn drop(&mut self) {
        if self.is_active {
            self.has_failed = true;
            self.abort();
            if thread::panicking() {
                // what the body has read may be in its panic
                let _ = self.bank.wait_for_store();
            }
        }
    }
}
