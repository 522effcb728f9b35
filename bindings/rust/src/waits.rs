//! The wait-for graph of the transactions of a bank, deadlock victims, and wake-ups.
//!
//! Everything here is under the bank's lock. Each waiting transaction waits for one other, which its last refusal named. So a
//! ring can only appear when a transaction begins to wait, and is found by following the graph from there. The youngest
//! transaction of a ring is the victim and is woken. A transaction that runs again keeps the age of its first attempt, so it
//! becomes the oldest in time; before it runs again, it waits for the end of the transaction that it had waited for. Without
//! the first rule it might be the victim forever, and without the second it would close the same ring again. That the end of
//! a transaction frees an event that it blocks is a theorem about the machine (`an_end_frees` of `esr_liveness`).
//!
//! The graph is a part of the truth. Several readers may block a write, and the refusal names one of them; a transaction may
//! be blocked by its own limit, and is then not registered; one whose blocker has ended waits for no one until it retries. A
//! ring through an edge that is missing is found when the transaction has retried after the end of the one that it named, and
//! otherwise ends when the time is up for which an attempt waits for one event (`patience`). A registered wait is one of the
//! engine's, since a transaction retries only after its registration is removed, and releases its locks only at its end. So
//! no transaction is a victim without a deadlock.
//!
//! A waiting thread sleeps and retries by itself after some time. It is woken earlier when the transaction it waits for has
//! ended: at each item one thread at a time, and the next one after that has retried, since they would compete for an item
//! that one of them gets. A transaction that holds locks is woken at once, because others may wait for it. One that holds
//! none delays no other, so these are woken at most once in a millisecond: each wake-up costs the running thread more than a
//! small transaction.

use crate::{
    Refusal, Txn,
    sync::{Instant, Thread, current},
};
use std::{collections::BTreeMap, mem, time::Duration};

/// For this time after a wake-up no transaction is woken that holds no locks.
const BETWEEN: Duration = Duration::from_millis(1);

/// The order in which bodies first began: the larger, the younger.
#[derive(Clone, Copy, PartialEq, Eq, PartialOrd, Ord, Debug)]
pub(crate) struct Age(pub(crate) u64);

/// Whether other transactions may wait for a transaction.
#[derive(Clone, Copy, PartialEq, Eq, PartialOrd, Ord, Debug)]
pub(crate) enum Holds {
    Locks,
    Nothing,
}

/// A transaction, which waits if an event of it is blocked.
#[derive(Clone, Copy, Debug)]
pub(crate) struct Waiter {
    pub(crate) txn: Txn,
    pub(crate) age: Age,
    pub(crate) holds: Holds,
}

/// A waiting transaction, and its thread.
#[derive(Debug)]
struct Wait {
    /// `None` once that transaction has ended, and this one may retry.
    blocker: Option<Txn>,
    reason: Refusal,
    item: u32,
    waiter: Waiter,
    thread: Thread,
}

/// The waiting transactions of one history.
#[derive(Debug, Default)]
pub(crate) struct Waits {
    waiting: BTreeMap<Txn, Wait>,
    /// Deadlock victims: the transaction that each waited for, if it was not ended by a renewal, and its refusal.
    victims: BTreeMap<Txn, (Option<Txn>, Refusal)>,
    /// For each item the transaction that was woken and has not retried yet.
    woken: BTreeMap<u32, Txn>,
    last_wake: Option<Instant>,
}

impl Waits {
    /// Registers a transaction of this thread as waiting for another at an item. If a ring closes, its youngest is the victim.
    pub(crate) fn begin(&mut self, waiter: Waiter, item: u32, blocker: Txn, reason: Refusal) {
        let wait = Wait {
            blocker: Some(blocker),
            reason,
            item,
            waiter,
            thread: current(),
        };
        self.waiting.insert(waiter.txn, wait);
        if let Some(victim) = self.youngest_of_ring(waiter.txn) {
            self.give_up(victim);
        }
    }

    /// Registers a transaction as not waiting, or retrying. If it had been woken, the next one is.
    pub(crate) fn end(&mut self, txn: Txn) {
        let Some(wait) = self.waiting.remove(&txn) else {
            return;
        };
        if self.woken.get(&wait.item) == Some(&txn) {
            self.woken.remove(&wait.item);
            self.wake_at(wait.item);
        }
    }

    /// Removes a transaction that has ended: others that wait for it may retry. Returns the transaction that it waited for,
    /// if it was a victim.
    pub(crate) fn forget(&mut self, txn: Txn) -> Option<Txn> {
        self.end(txn);
        self.free(txn);
        self.victims.remove(&txn).and_then(|(other, _)| other)
    }

    /// Gives the transactions the numbers that they have after a renewal, `None` for one that has ended.
    pub(crate) fn renumber(&mut self, new: impl Fn(Txn) -> Option<Txn>) {
        let kept = |reason: Refusal| reason.renumbered(|txn| new(txn).unwrap_or(txn));
        for (old, mut wait) in mem::take(&mut self.waiting) {
            let Some(txn) = new(old) else { continue };
            wait.waiter.txn = txn;
            wait.blocker = wait.blocker.and_then(&new);
            wait.reason = kept(wait.reason);
            self.waiting.insert(txn, wait);
        }
        for (old, (other, reason)) in mem::take(&mut self.victims) {
            let victim = new(old).map(|txn| (txn, (other.and_then(&new), kept(reason))));
            self.victims.extend(victim);
        }
        for (item, old) in mem::take(&mut self.woken) {
            self.woken.extend(new(old).map(|txn| (item, txn)));
        }
    }

    /// Returns the transaction that a waiting one waits for, if that has not ended, and the item.
    pub(crate) fn wait_of(&self, txn: Txn) -> Option<(Option<Txn>, u32)> {
        let wait = self.waiting.get(&txn);
        wait.map(|wait| (wait.blocker, wait.item))
    }

    /// Reports whether the transaction that a waiting one waited for has ended, or it is a deadlock victim.
    pub(crate) fn may_retry(&self, txn: Txn) -> bool {
        self.victims.contains_key(&txn) || matches!(self.wait_of(txn), Some((None, _)))
    }

    /// Returns the refusal of a transaction that is a deadlock victim.
    pub(crate) fn victim(&self, txn: Txn) -> Option<Refusal> {
        self.victims.get(&txn).map(|(_, reason)| *reason)
    }

    fn give_up(&mut self, victim: Txn) {
        if let Some(wait) = self.waiting.remove(&victim) {
            self.victims.insert(victim, (wait.blocker, wait.reason));
            wait.thread.unpark();
        }
    }

    /// Lets transactions retry that wait for one that has ended.
    fn free(&mut self, ended: Txn) {
        let mut items = Vec::new();
        for wait in self.waiting.values_mut() {
            if wait.blocker == Some(ended) {
                wait.blocker = None;
                items.push(wait.item);
            }
        }
        for item in items {
            self.wake_at(item);
        }
    }

    /// Wakes one of the transactions that may retry at an item, unless one is about to: the oldest that holds locks, or else
    /// the oldest.
    fn wake_at(&mut self, item: u32) {
        let ready = |wait: &&Wait| wait.item == item && wait.blocker.is_none();
        let next = self.waiting.values().filter(ready);
        let Some(wait) = next.min_by_key(|wait| (wait.waiter.holds, wait.waiter.age)) else {
            return;
        };
        let is_late = self.last_wake.is_none_or(|last| last.elapsed() >= BETWEEN);
        if self.woken.contains_key(&item) || (wait.waiter.holds == Holds::Nothing && !is_late) {
            return;
        }
        wait.thread.unpark();
        self.woken.insert(item, wait.waiter.txn);
        self.last_wake = Some(Instant::now());
    }

    fn youngest_of_ring(&self, txn: Txn) -> Option<Txn> {
        let mut at = txn;
        let mut youngest = (Age(0), txn);
        // a ring that `txn` leads to without being part of it was dissolved before
        for _ in 0..=self.waiting.len() {
            let wait = self.waiting.get(&at)?;
            youngest = youngest.max((wait.waiter.age, at));
            at = wait.blocker?;
            if at == txn {
                return Some(youngest.1);
            }
        }
        None
    }
}

#[cfg(test)]
mod tests {
    use super::*;

    const LOCK: Refusal = Refusal::BlockedByLock(Txn(1));

    fn waiter(txn: u32, age: u64) -> Waiter {
        Waiter {
            txn: Txn(txn),
            age: Age(age),
            holds: Holds::Locks,
        }
    }

    /// Adds a wait at one item, of a transaction that holds locks and is as old as its number.
    fn wait(waits: &mut Waits, txn: u32, blocker: u32) {
        waits.begin(waiter(txn, txn.into()), 0, Txn(blocker), LOCK);
    }

    fn woken(waits: &Waits) -> Option<u32> {
        waits.woken.get(&0).map(|txn| txn.number())
    }

    /// Of two that wait for each other the younger is the victim, and not a third that waits for one of them.
    #[test]
    fn the_youngest_of_a_ring_is_the_victim() {
        let mut waits = Waits::default();
        wait(&mut waits, 9, 4);
        wait(&mut waits, 4, 7);
        assert!(![4, 7, 9].iter().any(|n| waits.victim(Txn(*n)).is_some()));
        wait(&mut waits, 7, 4);
        assert!(waits.victim(Txn(7)).is_some());
        assert!(waits.victim(Txn(4)).is_none() && waits.victim(Txn(9)).is_none());
    }

    /// A ring of three closes at its last step.
    #[test]
    fn a_ring_of_three_is_found() {
        let mut waits = Waits::default();
        wait(&mut waits, 1, 2);
        wait(&mut waits, 2, 3);
        assert!(waits.victim(Txn(3)).is_none());
        wait(&mut waits, 3, 1);
        assert!(waits.victim(Txn(3)).is_some());
        assert_eq!(waits.forget(Txn(3)), Some(Txn(1)));
        assert!(waits.victim(Txn(3)).is_none());
    }

    /// A transaction that runs again is as old as it was, though its number is the largest.
    #[test]
    fn age_is_kept_over_attempts() {
        let mut waits = Waits::default();
        waits.begin(waiter(8, 1), 0, Txn(5), LOCK);
        waits.begin(waiter(5, 5), 0, Txn(8), LOCK);
        assert!(waits.victim(Txn(5)).is_some() && waits.victim(Txn(8)).is_none());
    }

    /// A transaction that stops waiting before the ring closes is in none.
    #[test]
    fn a_transaction_that_does_not_wait_is_in_no_ring() {
        let mut waits = Waits::default();
        wait(&mut waits, 1, 2);
        waits.end(Txn(1));
        wait(&mut waits, 2, 1);
        assert!(waits.victim(Txn(1)).is_none() && waits.victim(Txn(2)).is_none());
    }

    /// Of the transactions that may retry one is woken at a time, and the next one after that has retried.
    #[test]
    fn one_is_woken_at_a_time() {
        let mut waits = Waits::default();
        for txn in [4, 3, 5] {
            wait(&mut waits, txn, 1);
        }
        waits.begin(waiter(6, 6), 1, Txn(1), LOCK);
        assert_eq!(woken(&waits), None);
        waits.forget(Txn(1));
        assert_eq!(
            (woken(&waits), waits.woken.get(&1)),
            (Some(3), Some(&Txn(6)))
        );
        waits.end(Txn(3));
        wait(&mut waits, 3, 7);
        assert_eq!(woken(&waits), Some(4));
        waits.end(Txn(4));
        assert_eq!(woken(&waits), Some(5));
        waits.forget(Txn(5));
        assert_eq!(woken(&waits), None);
        waits.forget(Txn(7));
        assert_eq!(woken(&waits), Some(3));
    }

    /// After a renewal each transaction has its new number, and the end of the blocker wakes the waiter.
    #[test]
    fn numbers_change_at_a_renewal() {
        let mut waits = Waits::default();
        wait(&mut waits, 5, 3);
        wait(&mut waits, 9, 7);
        wait(&mut waits, 7, 9);
        assert!(waits.victim(Txn(9)).is_some());
        let new = |txn: Txn| match txn.number() {
            3 => Some(Txn(1)),
            5 => Some(Txn(2)),
            9 => Some(Txn(3)),
            _ => None,
        };
        waits.renumber(new);
        assert_eq!(waits.wait_of(Txn(2)), Some((Some(Txn(1)), 0)));
        assert_eq!(waits.wait_of(Txn(5)), None);
        assert!(waits.victim(Txn(3)).is_some() && waits.victim(Txn(9)).is_none());
        // its blocker 7 has ended
        assert_eq!(waits.forget(Txn(3)), None);
        waits.forget(Txn(1));
        assert_eq!(woken(&waits), Some(2));
    }

    /// Without locks a transaction is woken after those with locks, and not soon after another wake-up.
    #[test]
    fn transactions_without_locks_are_woken_rarely() {
        let mut waits = Waits::default();
        for (txn, blocker) in [(2, 1), (3, 1), (5, 4)] {
            let free = Waiter {
                holds: Holds::Nothing,
                ..waiter(txn, txn.into())
            };
            waits.begin(free, 0, Txn(blocker), LOCK);
        }
        waits.forget(Txn(1));
        assert_eq!(woken(&waits), Some(2));
        waits.last_wake = Some(Instant::now() + BETWEEN);
        waits.end(Txn(2));
        assert_eq!(woken(&waits), None);
        wait(&mut waits, 6, 4);
        waits.forget(Txn(4));
        assert_eq!(woken(&waits), Some(6));
    }
}
