//! A thread that polls for a gate: when it looks, when it tries, and when it requests the end of a lease.
//!
//! A look at the state takes its cache line away from the owner. So a thread polls the number of leases, which changes only
//! when an owner opens the gate, and looks at the state after a change, and otherwise seldom: the one that is next every
//! [`LOOK`], others less often. An open gate is entered in the order of arrival, roughly: a thread waits for as many polls as
//! others may have arrived before it, and does not look meanwhile, so that the one that is next enters undisturbed. It needs
//! no queue for that: a thread that was preempted meanwhile does not keep others out.
//!
//! The longer a lease, the fewer transactions find the engine's data in another cache, and the longer a thread waits for the
//! leases of the others. A lease is short for one poller. With more of them the data of more threads moves, so a lease is
//! longer. If many more threads are busy than there are processors, a thread waits for turns (`turns`), and leases of a
//! fifth of a turn hardly add to its wait. Moving the data takes about as long as a transaction. So a lease has
//! time for [`HOLDS`] of them, also with larger transactions or on a slower host.
//!
//! Rejected: leases of 100 microseconds for too many threads, which gained nothing, with a higher 99th percentile; time for 20
//! holds, which gained at most 1 per cent on a slow host, where the 99.9th percentile of four threads was 1.6 times as long.

use super::{Gate, Kind, State};
use crate::{sync::nanoseconds, turns};
use std::sync::atomic::Ordering;

/// A lease ends on request after this time in nanoseconds, if one thread polls.
const LEASE: u64 = 10_000;
/// A lease is longer by this time for each further thread that polls.
const MORE: u64 = 3_000;
/// The length of a lease if many more threads are busy than there are processors.
const LONGER: u64 = 50_000;
/// A lease has time for this number of holds.
const HOLDS: u64 = 14;
/// The length of a lease for that number of holds is at most this.
const LONGEST: u64 = 100_000;
/// A reservation that is not used for this time in nanoseconds is taken over.
const LOOK: u64 = if cfg!(test) { 1 } else { 5_000 };
/// A thread sleeps after this time in one lease. No lease is as long, unless its owner is preempted.
const MAX_WAIT: u64 = 200_000;
/// The number of polls for which a thread lets urgent ones go first. They may have been preempted.
const POLITE_POLLS: u32 = if cfg!(test) { 1 } else { 50 };
/// The largest number of polls for which a thread lets earlier ones go first.
const MAX_RANK: u64 = 4;

/// Returns the length of a lease next to a number of threads that poll, if there is a hold in each `period`.
pub(super) fn length(polling: u64, is_crowded: bool, period: u64) -> u64 {
    let least = if is_crowded {
        LONGER
    } else {
        LEASE + MORE * polling.saturating_sub(1)
    };
    least.max((HOLDS * period).min(LONGEST))
}

pub(super) struct Poller<'a> {
    gate: &'a Gate,
    has_priority: bool,
    /// The number of leases when it arrived.
    arrived: u64,
    /// The number of leases now, since when, for how long, and the number of polls since then.
    lease: u64,
    since: u64,
    waited: u64,
    polls: u32,
    /// The number of polls before it looks after the end of a lease.
    early_polls: u64,
    /// The state at the last look, since when, and the number of looks since then.
    seen: State,
    seen_since: u64,
    looks: u64,
    next_look: u64,
    is_suspended: bool,
}

impl Poller<'_> {
    pub(super) fn of(gate: &Gate, has_priority: bool) -> Poller<'_> {
        let (lease, now) = (gate.leases(), nanoseconds());
        Poller {
            gate,
            has_priority,
            arrived: lease,
            lease,
            since: now,
            waited: 0,
            polls: 0,
            early_polls: 0,
            seen: State::default(),
            seen_since: now,
            looks: 0,
            next_look: now,
            is_suspended: false,
        }
    }

    /// Reports whether leases are suspended, so that the gate is entered by whoever comes first.
    pub(super) fn is_suspended(&self) -> bool {
        self.is_suspended
    }

    /// Reports whether it has polled in one lease for as long as is sensible.
    pub(super) fn is_tired(&self) -> bool {
        // no time passes in a test
        self.polls > 0 && (cfg!(test) || self.waited >= MAX_WAIT)
    }

    /// Polls once. Reports whether it has entered.
    pub(super) fn poll(&mut self) -> bool {
        let (lease, now) = (self.gate.leases(), nanoseconds());
        if lease != self.lease {
            (self.lease, self.since, self.waited, self.polls) = (lease, now, 0, 0);
            self.early_polls = self.rank();
            return self.early_polls == 0 && self.look(now, true);
        }
        self.polls += 1;
        if self.early_polls > 0 {
            self.early_polls -= 1;
            return self.early_polls == 0 && self.look(now, true);
        }
        self.waited = now - self.since;
        if self.is_over() {
            self.gate.request_end(lease);
        }
        let is_open = self.seen.kind() == Kind::Open;
        (is_open || self.is_suspended || now >= self.next_look) && self.look(now, false)
    }

    fn polling(&self) -> u64 {
        self.gate.waiting.0.polling.load(Ordering::Relaxed)
    }

    /// Reports whether the lease may end.
    fn is_over(&self) -> bool {
        let period = || self.gate.leases.0.period.load(Ordering::Relaxed);
        cfg!(test) || self.waited >= length(self.polling(), turns::is_crowded(), period())
    }

    /// Returns the number of threads that go first.
    fn rank(&self) -> u64 {
        let polling = self.polling();
        let age = self.lease - self.arrived;
        let is_first = self.has_priority || self.is_suspended || polling <= 1;
        if is_first {
            0
        } else {
            polling.saturating_sub(age).min(MAX_RANK)
        }
    }

    /// Looks at the state, and tries to enter if it is this thread's turn: at once if `is_next`.
    pub(super) fn look(&mut self, now: u64, is_next: bool) -> bool {
        let seen = self.gate.state(Ordering::Acquire);
        if seen == self.seen {
            self.looks += 1;
        } else {
            (self.seen, self.seen_since, self.looks) = (seen, now, 0);
        }
        self.is_suspended = self.gate.holding.0.trial.is_suspended(seen.holds());
        let rank = self.rank();
        self.next_look = now + LOOK * (1 + rank);
        let is_urgent_first =
            !self.has_priority && self.polls < POLITE_POLLS && self.gate.has_urgent();
        if is_urgent_first {
            return false;
        }
        match seen.kind() {
            Kind::Open => (is_next || self.looks >= rank) && self.gate.take(seen).is_ok(),
            Kind::Reserved => now >= self.seen_since + LOOK && self.gate.take_over(seen).is_ok(),
            Kind::Taken => false,
        }
    }
}
