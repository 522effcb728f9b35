//! Whether reservations of a gate are worth their time.
//!
//! No thread holds a gate while it is reserved. This time, the *gap*, is the price of a reservation. In return the data of a
//! hold need not move to another processor, which takes about as long as the hold itself, since both grow with the data. So
//! a reservation is worth a gap of one and a half holds, and [`SHORT`] for the gate's own lines. (Four threads were as fast
//! with leases as without when the gap took 1.7 holds.)
//! Each new owner and each [`SAMPLE`]th hold is measured. After a gap that is too long, or a reservation that was not used,
//! the next holds reserve nothing: one, then three, and so on up to [`MAX_DOUBT`]; each good gap halves their number. So a
//! load with longer bodies or pauses pays for one bad reservation in 255 holds, and a thread that was preempted costs little.
//!
//! Rejected: a longest gap in nanoseconds, which does not fit a host that is three times slower; the throughput of both ways
//! in turn, which holds of stale drafts distort.
//!
//! The measured holds also estimate the *period*: the time from hold to hold in a lease. Each changes the estimate by a
//! sixteenth, so it is near the median, and a thread that was preempted changes it little.
//!
//! Only the holder changes this, so all operations are relaxed: entering the gate orders them.

use crate::sync::{AtomicU64, nanoseconds};
use std::sync::atomic::Ordering::Relaxed;

/// A gap of this time, in nanoseconds, is worth it after any hold.
const SHORT: u64 = 200;
/// The number of holds of which one is measured.
const SAMPLE: u64 = if cfg!(test) { 2 } else { 16 };
/// The largest number of holds that reserve nothing.
const MAX_DOUBT: u64 = if cfg!(test) { 3 } else { 255 };

#[derive(Debug, Default)]
pub(super) struct Trial {
    /// Holds before this one reserve nothing.
    until: AtomicU64,
    /// The number of holds that reserved nothing after the last bad reservation, halved by each good one since.
    doubt: AtomicU64,
    /// When the reservation or hold began that is measured, or 0.
    since: AtomicU64,
    /// The gap before the hold that is measured, or 0.
    gap: AtomicU64,
    /// The estimate of the period.
    period: AtomicU64,
}

impl Trial {
    /// Reports whether a hold reserves nothing.
    pub(super) fn is_suspended(&self, holds: u64) -> bool {
        holds < self.until.load(Relaxed)
    }

    /// Notes a reservation after a hold.
    pub(super) fn reserve(&self, holds: u64, is_new_owner: bool) {
        let is_measured = is_new_owner || holds % SAMPLE == 0;
        let since = if is_measured { nanoseconds() } else { 0 };
        self.since.store(since, Relaxed);
    }

    /// Notes that a reservation is used.
    pub(super) fn enter(&self) {
        let since = self.since.load(Relaxed);
        if since > 0 {
            let now = nanoseconds();
            self.gap.store(now - since, Relaxed);
            self.since.store(now, Relaxed);
        }
    }

    /// Compares a gap with the hold that followed it, and ends.
    pub(super) fn leave(&self, holds: u64) {
        let gap = self.gap.load(Relaxed);
        if gap > 0 {
            let hold = nanoseconds() - self.since.load(Relaxed);
            self.gap.store(0, Relaxed);
            self.judge(gap, hold, holds);
            // the first hold of a new owner takes longer
            if (holds - 1) % SAMPLE == 0 {
                self.estimate(gap + hold);
            }
        }
    }

    pub(super) fn estimate(&self, measured: u64) {
        let period = self.period();
        let step = period / 16 + 1;
        let next = if measured > period {
            period + step
        } else {
            period.saturating_sub(step)
        };
        self.period.store(next, Relaxed);
    }

    /// Returns about the time from hold to hold in a lease, in nanoseconds.
    pub(super) fn period(&self) -> u64 {
        self.period.load(Relaxed)
    }

    fn judge(&self, gap: u64, hold: u64, holds: u64) {
        if gap > hold + hold / 2 + SHORT {
            return self.doubt(holds);
        }
        let doubt = self.doubt.load(Relaxed);
        self.doubt.store(doubt / 2, Relaxed);
    }

    /// Notes a reservation that was not worth its time, before a hold.
    pub(super) fn doubt(&self, holds: u64) {
        let doubt = (2 * self.doubt.load(Relaxed) + 1).min(MAX_DOUBT);
        self.doubt.store(doubt, Relaxed);
        self.until.store(holds + 1 + doubt, Relaxed);
    }
}

#[cfg(test)]
mod tests {
    use super::*;

    /// A gap is compared with the hold after it.
    #[test]
    fn long_gaps_suspend_reservations() {
        let trial = Trial::default();
        trial.judge(1_700, 1_000, 1);
        assert!(!trial.is_suspended(2));
        trial.judge(1_701, 1_000, 2);
        assert!(trial.is_suspended(3) && !trial.is_suspended(4));
    }

    /// The period is estimated from below and above, and one that is very long changes it little.
    #[test]
    fn the_period_is_near_the_median() {
        let trial = Trial::default();
        for measured in [1_000, 3_000] {
            (0..300).for_each(|_| trial.estimate(measured));
            assert!(trial.period().abs_diff(measured) <= measured / 15);
            trial.estimate(1_000_000_000);
            assert!(trial.period() < measured + measured / 5);
        }
        (0..300).for_each(|_| trial.estimate(500));
        assert!(trial.period() < 550);
    }

    /// Reservations are suspended for longer the more often they fail, and sooner resumed after good ones.
    #[test]
    fn doubt_doubles_and_halves() {
        let trial = Trial::default();
        for (hold, suspended) in [(10, 1), (20, 3), (30, MAX_DOUBT)] {
            trial.doubt(hold);
            assert!(trial.is_suspended(hold + suspended));
            assert!(!trial.is_suspended(hold + suspended + 1));
        }
        trial.judge(1, 1, 40);
        assert_eq!(trial.doubt.load(Relaxed), 1);
        trial.judge(1, 1, 41);
        assert_eq!(trial.doubt.load(Relaxed), 0);
    }

    /// The gap and the hold of a new owner are measured.
    #[test]
    fn new_owners_are_measured() {
        let trial = Trial::default();
        trial.reserve(1, false);
        trial.enter();
        assert_eq!(trial.gap.load(Relaxed), 0);
        nanoseconds();
        trial.reserve(1, true);
        std::thread::sleep(std::time::Duration::from_millis(1));
        trial.enter();
        assert!(trial.gap.load(Relaxed) >= 1_000_000);
        trial.leave(2);
        assert!(trial.gap.load(Relaxed) == 0 && trial.is_suspended(3));
        assert_eq!(trial.period(), 0);
        trial.reserve(4, false);
        nanoseconds();
        std::thread::sleep(std::time::Duration::from_millis(1));
        trial.enter();
        trial.leave(5);
        assert_eq!(trial.period(), 1);
    }
}
