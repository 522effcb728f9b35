//! How long blocked transactions retry, over an engine and in a bank.
//!
//! Patience is a time that a transaction spends by waiting: for its events, for the ends of others and for capacity, over
//! all its attempts. A number of retries would be used up at once on a busy machine, on which the transaction that is waited
//! for does not run meanwhile.
//!
//! A bank wakes transactions that may retry. Over an engine, pauses become longer, up to some milliseconds, and are random:
//! two transactions that block each other and wait alike would meet again. The first pauses only yield the processor, since
//! a counter that many threads change is free again at once.
//!
//! A waiting transaction holds locks that others may wait for, so an attempt waits for an event only for its share. Then it
//! is aborted, and runs again when the others have had time to notice. The share doubles from attempt to attempt: if two
//! wait for each other unnoticed, one gives up soon, and if one is slow, a later attempt waits long enough.

use crate::sync::{Instant, park_timeout, sleep, uniform_draw, yield_now};
use std::time::Duration;

/// The longest pause.
const LONGEST: Duration = Duration::from_millis(5);
/// Within this time every waiting transaction has retried.
const ROUND: Duration = Duration::from_millis(10);

/// How long a transaction waits for others in total before its call fails: 10 seconds by default. Its own work does not
/// count.
///
/// ```
/// use esr::{Bank, Error, Patience, Refusal};
/// use std::time::Duration;
///
/// let short = Patience::of(Duration::from_millis(20));
/// let bank = Bank::builder().item("checking", 500).patience(short).open()?;
/// let result = bank.transact_stepwise(0, |first| {
///     first.write("checking", 400)?;
///     // an update within the other one waits for it in vain
///     bank.transact(0, |second| second.write("checking", 300))
/// });
/// let refusal = result.unwrap_err().refusal();
/// assert!(matches!(refusal, Some(Refusal::BlockedByLock(_))));
/// assert_eq!(bank.value("checking")?, 500);
/// # Ok::<(), Error>(())
/// ```
#[derive(Clone, Copy, PartialEq, Eq, Debug)]
pub struct Patience {
    total: Duration,
}

impl Patience {
    /// Returns a patience of the given total. With zero a blocked event fails at once.
    ///
    /// ```
    /// use esr::Patience;
    /// use std::time::Duration;
    ///
    /// assert_eq!(Patience::default(), Patience::of(Duration::from_secs(10)));
    /// ```
    #[must_use]
    pub const fn of(total: Duration) -> Patience {
        Patience { total }
    }
}

impl Default for Patience {
    fn default() -> Patience {
        Patience::of(Duration::from_secs(10))
    }
}

/// The rest of the patience of a transaction, over all its attempts.
#[derive(Clone, Copy, Debug)]
pub(crate) struct Waiting {
    left: Duration,
    /// The time waited in this attempt, and before it began.
    waited: Duration,
    /// The number of rounds that only yield the processor.
    yields: u32,
    /// The first pause after these, which doubles from round to round.
    pause: Duration,
    /// The time for which this attempt may wait for one event.
    share: Duration,
    /// Whether it has waited that long.
    has_given_up: bool,
}

/// The pauses for one event: their number and total.
#[derive(Default, Debug)]
pub(crate) struct Rounds {
    count: u32,
    waited: Duration,
}

/// Returns a random time from half of the given one up to all of it.
fn draw(max: Duration) -> Duration {
    max.saturating_mul(8 + (uniform_draw() % 9) as u32) / 16
}

impl Waiting {
    /// Returns the patience over an engine, where rings of waiters are not detected.
    pub(crate) fn of_engine(patience: Patience) -> Waiting {
        Waiting {
            left: patience.total,
            waited: Duration::ZERO,
            yields: 4,
            pause: Duration::from_micros(20),
            share: draw(Duration::from_millis(2)),
            has_given_up: false,
        }
    }

    /// Returns the patience in a bank, which detects rings of waiters, unless one has reached its own limit, and wakes
    /// waiters.
    pub(crate) fn of_bank(patience: Patience) -> Waiting {
        Waiting {
            left: patience.total,
            waited: Duration::ZERO,
            yields: 0,
            pause: Duration::from_millis(1),
            share: draw(Duration::from_millis(50)),
            has_given_up: false,
        }
    }

    /// Returns the patience that is left.
    pub(crate) fn rest(&self) -> Duration {
        self.left
    }

    /// Spends a time.
    pub(crate) fn spend(&mut self, time: Duration) {
        self.left = self.left.saturating_sub(time);
        self.waited += time;
    }

    /// Returns the patience of the next attempt.
    pub(crate) fn of_next_attempt(self) -> Waiting {
        Waiting {
            waited: Duration::ZERO,
            ..self
        }
    }

    /// Returns how long this attempt has waited.
    pub(crate) fn waited(&self) -> Duration {
        self.waited
    }

    /// Spends a share, for an attempt without capacity in the history, so that these end too.
    pub(crate) fn spend_share(&mut self) {
        self.spend(self.share);
    }

    /// Waits until this thread is woken, as long as patience lasts.
    pub(crate) fn park(&mut self) {
        let begun = Instant::now();
        park_timeout(self.left);
        self.spend(begun.elapsed());
    }

    /// Waits, longer in each round, or until this thread is woken. Returns false at once if no patience is left.
    pub(crate) fn pause(&mut self, rounds: &mut Rounds) -> bool {
        if self.left.is_zero() {
            return false;
        }
        let begun = Instant::now();
        match rounds.count.checked_sub(self.yields) {
            None => yield_now(),
            Some(n) => {
                let max = self.pause.saturating_mul(1 << n.min(16)).min(LONGEST);
                park_timeout(draw(max).min(self.left));
            }
        }
        let waited = begun.elapsed();
        rounds.count = rounds.count.saturating_add(1);
        rounds.waited += waited;
        self.spend(waited);
        true
    }

    /// Waits before an event is retried. Returns false also if the attempt has waited for it as long as it may.
    pub(crate) fn pause_for_event(&mut self, rounds: &mut Rounds) -> bool {
        self.has_given_up = rounds.waited >= self.share || !self.pause(rounds);
        !self.has_given_up
    }

    /// Reports whether the attempt has waited for an event as long as it may.
    pub(crate) fn has_given_up(&self) -> bool {
        self.has_given_up
    }

    /// Waits until others have retried, before the next attempt, which may wait twice as long. Reports whether patience is
    /// left.
    pub(crate) fn pause_for_attempt(&mut self) -> bool {
        let begun = Instant::now();
        sleep(draw(self.share.min(ROUND)).min(self.left));
        self.spend(begun.elapsed());
        self.share = self.share.saturating_mul(2);
        self.has_given_up = false;
        !self.left.is_zero()
    }
}

#[cfg(test)]
mod tests {
    use super::*;

    /// Patience ends after its total, and later pauses return at once.
    #[test]
    fn patience_ends() {
        let mut waiting = Waiting::of_bank(Patience::of(Duration::from_millis(30)));
        let (begun, mut rounds) = (Instant::now(), Rounds::default());
        while waiting.pause(&mut rounds) {}
        assert!(begun.elapsed() >= Duration::from_millis(30));
        assert!(rounds.count > 1 && rounds.waited >= Duration::from_millis(30));
        assert!(!waiting.pause_for_attempt() && waiting.rest().is_zero());
    }

    /// An event is waited for during the share of its attempt, which doubles.
    #[test]
    fn shares_grow() {
        let mut waiting = Waiting::of_engine(Patience::default());
        let mut before = Duration::ZERO;
        for _ in 0..4 {
            let mut rounds = Rounds::default();
            while waiting.pause_for_event(&mut rounds) {}
            assert!(rounds.waited >= waiting.share && waiting.share >= 2 * before);
            before = waiting.share;
            assert!(waiting.pause_for_attempt());
        }
    }
}
