//! The committed values of a bank, readable without its lock, and the drafts of updates that read there.
//!
//! A body of an optimistic update runs on the [`Mirror`]: the committed value of each item with the number of the
//! publication (the commit) that wrote it. The body's reads and writes become a [`Draft`], which the bank submits to the
//! engine as one transaction in one hold of the lock (`bank::ahead`).
//!
//! # Why such an update is an ordinary transaction of the engine
//!
//! 1. *The engine executes it.* Begin, reads, writes and commit are calls like any others, made under the lock. So
//!    everything that is promised of the engine's histories is true of these: limits, locks, serializable updates, audits.
//!    The mirror is not trusted. The commit is sent only if each reply of the engine equals the value that the body saw
//!    ([`Draft::execute`]); otherwise the transaction is aborted in the same hold, and the body runs again. If an item changed
//!    and changed back, the replies are equal, and that is right: the history has what the body saw. Versions are compared
//!    before the submission ([`Draft::is_stale`]), which is stricter, only to avoid submissions in vain.
//! 2. *The body is that transaction.* The run that commits saw exactly the replies in the history, wrote the values in the
//!    history, and returned what the caller gets. The history omits a second read of an item (the lock would have kept the
//!    value), a read of the update's own write, and a write that is overwritten in the same hold; a last write has the place
//!    of the first one, which may be before a read that it depends on. No other transaction can observe these, since no other
//!    event is between begin and commit.
//! 3. *Order.* The whole update happens within one hold during the call, so the order of the holds is a serial order that
//!    respects real time. Updates that run step by step meet the same locks in the engine as ever.
//! 4. *A body sees one moment.* A commit is published in the hold in which the engine has executed it, so the mirror has
//!    committed values only. Publications have even numbers, which grow by 2 and never repeat. One marks its items (odd
//!    version), stores the new moment, and then stores values and versions. A read returns a value between two equal even
//!    versions. A version up to the draft's moment was the value at that moment: a later publication would show its version
//!    or its mark, and an earlier one set its mark before the moment was stored, so the read waited for it. For a newer
//!    version the moment moves forward, if everything read before still has its version; otherwise the body is stopped with
//!    [`Error::Overtaken`]. So not even a run that is discarded sees half of a commit, and an assertion in a body cannot fail
//!    because of one. All that a body cannot know is whether its moment is still the last one.
//! 5. *Memory orders.* The store of a moment releases the marks of its publication and, by the lock, of all earlier ones, and
//!    each load of it by a draft acquires. So at each item a draft sees the mark of the last publication up to its moment, or
//!    something newer. The store of a version releases its value, and the first load of a version acquires. A release fence
//!    is between the marks and the values, and an acquire fence between the loads of the value and of the second version, so
//!    a thread that has loaded a new value sees at least the mark.
//! 6. *Failures.* An error or panic of a body leaves nothing to undo: the engine has not heard of it. If the body was not
//!    overtaken, its error is the result, because it follows from values of one moment during the call. The error of a body
//!    that was overtaken is dropped; a panic is passed on in any case, as it is if a body unwraps any other error of a read.
//!    Neither the body nor an observer runs within the hold, so none of their panics can separate a commit from its
//!    publication.
//!
//! The unit tests run reads, publications and submissions under every schedule (`interleave`), and `tests/mutants`
//! plants the faults that this argument excludes: reads that are not compared, versions that are not checked, marks that are
//! not set, orders that are too weak, values that are published without a commit, an aborted draft that stays active.

use crate::{
    Engine, Error, Event, Refusal, Reply, Txn,
    engine::Misfit,
    error::Refused,
    sync::{Apart, AtomicI64, AtomicU64, fence, spin_loop, yield_now},
};
use std::{cell::Cell, collections::HashMap, sync::atomic::Ordering};

/// The largest absolute value of an item.
pub(crate) const MAX_VALUE: i64 = 1_000_000_000_000;
/// Up to this number of items a draft is searched linearly.
const FEW: usize = 24;
const NONE: u32 = u32::MAX;

/// The committed value of an item.
#[derive(Debug)]
struct Mirrored {
    /// The publication that wrote the value, an even number; odd while the next one is in progress.
    version: AtomicU64,
    value: AtomicI64,
}

/// The committed values of all items. Only the holder of the bank's lock publishes.
#[derive(Debug)]
pub(crate) struct Mirror {
    /// The last publication. Each commit writes it, and each body reads the bank's other fields.
    now: Apart<AtomicU64>,
    items: Box<[Mirrored]>,
}

impl Mirror {
    pub(crate) fn of(opening: &[i64]) -> Mirror {
        let mirrored = |value: &i64| Mirrored {
            version: AtomicU64::new(0),
            value: AtomicI64::new(*value),
        };
        Mirror {
            now: Apart(AtomicU64::new(0)),
            items: opening.iter().map(mirrored).collect(),
        }
    }

    /// Returns the value of an item and the publication that wrote it. Polls while the item is marked, which takes as long as
    /// a few stores unless the publishing thread is preempted.
    #[inline(always)]
    fn read(&self, item: u32) -> (u64, i64) {
        let mirrored = &self.items[item as usize];
        let mut rounds = 0_u32;
        loop {
            let before = mirrored.version.load(Ordering::Acquire);
            let value = mirrored.value.load(Ordering::Relaxed);
            // a thread that has read a new value sees below that its publication had begun
            fence(Ordering::Acquire);
            if before % 2 == 0 && mirrored.version.load(Ordering::Relaxed) == before {
                return (before, value);
            }
            rounds += 1;
            pause_for_mark(rounds);
        }
    }

    pub(crate) fn value(&self, item: u32) -> i64 {
        self.read(item).1
    }

    /// Publishes the writes of a commit. Each item occurs at most once.
    pub(crate) fn publish(&self, writes: impl Iterator<Item = (u32, i64)> + Clone) {
        if writes.clone().next().is_none() {
            return;
        }
        let next = self.now.0.load(Ordering::Relaxed) + 2;
        for (item, _) in writes.clone() {
            let version = &self.items[item as usize].version;
            version.store(next - 1, Ordering::Relaxed);
        }
        // a thread that sees this moment, or a value of it, sees the marks and waits for the values
        self.now.0.store(next, Ordering::Release);
        fence(Ordering::Release);
        for (item, value) in writes {
            let mirrored = &self.items[item as usize];
            mirrored.value.store(value, Ordering::Relaxed);
            mirrored.version.store(next, Ordering::Release);
        }
    }
}

/// Pauses before the next poll of a marked item.
#[cold]
fn pause_for_mark(rounds: u32) {
    if rounds % 64 == 0 {
        yield_now();
    }
    spin_loop();
}

/// An item that a body has read or written.
#[derive(Clone, Copy, Debug)]
struct Touched {
    item: u32,
    /// The index of its write among the operations, or `NONE`.
    write: u32,
    /// The value that the body has read or written last.
    value: i64,
    /// The publication whose value the body has read, if it has read one.
    version: Option<u64>,
}

/// A read with the value that the body saw, or a write.
#[derive(Clone, Copy, PartialEq, Eq, Debug)]
pub(crate) enum Operation {
    Read { item: u32, value: i64 },
    Write { item: u32, value: i64 },
}

impl Operation {
    pub(crate) fn item(self) -> u32 {
        match self {
            Operation::Read { item, .. } | Operation::Write { item, .. } => item,
        }
    }

    /// Executes it as an event of a transaction, and checks that the reply is the one that the body saw.
    #[inline(always)]
    fn execute(self, engine: &mut Engine, txn: Txn) -> Result<(), Misfit> {
        match self {
            Operation::Read { item, value } => {
                engine.expect(Event::Read { txn, item }, Reply::Value(value))
            }
            Operation::Write { item, value } => {
                engine.expect(Event::Write { txn, item, value }, Reply::Wrote)
            }
        }
    }
}

/// The reads and writes of a body: of each item the first read, unless it was written before, and the last write, at the
/// place of the first.
///
/// A transaction makes many calls of `read` and `write`, so they are compiled into their callers. What few calls need is in
/// separate functions, so that the others save no registers for it.
#[derive(Default, Debug)]
pub(crate) struct Draft {
    /// The publication up to which all reads are of one moment.
    moment: u64,
    touched: Vec<Touched>,
    /// The indices of the items in `touched`, once there are more than `FEW`.
    places: HashMap<u32, usize>,
    operations: Vec<Operation>,
    overtaken: bool,
}

thread_local! {
    /// An unused draft, kept for its memory.
    static SPARE: Cell<Option<Box<Draft>>> = const { Cell::new(None) };
}

impl Draft {
    /// Returns an empty draft, reusing the last one of this thread.
    pub(crate) fn take() -> Box<Draft> {
        SPARE.take().unwrap_or_default()
    }

    pub(crate) fn put_back(self: Box<Draft>) {
        SPARE.set(Some(self));
    }

    /// Clears the draft: the body runs again, on the current values.
    pub(crate) fn restart(&mut self, mirror: &Mirror) {
        self.touched.clear();
        self.places.clear();
        self.operations.clear();
        self.overtaken = false;
        self.moment = mirror.now.0.load(Ordering::Acquire);
    }

    #[inline(always)]
    fn place(&self, item: u32) -> Option<usize> {
        if self.touched.len() <= FEW {
            self.touched.iter().position(|touched| touched.item == item)
        } else {
            self.place_among_many(item)
        }
    }

    #[inline(never)]
    fn place_among_many(&self, item: u32) -> Option<usize> {
        self.places.get(&item).copied()
    }

    #[inline(always)]
    fn touch(&mut self, touched: Touched) {
        self.touched.push(touched);
        if self.touched.len() > FEW {
            self.note_last_place();
        }
    }

    /// Notes the place of the last item, and with the first one above `FEW` those of all.
    #[inline(never)]
    fn note_last_place(&mut self) {
        let first = if self.places.is_empty() {
            0
        } else {
            self.touched.len() - 1
        };
        let places = self.touched.iter().enumerate().skip(first);
        self.places
            .extend(places.map(|(n, touched)| (touched.item, n)));
    }

    /// Reports whether a value that the body has read is no longer the committed one, or is about to be replaced.
    pub(crate) fn is_stale(&self, mirror: &Mirror) -> bool {
        self.touched.iter().any(|touched| {
            let version = &mirror.items[touched.item as usize].version;
            touched
                .version
                .is_some_and(|seen| version.load(Ordering::Acquire) != seen)
        })
    }

    /// Reports whether the body was stopped because other updates changed what it had read.
    pub(crate) fn is_overtaken(&self) -> bool {
        self.overtaken
    }

    #[inline(always)]
    pub(crate) fn read(&mut self, mirror: &Mirror, item: u32) -> Result<i64, Error> {
        if self.overtaken {
            return Err(Error::Overtaken);
        }
        if let Some(place) = self.place(item) {
            return Ok(self.touched[place].value);
        }
        loop {
            let (version, value) = mirror.read(item);
            if version <= self.moment {
                self.operations.push(Operation::Read { item, value });
                self.touch(Touched {
                    item,
                    write: NONE,
                    value,
                    version: Some(version),
                });
                return Ok(value);
            }
            self.advance(mirror)?;
        }
    }

    /// Moves the moment forward, for a value that is newer than the earlier reads, if these are still the committed values.
    #[inline(never)]
    fn advance(&mut self, mirror: &Mirror) -> Result<(), Error> {
        let now = mirror.now.0.load(Ordering::Acquire);
        if self.is_stale(mirror) {
            self.overtaken = true;
            return Err(Error::Overtaken);
        }
        self.moment = now;
        Ok(())
    }

    #[inline(always)]
    pub(crate) fn write(&mut self, item: u32, value: i64) -> Result<(), Error> {
        if self.overtaken {
            return Err(Error::Overtaken);
        }
        if !(-MAX_VALUE..=MAX_VALUE).contains(&value) {
            return Err(out_of_range(value));
        }
        let write = Operation::Write { item, value };
        let next = self.operations.len();
        let Some(place) = self.place(item) else {
            self.operations.push(write);
            self.touch(Touched {
                item,
                write: next as u32,
                value,
                version: None,
            });
            return Ok(());
        };
        let touched = &mut self.touched[place];
        touched.value = value;
        if touched.write == NONE {
            touched.write = next as u32;
            self.operations.push(write);
        } else {
            self.operations[touched.write as usize] = write;
        }
        Ok(())
    }

    /// Returns the reads and writes.
    pub(crate) fn operations(&self) -> &[Operation] {
        &self.operations
    }

    /// Executes the reads and writes as events of a transaction, up to the first reply that is not the one that the body saw.
    /// Returns the number of those before.
    pub(crate) fn execute(&self, engine: &mut Engine, txn: Txn) -> (usize, Result<(), Misfit>) {
        for (number, operation) in self.operations.iter().enumerate() {
            if let Err(misfit) = operation.execute(engine, txn) {
                return (number, Err(misfit));
            }
        }
        (self.operations.len(), Ok(()))
    }

    /// Returns the written items with their last values.
    pub(crate) fn writes(&self) -> impl Iterator<Item = (u32, i64)> + Clone {
        let written = self.touched.iter().filter(|touched| touched.write != NONE);
        written.map(|touched| (touched.item, touched.value))
    }
}

#[cold]
fn out_of_range(value: i64) -> Error {
    Refused::of(Refusal::ValueOutOfRange).value(value).into()
}

#[cfg(test)]
mod tests {
    use super::*;
    use crate::interleave::{Depth, explore};
    use std::{
        sync::{Arc, atomic::AtomicBool},
        thread,
    };

    fn draft_of(mirror: &Mirror) -> Draft {
        let mut draft = Draft::default();
        draft.restart(mirror);
        draft
    }

    /// Operations are the first read and the last write of each item, and a body reads its own writes.
    #[test]
    fn a_draft_is_minimal() {
        let mirror = Mirror::of(&[500, 1500]);
        let mut draft = draft_of(&mirror);
        assert_eq!(draft.read(&mirror, 0), Ok(500));
        assert_eq!(draft.read(&mirror, 0), Ok(500));
        for value in [400, 300] {
            assert_eq!(draft.write(0, value), Ok(()));
            assert_eq!(draft.read(&mirror, 0), Ok(value));
        }
        assert_eq!(draft.write(1, 7), Ok(()));
        assert_eq!(draft.read(&mirror, 1), Ok(7));
        let operations = [
            Operation::Read {
                item: 0,
                value: 500,
            },
            Operation::Write {
                item: 0,
                value: 300,
            },
            Operation::Write { item: 1, value: 7 },
        ];
        assert_eq!(draft.operations(), operations);
        assert_eq!(draft.writes().collect::<Vec<_>>(), [(0, 300), (1, 7)]);
        let refused = draft.write(0, MAX_VALUE + 1).unwrap_err();
        assert_eq!(refused.refusal(), Some(Refusal::ValueOutOfRange));
        assert_eq!(draft.write(0, -MAX_VALUE), Ok(()));
    }

    /// A draft of many items finds them as one of few does.
    #[test]
    fn a_draft_finds_many_items() {
        let mirror = Mirror::of(&[3; 200]);
        let mut draft = draft_of(&mirror);
        for item in 0..200 {
            assert_eq!(draft.read(&mirror, item), Ok(3));
            assert_eq!(draft.write(item, item.into()), Ok(()));
        }
        for item in (0..200).rev() {
            assert_eq!(draft.read(&mirror, item), Ok(item.into()));
        }
        assert_eq!(draft.operations().len(), 400);
    }

    /// A newer value is read as long as earlier reads are still current; otherwise the body is stopped.
    #[test]
    fn reads_are_of_one_moment() {
        let mirror = Mirror::of(&[1, 2, 3]);
        let mut draft = draft_of(&mirror);
        assert_eq!(draft.read(&mirror, 0), Ok(1));
        mirror.publish([(1, 20)].into_iter());
        assert_eq!(draft.read(&mirror, 1), Ok(20));
        assert!(!draft.is_stale(&mirror));
        mirror.publish([(0, 10), (2, 30)].into_iter());
        assert!(draft.is_stale(&mirror));
        assert_eq!(draft.read(&mirror, 2), Err(Error::Overtaken));
        assert_eq!(draft.read(&mirror, 0), Err(Error::Overtaken));
        assert_eq!(draft.write(0, 1), Err(Error::Overtaken));
        draft.restart(&mirror);
        assert_eq!(
            (draft.read(&mirror, 2), draft.read(&mirror, 0)),
            (Ok(30), Ok(10))
        );
    }

    /// Reads two items whose sum is 0 at each moment.
    fn read_both(mirror: &Mirror) {
        let mut draft = draft_of(mirror);
        if let (Ok(a), Ok(b)) = (draft.read(mirror, 0), draft.read(mirror, 1)) {
            assert_eq!(a + b, 0, "a body saw half a commit");
        }
    }

    /// In every schedule, and for every store that a load may observe, no reader sees half of a commit.
    #[test]
    fn no_schedule_shows_half_a_commit() {
        let one: fn(&Mirror) = |mirror| mirror.publish([(0, 5), (1, -5)].into_iter());
        let backwards: fn(&Mirror) = |mirror| mirror.publish([(1, -7), (0, 7)].into_iter());
        let two: fn(&Mirror) = |mirror| {
            mirror.publish([(1, 0)].into_iter());
            mirror.publish([(0, 5), (1, -5)].into_iter());
        };
        for (writer, switches) in [(one, 2), (backwards, 2), (two, 1)] {
            let test = || {
                let mirror = Arc::new(Mirror::of(&[0, 0]));
                (mirror, vec![writer, read_both as fn(&Mirror)])
            };
            let runs = explore(Depth::fine(switches), test, |_, _| {});
            println!("{runs} schedules");
        }
    }

    /// In every schedule a draft that is not stale under the lock has read the values of that moment.
    #[test]
    fn no_schedule_passes_a_stale_draft() {
        struct Shared {
            mirror: Mirror,
            lock: crate::gate::Lock<[i64; 2]>,
        }
        // each thread adds the other item's value plus one to its own item, as a submission does
        fn add(shared: &Shared, mine: u32) {
            let other = 1 - mine;
            loop {
                let mut draft = draft_of(&shared.mirror);
                let both = (
                    draft.read(&shared.mirror, mine),
                    draft.read(&shared.mirror, other),
                );
                let (Ok(a), Ok(b)) = both else {
                    spin_loop();
                    continue;
                };
                draft.write(mine, a + b + 1).expect("it is in range");
                let mut values = shared.lock.lock();
                if draft.is_stale(&shared.mirror) {
                    drop(values);
                    spin_loop();
                    continue;
                }
                assert_eq!((values[mine as usize], values[other as usize]), (a, b));
                values[mine as usize] = a + b + 1;
                shared.mirror.publish(draft.writes());
                return;
            }
        }
        let test = || {
            let shared = Arc::new(Shared {
                mirror: Mirror::of(&[0, 0]),
                lock: crate::gate::Lock::new([0, 0]),
            });
            let threads: Vec<fn(&Shared)> = vec![|shared| add(shared, 0), |shared| add(shared, 1)];
            (shared, threads)
        };
        let runs = explore(Depth::fine(2), test, |shared, _| {
            let values = *shared.lock.lock();
            assert!(values == [1, 2] || values == [2, 1], "{values:?}");
        });
        println!("{runs} schedules");
    }

    /// The same by real threads, many times.
    #[test]
    fn no_reader_sees_half_a_commit() {
        let (mirror, open) = (Mirror::of(&[0; 2]), AtomicBool::new(true));
        thread::scope(|threads| {
            threads.spawn(|| {
                for n in 1..100_000 {
                    mirror.publish([(0, n), (1, -n)].into_iter());
                }
                open.store(false, Ordering::Relaxed);
            });
            while open.load(Ordering::Relaxed) {
                read_both(&mirror);
            }
        });
    }
}
