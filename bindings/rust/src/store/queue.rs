//! The queue of a bank in front of its store, and the thread that writes it.
//!
//! Updates enter the open *group*. The thread closes it, opens the next one, and writes the closed one without any lock.
//! Callers wait for the end of their group. Those of two successive groups wait at different condition variables, so the end
//! of one does not wake the callers of the next.

use super::{Change, Store, StoreError};
use crate::{Error, error::text_of};
use std::{
    mem,
    panic::{self, AssertUnwindSafe},
    sync::{
        Arc, Condvar, Mutex, MutexGuard, PoisonError,
        atomic::{AtomicBool, Ordering},
    },
    thread::{self, JoinHandle},
    time::{Duration, Instant},
};

/// The pause after the first failed attempt, which doubles from attempt to attempt.
const FIRST_PAUSE: Duration = Duration::from_millis(10);
const LONGEST_PAUSE: Duration = Duration::from_secs(1);

/// A group of updates that the store gets in one transaction, by its number.
#[derive(Clone, Copy, PartialEq, Eq, PartialOrd, Ord, Debug)]
struct Group(u64);

/// What a caller waits for: a group and all before it.
#[derive(Clone, Copy, Debug)]
pub(crate) struct Place {
    group: Group,
    /// Whether the group has an update of the caller.
    is_update: bool,
}

impl Place {
    /// The place of a caller that does not have to wait.
    pub(crate) const NONE: Place = Place {
        group: Group(0),
        is_update: false,
    };
}

/// Why the queue has stopped.
#[derive(Clone, Debug)]
struct Stop {
    /// The group whose write failed. No later one was written.
    group: Group,
    why: String,
    /// Whether the store may have that group.
    may_be_written: bool,
}

impl Stop {
    /// Returns the error of a call.
    fn error_for(&self, place: Place) -> Error {
        let is_in_group = place.is_update && place.group == self.group;
        Error::StoreStopped {
            why: self.why.clone(),
            may_be_written: self.may_be_written && is_in_group,
        }
    }
}

/// A change of an item by its number.
#[derive(Clone, Copy)]
struct Written {
    item: u32,
    old: i64,
    new: i64,
}

/// A group that no more updates enter: their number, and the changes that they make together.
struct Closed {
    group: Group,
    updates: u64,
    changes: Vec<Written>,
}

struct State {
    /// The last committed value of each item.
    latest: Vec<i64>,
    /// The values that the store has.
    stored: Vec<i64>,
    /// The items that the updates of the open group have written, each once.
    dirty: Vec<u32>,
    is_dirty: Vec<bool>,
    /// The group that updates enter, and their number.
    open: Group,
    updates: u64,
    /// The last group that the store has.
    finished: Group,
    stop: Option<Stop>,
    is_closing: bool,
    written_updates: u64,
    writes: u64,
}

impl State {
    /// Fails if the queue has stopped.
    fn check(&self) -> Result<(), Error> {
        let stopped = self.stop.as_ref().map(|stop| stop.error_for(Place::NONE));
        stopped.map_or(Ok(()), Err)
    }

    /// Returns the last group that has an update.
    fn last(&self) -> Group {
        match self.updates {
            0 => Group(self.open.0 - 1),
            _ => self.open,
        }
    }

    /// Closes the open group.
    fn close_group(&mut self) -> Closed {
        let mut changes = Vec::with_capacity(self.dirty.len());
        for item in self.dirty.drain(..) {
            let number = item as usize;
            self.is_dirty[number] = false;
            let (old, new) = (self.stored[number], self.latest[number]);
            if old != new {
                changes.push(Written { item, old, new });
            }
        }
        let closed = Closed {
            group: self.open,
            updates: mem::take(&mut self.updates),
            changes,
        };
        self.open = Group(self.open.0 + 1);
        closed
    }
}

struct Shared {
    state: Mutex<State>,
    is_stopped: AtomicBool,
    filled: Condvar,
    /// The callers of groups with an even number wait at the first, those of groups with an odd one at the second.
    done: [Condvar; 2],
}

impl Shared {
    fn lock(&self) -> MutexGuard<'_, State> {
        self.state.lock().unwrap_or_else(PoisonError::into_inner)
    }

    fn done(&self, group: Group) -> &Condvar {
        &self.done[(group.0 % 2) as usize]
    }
}

/// The bank's end of the queue. The store is closed, and its thread ended, when this is dropped.
pub(crate) struct StoreQueue {
    shared: Arc<Shared>,
    thread: Option<JoinHandle<()>>,
}

impl StoreQueue {
    /// Starts the thread that writes to an open store, which has the given values.
    pub(crate) fn start(
        store: Box<dyn Store + Send>,
        patience: Duration,
        names: Vec<String>,
        values: &[i64],
    ) -> Result<StoreQueue, Error> {
        let state = State {
            latest: values.to_vec(),
            stored: values.to_vec(),
            dirty: Vec::with_capacity(values.len()),
            is_dirty: vec![false; values.len()],
            open: Group(1),
            updates: 0,
            finished: Group(0),
            stop: None,
            is_closing: false,
            written_updates: 0,
            writes: 0,
        };
        let shared = Arc::new(Shared {
            state: Mutex::new(state),
            is_stopped: AtomicBool::new(false),
            filled: Condvar::new(),
            done: [Condvar::new(), Condvar::new()],
        });
        let mut writer = Writer {
            store: Guarded(store),
            patience,
            names,
            number: 0,
            shared: shared.clone(),
        };
        let thread = thread::Builder::new().name("esr store".into());
        let thread = thread.spawn(move || writer.run());
        let thread = Some(thread.map_err(|_| Error::NoMemory)?);
        Ok(StoreQueue { shared, thread })
    }

    /// Fails if the queue has stopped.
    pub(crate) fn check(&self) -> Result<(), Error> {
        if !self.shared.is_stopped.load(Ordering::Acquire) {
            return Ok(());
        }
        self.shared.lock().check()
    }

    /// Adds an update that the engine has committed in this hold of the bank's lock, and that no other thread can see yet.
    /// Each item occurs at most once. Returns the place of this update; without writes, a place after all updates so far.
    pub(crate) fn enter(&self, writes: impl Iterator<Item = (u32, i64)>) -> Place {
        let mut writes = writes.peekable();
        let mut state = self.shared.lock();
        if writes.peek().is_none() {
            return Place {
                group: state.last(),
                is_update: false,
            };
        }
        let place = Place {
            group: state.open,
            is_update: true,
        };
        if state.stop.is_some() {
            return place;
        }
        for (item, value) in writes {
            let number = item as usize;
            state.latest[number] = value;
            if !state.is_dirty[number] {
                state.is_dirty[number] = true;
                state.dirty.push(item);
            }
        }
        state.updates += 1;
        if state.updates == 1 {
            self.shared.filled.notify_one();
        }
        place
    }

    /// Waits until the store has all updates up to a place.
    pub(crate) fn wait(&self, place: Place) -> Result<(), Error> {
        let mut state = self.shared.lock();
        loop {
            if state.finished >= place.group {
                return Ok(());
            }
            if let Some(stop) = &state.stop {
                return Err(stop.error_for(place));
            }
            let waited = self.shared.done(place.group).wait(state);
            state = waited.unwrap_or_else(PoisonError::into_inner);
        }
    }

    /// Returns the value of an item in the store.
    pub(crate) fn value(&self, item: u32) -> Result<i64, Error> {
        let state = self.shared.lock();
        state.check()?;
        Ok(state.stored[item as usize])
    }

    /// Returns the values of the store after one of its transactions.
    pub(crate) fn values(&self) -> Result<Vec<i64>, Error> {
        let state = self.shared.lock();
        state.check()?;
        Ok(state.stored.clone())
    }

    /// Returns the numbers of transactions of the store, and of the updates in them.
    pub(crate) fn counts(&self) -> (u64, u64) {
        let state = self.shared.lock();
        (state.writes, state.written_updates)
    }
}

impl Drop for StoreQueue {
    fn drop(&mut self) {
        self.shared.lock().is_closing = true;
        self.shared.filled.notify_one();
        if let Some(thread) = self.thread.take() {
            let _ = thread.join();
        }
    }
}

/// A store whose panics are errors.
struct Guarded(Box<dyn Store + Send>);

impl Guarded {
    fn call<T>(
        &mut self,
        call: impl FnOnce(&mut dyn Store) -> Result<T, StoreError>,
    ) -> Result<T, StoreError> {
        panic::catch_unwind(AssertUnwindSafe(|| call(self.0.as_mut()))).unwrap_or_else(|panic| {
            let why = format!("the store panicked: {}", text_of(panic.as_ref()));
            Err(StoreError::Unknown(why))
        })
    }
}

/// The attempts of one write, as long as patience lasts.
#[derive(Clone, Copy)]
struct Attempts {
    begun: Instant,
    patience: Duration,
    pause: Duration,
}

impl Attempts {
    fn of(patience: Duration) -> Attempts {
        Attempts {
            begun: Instant::now(),
            patience,
            pause: FIRST_PAUSE,
        }
    }

    /// Pauses before another attempt. Returns false at once if patience has ended.
    fn again(&mut self) -> bool {
        let left = self.patience.saturating_sub(self.begun.elapsed());
        if left.is_zero() {
            return false;
        }
        thread::sleep(self.pause.min(left));
        self.pause = (self.pause * 2).min(LONGEST_PAUSE);
        true
    }
}

/// A write that was given up: why, and whether the store may have it.
struct GivenUp {
    why: String,
    may_be_written: bool,
}

impl GivenUp {
    fn not_written(why: String) -> GivenUp {
        GivenUp {
            why,
            may_be_written: false,
        }
    }

    fn unknown(why: String) -> GivenUp {
        GivenUp {
            why,
            may_be_written: true,
        }
    }
}

struct Writer {
    store: Guarded,
    patience: Duration,
    names: Vec<String>,
    /// The number of the last write.
    number: u64,
    shared: Arc<Shared>,
}

impl Writer {
    fn run(&mut self) {
        while let Some(closed) = self.next() {
            let written = match closed.changes.is_empty() {
                true => Ok(()),
                false => self.write(&closed.changes),
            };
            self.finish(&closed, written);
        }
        let _ = self.store.call(|store| {
            store.close();
            Ok(())
        });
    }

    /// Waits for updates, and closes their group. Returns `None` once the bank is closed.
    fn next(&self) -> Option<Closed> {
        let mut state = self.shared.lock();
        loop {
            if state.updates > 0 && state.stop.is_none() {
                return Some(state.close_group());
            }
            if state.is_closing {
                return None;
            }
            let waited = self.shared.filled.wait(state);
            state = waited.unwrap_or_else(PoisonError::into_inner);
        }
    }

    /// Wakes the callers of a group; all callers, if the queue stops.
    fn finish(&self, closed: &Closed, written: Result<(), GivenUp>) {
        let group = closed.group;
        let mut state = self.shared.lock();
        match written {
            Ok(()) => {
                for written in &closed.changes {
                    state.stored[written.item as usize] = written.new;
                }
                state.finished = group;
                state.written_updates += closed.updates;
                state.writes += u64::from(!closed.changes.is_empty());
                self.shared.done(group).notify_all();
            }
            Err(GivenUp {
                why,
                may_be_written,
            }) => {
                state.stop = Some(Stop {
                    group,
                    why,
                    may_be_written,
                });
                self.shared.is_stopped.store(true, Ordering::Release);
                self.shared.done.iter().for_each(Condvar::notify_all);
            }
        }
    }

    /// Writes until the store has the changes. If they are certainly not there, no call has returned yet that would be
    /// contradicted, so they may be written again. If that is unknown, it is resolved first.
    fn write(&mut self, changes: &[Written]) -> Result<(), GivenUp> {
        let mut attempts = Attempts::of(self.patience);
        loop {
            self.number += 1;
            let why = match self.try_write(changes) {
                Ok(()) => return Ok(()),
                Err(StoreError::Final(why)) => return Err(GivenUp::not_written(why)),
                Err(StoreError::NotWritten(why)) => why,
                Err(StoreError::Unknown(why)) => {
                    if self.resolve(attempts)? {
                        return Ok(());
                    }
                    why
                }
            };
            if !attempts.again() {
                return Err(GivenUp::not_written(why));
            }
        }
    }

    fn try_write(&mut self, changes: &[Written]) -> Result<(), StoreError> {
        let named = changes.iter().map(|written| Change {
            name: &self.names[written.item as usize],
            old: written.old,
            new: written.new,
        });
        let named: Vec<Change<'_>> = named.collect();
        let number = self.number;
        self.store.call(|store| store.write(number, &named))
    }

    /// Returns whether the store has the last write, whose outcome is unknown. Fails if it is still unknown when patience
    /// ends.
    fn resolve(&mut self, mut attempts: Attempts) -> Result<bool, GivenUp> {
        attempts.pause = FIRST_PAUSE;
        let number = self.number;
        loop {
            let why = match self.store.call(|store| store.resolve(number)) {
                Ok(is_written) => return Ok(is_written),
                Err(StoreError::Final(why)) => return Err(GivenUp::unknown(why)),
                Err(StoreError::NotWritten(why) | StoreError::Unknown(why)) => why,
            };
            if !attempts.again() {
                return Err(GivenUp::unknown(why));
            }
        }
    }
}
