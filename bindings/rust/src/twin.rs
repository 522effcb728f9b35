//! A second engine, which replays the accepted events of the first on its own thread and audits there.
//!
//! An engine is deterministic, so the second reaches the state of the first, and its findings are the same. The events are
//! logged under the bank's lock in the order in which the first engine accepted them, and an audit is one more entry of the
//! log, so it is made at the point of the history at which it was requested. Refused events are omitted, as they change no
//! value, lock or charge. Of a report that was carried over a renewal the reads are omitted, because it is not audited; what
//! it was charged limits only itself and the updates that it was charged for, so other findings do not change.
//!
//! The second engine is not trusted blindly: each begin has the number, and each read the value, that the first engine
//! returned. When a reply differs or is a refusal, or an allocation fails, the second engine is given up until the next
//! renewal, and the bank audits under its lock. So it does if the thread ends by a panic: requests are then dropped, which
//! their callers notice.
//!
//! The thread and the second engine start when the first report of the bank begins, so a bank without reports does not pay
//! for them. They need the history from its opening. So each history is logged from there, but without a thread only up to
//! [`MAX_LOGGED`] entries; a longer log is dropped. With a thread a history is logged as a whole: at most 16 MB. After
//! [`QUIET`] histories in which no report began, a history is not logged at all: a report that is carried into it is not
//! audited, and the log takes 6 per cent of an update's instructions. If a report begins and finds no log, the bank is
//! renewed first, and the log restarts with the new history. This renewal makes no report inexact: each active one was
//! carried before. If the thread cannot be started, or this renewal fails, nothing is logged until the next renewal, and
//! audits hold the lock: neither is tried twice in a history.
//!
//! The thread sleeps until a report begins. After each part of the log it yields its processor, since an update may wait for
//! it. At a renewal without pending audits the log is dropped, and the second engine restarts from the values; with pending
//! ones, the logs of both histories are kept until they are made.
//!
//! Rejected: whole logs for banks that may never have a report; a renewal before the first report in any case, which would
//! take the history from short programs that print it; reading the history back from the first engine, which would hold the
//! lock as long as an audit does.

use crate::{Engine, Error, Finding, Txn, mirror::Operation, sys};
use std::{
    collections::VecDeque,
    mem,
    sync::{
        Arc, Condvar, Mutex, MutexGuard, OnceLock, PoisonError,
        mpsc::{Receiver, Sender, channel},
    },
    thread::{self, JoinHandle},
};

/// The number of entries that are handed over at once.
const PART: usize = if cfg!(test) { 8 } else { 4_096 };
/// The capacity of a part for the rest of its last transaction.
const ROOM: usize = 64;
/// A log without a thread is dropped when it has this number of entries. The larger it is, the fewer banks are renewed before
/// their first report; this one takes 1 MB, and is a fifteenth of the longest history.
pub(crate) const MAX_LOGGED: usize = 16 * PART;
/// After this number of histories in which no report began nothing is logged. The larger it is, the fewer banks with rare
/// reports are renewed for them.
pub(crate) const QUIET: u32 = 4;
/// The number of unused parts that are kept for their memory.
const SPARE: usize = 256;

/// An accepted event. The value of a begin is its limit, that of a read the value read.
#[derive(Clone, Copy, Debug)]
pub(crate) struct Entry {
    pub(crate) value: i64,
    pub(crate) txn: u32,
    pub(crate) item: u16,
    pub(crate) kind: u8,
}

enum Part {
    Entries(Vec<Entry>),
    Audit(Txn, Sender<Result<Finding, Error>>),
    Renewed(Vec<i64>),
}

#[derive(Default)]
struct Queue {
    parts: VecDeque<Part>,
    spare: Vec<Vec<Entry>>,
    /// The number of audits among the parts.
    audits: usize,
    is_wanted: bool,
    /// Whether the thread ends. No part is added from then on.
    is_closed: bool,
}

#[derive(Default)]
struct Between {
    queue: Mutex<Queue>,
    wanted: Condvar,
}

impl Between {
    fn lock(&self) -> MutexGuard<'_, Queue> {
        self.queue.lock().unwrap_or_else(PoisonError::into_inner)
    }
}

/// What is logged of the history.
#[derive(Clone, Copy, PartialEq, Eq, Debug)]
enum Log {
    /// All of it.
    Whole,
    /// Nothing more: the log was too long, or no report has begun for some time. The bank is renewed before a report begins.
    Dropped,
    /// Nothing more, although a report has begun.
    Missed,
}

/// The bank's end, under its lock.
pub(crate) struct Feed {
    entries: Vec<Entry>,
    between: Arc<Between>,
    log: Log,
    /// The number of entries of this history that were handed over.
    handed_over: usize,
    has_thread: bool,
    /// Whether each history is logged as a whole.
    is_always: bool,
    /// Whether a report has begun in this history.
    has_report: bool,
    /// The number of earlier histories since the last one in which a report began.
    quiet: u32,
}

impl Feed {
    pub(crate) fn push(&mut self, kind: u32, txn: u32, item: u32, value: i64) {
        if self.log != Log::Whole {
            return;
        }
        self.entries.push(Entry {
            value,
            txn,
            item: item as u16,
            kind: kind as u8,
        });
        self.end_part();
    }

    /// Adds the operations of a transaction.
    pub(crate) fn push_all(&mut self, txn: Txn, operations: &[Operation]) {
        if self.log != Log::Whole {
            return;
        }
        self.entries.extend(operations.iter().map(|operation| {
            let (kind, item, value) = match *operation {
                Operation::Read { item, value } => (2, item, value),
                Operation::Write { item, value } => (3, item, value),
            };
            Entry {
                value,
                txn: txn.number(),
                item: item as u16,
                kind,
            }
        }));
        self.end_part();
    }

    /// Hands the entries over if there are enough. Without a thread it drops a log that has become too long.
    fn end_part(&mut self) {
        if self.entries.len() < PART {
            return;
        }
        if !self.has_thread && self.handed_over + self.entries.len() >= MAX_LOGGED {
            self.stop(Log::Dropped);
        } else {
            self.hand_over();
        }
    }

    /// Drops the log, and logs nothing more of this history. No audit of it is pending.
    fn stop(&mut self, log: Log) {
        self.log = log;
        self.entries.clear();
        self.entries.shrink_to(PART + ROOM);
        self.between.lock().clear();
    }

    /// Starts the thread by `start`, and logs each history from now on.
    pub(crate) fn start_always(&mut self, start: impl FnOnce() -> bool) {
        self.has_thread = start();
        self.is_always = true;
    }

    /// Prepares for a report that begins: `start` starts the thread, if it does not run. Reports whether the bank is renewed
    /// first, because this history is not logged.
    pub(crate) fn begin_report(&mut self, start: impl FnOnce() -> bool) -> bool {
        self.has_report = true;
        if self.log == Log::Missed || self.can_audit() {
            return false;
        }
        self.has_thread = self.has_thread || start();
        let was_dropped = self.log == Log::Dropped;
        if was_dropped || !self.has_thread {
            // whatever comes of it, it is not tried again in this history
            self.stop(Log::Missed);
        }
        was_dropped && self.has_thread
    }

    /// Reports whether the second engine can audit reports of this history.
    pub(crate) fn can_audit(&self) -> bool {
        self.has_thread && self.log == Log::Whole
    }

    fn hand_over(&mut self) {
        self.handed_over += self.entries.len();
        let mut queue = self.between.lock();
        let empty = queue
            .spare
            .pop()
            .unwrap_or_else(|| Vec::with_capacity(PART + ROOM));
        let part = mem::replace(&mut self.entries, empty);
        queue.add(Part::Entries(part));
    }

    /// Requests the audit of a committed query, at this point of the log, which is whole.
    pub(crate) fn ask(&mut self, query: Txn) -> Receiver<Result<Finding, Error>> {
        self.hand_over();
        let (sender, receiver) = channel();
        let mut queue = self.between.lock();
        queue.add(Part::Audit(query, sender));
        queue.is_wanted = true;
        receiver
    }

    /// Restarts the log with a history of these opening values, unless no report has begun for some time.
    pub(crate) fn renew(&mut self, values: Vec<i64>) {
        self.quiet = if self.has_report { 0 } else { self.quiet + 1 };
        self.has_report = false;
        self.entries.clear();
        self.handed_over = 0;
        let mut queue = self.between.lock();
        queue.clear();
        self.log = Log::Dropped;
        if self.quiet <= QUIET || self.is_always {
            self.log = Log::Whole;
            queue.add(Part::Renewed(values));
        }
    }
}

impl Queue {
    /// Adds a part, unless no thread will take it.
    fn add(&mut self, part: Part) {
        if self.is_closed {
            return self.keep(part);
        }
        self.audits += usize::from(matches!(part, Part::Audit(..)));
        self.parts.push_back(part);
    }

    /// Removes all parts, and keeps their memory, unless an audit is pending, which needs them.
    fn clear(&mut self) {
        if self.audits > 0 {
            return;
        }
        for part in mem::take(&mut self.parts) {
            self.keep(part);
        }
    }

    /// Drops all parts and takes no more.
    fn close(&mut self) {
        self.is_closed = true;
        self.audits = 0;
        self.parts.clear();
    }

    /// Keeps the memory of a used part.
    fn keep(&mut self, part: Part) {
        if let Part::Entries(mut entries) = part {
            entries.clear();
            if self.spare.len() < SPARE {
                self.spare.push(entries);
            }
        }
    }
}

/// The auditing thread, if it was started. It ends when this is dropped.
pub(crate) struct Twin {
    between: Arc<Between>,
    weights: Vec<u32>,
    thread: OnceLock<JoinHandle<()>>,
}

impl Twin {
    /// Returns the second engine of a bank that opens, without its thread, and the end that feeds it.
    pub(crate) fn of(opening: &[i64], weights: &[u32]) -> (Twin, Feed) {
        let between = Arc::new(Between::default());
        let mut feed = Feed {
            entries: Vec::with_capacity(PART + ROOM),
            between: between.clone(),
            log: Log::Whole,
            handed_over: 0,
            has_thread: false,
            is_always: false,
            has_report: true,
            quiet: 0,
        };
        feed.renew(opening.to_vec());
        let twin = Twin {
            between,
            weights: weights.to_vec(),
            thread: OnceLock::new(),
        };
        (twin, feed)
    }

    /// Starts the thread, which has not been started yet. Reports whether it runs.
    pub(crate) fn start(&self) -> bool {
        let (between, weights) = (self.between.clone(), self.weights.clone());
        let run = move || {
            let mut auditor = Auditor {
                engine: None,
                weights,
                between,
                events: Vec::new(),
                replies: Vec::new(),
            };
            auditor.run();
        };
        let builder = thread::Builder::new().name("esr audits".into());
        #[cfg(test)]
        let builder = builder.stack_size(tests::STACK.get());
        let thread = builder.spawn(run);
        thread.is_ok_and(|thread| self.thread.set(thread).is_ok())
    }

    #[cfg(test)]
    pub(crate) fn has_started(&self) -> bool {
        self.thread.get().is_some()
    }

    /// Wakes the thread, for a report or an audit. The bank's lock is not held.
    pub(crate) fn wake(&self) {
        self.between.lock().is_wanted = true;
        self.between.wanted.notify_one();
    }
}

impl Drop for Twin {
    fn drop(&mut self) {
        self.between.lock().close();
        self.between.wanted.notify_one();
        if let Some(thread) = self.thread.take() {
            let _ = thread.join();
        }
    }
}

struct Auditor {
    /// `None` once it was given up.
    engine: Option<Engine>,
    weights: Vec<u32>,
    between: Arc<Between>,
    events: Vec<sys::Event>,
    replies: Vec<sys::Reply>,
}

impl Drop for Auditor {
    /// Disconnects the callers of pending audits, which then audit themselves. The thread has ended, perhaps by a panic.
    fn drop(&mut self) {
        self.between.lock().close();
    }
}

impl Auditor {
    fn run(&mut self) {
        while let Some(part) = self.next() {
            match part {
                Part::Entries(entries) => {
                    if self.engine.is_some() && !self.replay(&entries) {
                        self.engine = None;
                    }
                    self.between.lock().keep(Part::Entries(entries));
                    thread::yield_now();
                }
                Part::Audit(query, asker) => {
                    let audit = match &mut self.engine {
                        Some(engine) => engine.audit(query),
                        None => Err(Error::NoMemory),
                    };
                    // the caller may be gone
                    let _ = asker.send(audit);
                }
                Part::Renewed(values) => {
                    // the old one is closed first, so that there are never three
                    self.engine = None;
                    self.engine = Engine::open_weighted(&values, &self.weights).ok();
                }
            }
        }
    }

    /// Waits for the next part.
    fn next(&mut self) -> Option<Part> {
        let mut queue = self.between.lock();
        loop {
            if queue.is_closed {
                return None;
            }
            if queue.is_wanted {
                if let Some(part) = queue.parts.pop_front() {
                    queue.audits -= usize::from(matches!(part, Part::Audit(..)));
                    return Some(part);
                }
                queue.is_wanted = false;
            }
            let waited = self.between.wanted.wait(queue);
            queue = waited.unwrap_or_else(PoisonError::into_inner);
        }
    }

    /// Replays entries. Reports whether the replies are those of the first engine.
    fn replay(&mut self, entries: &[Entry]) -> bool {
        let Some(engine) = &mut self.engine else {
            return false;
        };
        self.events.clear();
        self.events.extend(entries.iter().map(|entry| sys::Event {
            kind: entry.kind.into(),
            txn: entry.txn,
            item: entry.item.into(),
            limit: entry.value as u64,
            value: entry.value,
        }));
        let needed = self.events.len().max(self.replies.len());
        self.replies.resize(needed, sys::Reply::default());
        let replies = &mut self.replies[..entries.len()];
        let (answered, error) = engine.replay(&self.events, replies);
        let agrees = |(entry, reply): (&Entry, &sys::Reply)| match reply.kind {
            1 => reply.txn == entry.txn,
            2 => reply.value == entry.value,
            kind => kind != 6,
        };
        error.is_none()
            && answered == entries.len()
            && entries.iter().zip(replies.iter()).all(agrees)
    }
}

#[cfg(test)]
pub(crate) mod tests {
    use super::*;
    use std::{cell::Cell, sync::mpsc::RecvTimeoutError, time::Duration};

    thread_local! {
        /// The size of the stack of a second engine's thread. If it is too large, the thread cannot be started.
        pub(crate) static STACK: Cell<usize> = const { Cell::new(1 << 20) };
    }

    /// Starts a second engine over one item.
    fn opened() -> (Twin, Feed) {
        let (twin, mut feed) = Twin::of(&[500], &[]);
        assert!(!feed.begin_report(|| twin.start()) && feed.can_audit());
        (twin, feed)
    }

    /// Logs an update and a report that read its work in progress, and returns the finding.
    fn audit(twin: &Twin, feed: &mut Feed, seen: i64) -> Result<Finding, Error> {
        feed.push(1, 1, 0, 100);
        feed.push(3, 1, 0, 400);
        feed.push(6, 2, 0, 100);
        feed.push(2, 2, 0, seen);
        feed.push(5, 1, 0, 0);
        feed.push(4, 2, 0, 0);
        let receiver = feed.ask(Txn(2));
        twin.wake();
        receiver.recv().expect("the thread runs")
    }

    /// A second engine whose replies differ is given up until the next renewal.
    #[test]
    fn a_second_engine_that_differs_is_given_up() {
        let (twin, mut feed) = opened();
        assert_eq!(audit(&twin, &mut feed, 399), Err(Error::NoMemory));
        feed.renew(vec![500]);
        let finding = audit(&twin, &mut feed, 400).expect("it agrees");
        assert_eq!((finding.distance, finding.import), (100, 100));
    }

    /// A history is not logged if no report has begun for some time, until the bank is renewed for one. No pending audit is
    /// lost.
    #[test]
    fn quiet_histories_are_not_logged() {
        let (twin, mut feed) = opened();
        for _ in 0..2 {
            feed.push(6, 1, 0, 100);
            feed.push(4, 1, 0, 0);
            let pending = feed.ask(Txn(1));
            for _ in 0..=QUIET {
                feed.renew(vec![500]);
                assert!(feed.can_audit());
            }
            feed.renew(vec![500]);
            (0..100).for_each(|_| feed.push(1, 1, 0, 0));
            assert!(!feed.can_audit() && feed.entries.is_empty() && feed.handed_over == 0);
            assert!(
                feed.begin_report(|| unreachable!("it runs")),
                "it is renewed"
            );
            assert!(
                !feed.begin_report(|| unreachable!("it runs")),
                "it is not renewed twice"
            );
            feed.renew(vec![500]);
            assert!(feed.can_audit() && !feed.begin_report(|| unreachable!("it runs")));
            twin.wake();
            let finding = pending.recv().expect("the thread runs").expect("it agrees");
            assert_eq!(finding.distance, 0);
        }
    }

    /// A bank that logs each history does so without reports.
    #[test]
    fn each_history_is_logged_on_request() {
        let (twin, mut feed) = Twin::of(&[500], &[]);
        feed.start_always(|| twin.start());
        for _ in 0..=2 * QUIET {
            feed.renew(vec![500]);
        }
        assert!(feed.can_audit());
    }

    /// If the thread ends by a panic, no caller waits for it, and nothing more is kept for it.
    #[test]
    fn a_panic_disconnects_callers() {
        let (twin, mut feed) = opened();
        feed.push(99, 1, 0, 0); // there is no such event, which the engine's caller does not expect
        let pending = feed.ask(Txn(1));
        twin.wake();
        let later = |pending: Receiver<_>| pending.recv_timeout(Duration::from_secs(20)).err();
        assert_eq!(later(pending), Some(RecvTimeoutError::Disconnected));
        assert_eq!(
            later(feed.ask(Txn(1))),
            Some(RecvTimeoutError::Disconnected)
        );
        feed.renew(vec![500]);
        assert!(twin.between.lock().parts.is_empty());
    }
}
