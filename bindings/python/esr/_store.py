"""Keeps the committed values of a bank in a store, a database that survives the process.

The engine commits first, and the update enters a queue under the same hold of the bank's lock, so the queue is in commit
order. A thread writes the whole queue in one transaction of the store, of each item the last value. Only then do the calls
return that wait for it: commits, ends of reports, exceptions that a function raised because of values that it had read.

Invariants:

1. If a commit has returned, the store has all of the update.
2. If it has not returned, the store has all of the update or nothing.
3. If the store has an update, it has each update whose values that one read or overwrote, since it has a prefix of the queue.
4. The store has each update that a report's finding places before the report, once the report's end has returned.
5. The engine's committed values are those of the store, except for the updates in the queue.
6. One bank writes a store. Each opening increases an epoch, which every write checks.

Rejected: a commit in the store before the commit in the engine. It holds locks for milliseconds, so practically every
report would be charged. Also rejected: the first waiting thread as the writer. A KeyboardInterrupt would hit it in the
middle of a write; signals reach the main thread only, which is never the writer.
"""

import logging
import threading
import time
from collections import deque
from typing import Deque, Dict, List, Mapping, NamedTuple, Optional, Protocol, runtime_checkable

from ._errors import NotWritten, StoreStopped

LOG = logging.getLogger("esr.store")
FIRST_PAUSE, LONGEST_PAUSE = 0.01, 1.0
"""Seconds between attempts to write, doubled each time."""


class Change(NamedTuple):
    """A change of an item: its name, the value that the store has now, and its new value."""

    name: str
    old: int
    new: int


@runtime_checkable
class Store(Protocol):
    """A place for the committed values of a bank. Each call but `open` is made by one thread at a time.

    A store keeps the items, an epoch that counts the openings, and the number of the last write. After `open` or `resolve`
    has returned, its values are those of exactly the writes with a number of at most the last one, and no earlier write can
    still take effect.

    >>> from esr import SQLiteStore, Store
    >>> isinstance(SQLiteStore("shop.db"), Store)
    True
    """

    def open(self, items: Mapping[str, int]) -> Dict[str, int]:
        """Opens the store for one bank, adds the items that it does not have, and returns all values.

        # Errors

        `StoreUnfit` if it cannot be a store, `StoreInUse` if another bank has it open.
        """

    def write(self, number: int, changes: List[Change]) -> None:
        """Writes changes of different items and the number in one transaction. They survive a crash once it returns.

        # Errors

        `NotWritten` if the changes are certainly not in the store; any other exception if that is unknown.
        """

    def resolve(self, number: int) -> bool:
        """Connects again, makes sure that no earlier write can still take effect, and returns whether the store has the
        write with this number.

        # Errors

        `NotWritten` with `is_final` if another bank has opened the store; any other exception if the outcome is still
        unknown.
        """

    def close(self) -> None:
        """Releases the store. A second call does nothing."""


class Ticket:
    """A place in the queue: the changes of an update, or none of a call that waits for all updates before it."""

    __slots__ = ("changes", "error", "is_done", "wake")

    def __init__(self, changes: Mapping[str, int]) -> None:
        self.changes = changes
        self.error: Optional[StoreStopped] = None
        self.is_done = False
        self.wake = threading.Lock()
        self.wake.acquire()

    def finish(self, error: Optional[StoreStopped]) -> None:
        """Wakes the call that waits."""
        self.error, self.is_done = error, True
        self.wake.release()


class StoreQueue:
    """The queue of a bank in front of its store, and the thread that writes it."""

    def __init__(self, store: Store, patience: float, values: Dict[str, int]) -> None:
        self.store, self.patience = store, patience
        self.values = values
        """The values that the store has."""
        self.stopped: Optional[StoreStopped] = None
        self.writes = self.updates = 0
        self._number = 0
        self._lock = threading.RLock()  # a bank may be discarded, and close this, while this thread holds the lock
        self._filled = threading.Condition(self._lock)
        self._waiting: Deque[Ticket] = deque()
        self._is_writing = self._is_closing = False
        self._thread = threading.Thread(target=self._run, name="esr store", daemon=True)
        self._thread.start()

    def require_running(self) -> None:
        """Raises `StoreStopped` if the queue has stopped: in each thread another exception with the same text."""
        if self.stopped is not None:
            raise StoreStopped(str(self.stopped), False)

    def enter(self, changes: Mapping[str, int]) -> Ticket:
        """Appends an update. The lock of the bank is held since the engine's commit."""
        ticket = Ticket(changes)
        with self._lock:
            if self.stopped is not None:
                ticket.finish(StoreStopped(str(self.stopped), False))
            else:
                self._waiting.append(ticket)
                self._filled.notify()
        return ticket

    def wait(self, ticket: Ticket) -> None:
        """Waits until the store has the update and all before it.

        # Errors

        `StoreStopped` if the bank has stopped before.
        """
        while not ticket.is_done:
            ticket.wake.acquire()
        if ticket.error is not None:
            raise StoreStopped(str(ticket.error), ticket.error.is_written)

    def wait_for_all(self) -> None:
        """Waits until the store has all updates that have committed so far."""
        with self._lock:
            if self.stopped is None and not self._waiting and not self._is_writing:
                return
        self.wait(self.enter({}))

    def snapshot(self) -> Dict[str, int]:
        """Returns the values of the store after one of its transactions."""
        with self._lock:
            return dict(self.values)

    def close(self, waits: bool = True) -> None:
        """Writes what is in the queue, and closes the store."""
        with self._lock:
            self._is_closing = True
            self._filled.notify()
        if waits:
            self._thread.join()

    def _run(self) -> None:
        while True:
            with self._lock:
                while not self._waiting and not self._is_closing:
                    self._filled.wait()
                group = list(self._waiting)
                self._waiting.clear()
                self._is_writing = True
            if not group:
                break
            try:
                error = self._write(group)
            except BaseException as why:  # a defect of the package or of the store
                LOG.exception("the writer of the store failed")
                error = StoreStopped(f"the bank has stopped: {why!r}; reopen it from the store")
            self._finish(group, error)
        try:
            self.store.close()
        except Exception:
            LOG.exception("closing the store failed")

    def _finish(self, group: List[Ticket], error: Optional[StoreStopped]) -> None:
        """Wakes the calls of a group, and if the queue stops those of all other updates, which are not in the store."""
        with self._lock:
            self._is_writing = False
            rest = list(self._waiting) if error is not None else []
            if error is not None:
                self.stopped = error
                self._waiting.clear()
        if error is not None:
            LOG.error("%s", error)
        for ticket in group:
            ticket.finish(error)
        for ticket in rest:
            ticket.finish(StoreStopped(str(error), False))

    def _write(self, group: List[Ticket]) -> Optional[StoreStopped]:
        last = {name: value for ticket in group for name, value in ticket.changes.items()}
        changes = [Change(name, self.values[name], value) for name, value in last.items() if self.values[name] != value]
        if changes:
            error = self._write_changes(changes)
            if error is not None:
                return error
            with self._lock:
                self.values.update((change.name, change.new) for change in changes)
            self.writes += 1
        self.updates += sum(bool(ticket.changes) for ticket in group)
        return None

    def _write_changes(self, changes: List[Change]) -> Optional[StoreStopped]:
        """Writes until the store has the changes. If they are certainly not there, no call has returned yet that would be
        contradicted, so they may be written again. If that is unknown, it is resolved first."""
        until, pause = time.monotonic() + self.patience, FIRST_PAUSE
        while True:
            self._number += 1
            try:
                self.store.write(self._number, changes)
                return None
            except NotWritten as why:
                if why.is_final:
                    return _stopped(why, False)
                failure: BaseException = why
            except BaseException as why:
                is_written, failure = self._resolve(why, until)
                if is_written:
                    return None
                if is_written is None:
                    return _stopped(failure, None)
            if time.monotonic() >= until:
                return _stopped(failure, False)
            LOG.warning("the store has not taken a write, trying again: %s", one_line(failure))
            time.sleep(min(pause, max(0.0, until - time.monotonic())))
            pause = min(pause * 2, LONGEST_PAUSE)

    def _resolve(self, failure: BaseException, until: float) -> "tuple[Optional[bool], BaseException]":
        """Returns whether the store has the last write, or None if that is unknown when patience ends, and the failure."""
        pause = FIRST_PAUSE
        while True:
            try:
                return self.store.resolve(self._number), failure
            except NotWritten as why:
                if why.is_final:
                    return None, why
                failure = why
            except BaseException as why:
                failure = why
            if time.monotonic() >= until:
                return None, failure
            time.sleep(min(pause, max(0.0, until - time.monotonic())))
            pause = min(pause * 2, LONGEST_PAUSE)


def _stopped(failure: BaseException, is_written: Optional[bool]) -> StoreStopped:
    unknown = "" if is_written is False else "; whether the store has the last updates is unknown"
    return StoreStopped(f"the bank has stopped{unknown}: {one_line(failure)}; reopen it from the store", is_written)


def one_line(failure: BaseException) -> str:
    """Returns the text of an exception in one line. Those of libpq have several."""
    return " ".join(str(failure).split())
