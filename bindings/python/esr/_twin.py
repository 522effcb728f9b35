"""A second engine, which replays the accepted events of the first on its own thread and audits there.

An engine is deterministic, so the second reaches the state of the first, and its findings are the same. The events are logged
under the bank's lock in the order in which the first engine accepted them, and an audit is one more entry of the log, so it is
made at the point of the history at which it was requested. Refused events are omitted, as they change no value, lock or charge.

The second engine is not trusted blindly: it has to give each reply that the first engine gave, and at an audit both have as many
transactions, as many active ones and the same total import. When something differs, an allocation fails, or an exception may
have kept an event from the log, the second engine is given up until the next renewal, and the bank audits under its lock. So it
does if the thread ends by an exception, and after a fork in the child, which does not have the thread.

The thread and the second engine start when the first report of the bank begins, so a bank without reports does not pay for them.
They need the history from its opening. So each history is logged from there, but without a thread only up to `MAX_LOGGED`
entries; a longer log is dropped. If the first report finds no log, the bank is renewed before the report begins, and the log
restarts with the new history. No report is active then that this renewal could make inexact. Once the thread runs, each history
is logged as a whole, and handed over in parts. If the thread cannot be started, or this renewal fails, nothing is logged until
the next renewal, and audits hold the lock: neither is tried twice in a history. A renewal that carries repeats operations; these
are the script of the new history, which the thread reads.
"""

import ctypes
import logging
import threading
from dataclasses import dataclass
from queue import Empty, SimpleQueue
from typing import Iterator, List, Optional, Sequence, Tuple, Union

from . import _library as c

LOG = logging.getLogger("esr")
PART = 4_096
"""The number of entries that are handed over at once."""
MAX_LOGGED = 16 * PART
"""A log without a thread is dropped when it has this number of entries. A history is not logged if a renewal has repeated more,
since the lock is held for their script."""

Audit = Tuple[int, int, Tuple[int, ...]]
"""The distance and the import of a report, and the updates before its nearest placement."""
State = Tuple[int, int, int, int]
"""The numbers of transactions and of active ones, and the total import in two halves."""


@dataclass(frozen=True)
class Opening:
    """The opening of a history: the values, and the script of the entries that the renewal has repeated."""

    values: "ctypes.Array[ctypes.c_int64]"
    script: bytes


@dataclass(frozen=True)
class Entries:
    """Accepted events and their replies, as the library has them in memory."""

    events: bytearray
    replies: bytearray


@dataclass(frozen=True)
class Question:
    """The request for the audit of a committed query."""

    query: int
    state: State
    answer: "SimpleQueue[Optional[Audit]]"
    """Gets the audit, or None if the second engine was given up."""


@dataclass(frozen=True)
class Ended:
    """The end of a history, or of its log."""


Part = Union[Opening, Entries, Question, Ended, None]
"""A part of the log. None ends the thread."""


class Feed:
    """The bank's end of the log. The bank's lock is held in each call."""

    def __init__(self, weights: Sequence[int], is_enabled: bool) -> None:
        self._weights = weights
        self.is_enabled = is_enabled
        """Whether audits are in the background at all."""
        self.is_on = False
        """Whether accepted events are to be logged."""
        self._is_dropped = False
        """Whether the log has become too long, while no report has begun."""
        self._is_fed = False
        """Whether the thread gets the log."""
        self._twin: Optional[Twin] = None
        self._opening: Optional[Opening] = None
        self._clear()

    def _clear(self) -> None:
        self._events, self._replies = bytearray(), bytearray()
        self._max_size = MAX_LOGGED * c.EVENT.size

    def open(self, values: "ctypes.Array[ctypes.c_int64]", script: bytes) -> None:
        """Begins the log of a history."""
        self.give_up()
        self.is_on = self.is_enabled
        self._opening = Opening(values, script)
        if self._twin is not None and self._twin.is_running():
            self._start()
        else:
            self._twin = None

    def give_up(self) -> None:
        """Ends the log until the next renewal. Audits hold the lock until then."""
        if self._is_fed and self._twin is not None:
            self._twin.put(Ended())
        self._clear()
        self.is_on = self._is_dropped = self._is_fed = False

    def close(self) -> "Optional[Twin]":
        """Ends the log, and returns the thread that is to be ended."""
        self.give_up()
        self.is_enabled = False
        twin, self._twin = self._twin, None
        return twin

    def push(self, events: bytes, replies: "Union[bytes, ctypes.Array[ctypes.c_char], c.Reply]") -> None:
        """Logs accepted events."""
        self._events += events
        self._replies += replies
        if len(self._events) >= self._max_size:
            if self._is_fed:
                self._hand_over()
            else:
                self.give_up()
                self._is_dropped = True

    def begin_report(self) -> bool:
        """Prepares for a report that begins: starts the thread, if it does not run. Returns whether the bank is to be renewed
        first, because the log of this history was dropped."""
        if self._is_fed or not (self.is_on or self._is_dropped):
            return False
        was_dropped, self._is_dropped = self._is_dropped, False
        try:
            self._twin = Twin(self._weights)
        except (RuntimeError, MemoryError):
            LOG.warning("no thread for background audits: audits hold the lock of the bank until the next renewal")
            self.give_up()
            return False
        if self.is_on:
            self._start()
        return was_dropped

    def _start(self) -> None:
        """Hands over the opening and the log so far."""
        assert self._twin is not None and self._opening is not None
        self._is_fed, self._max_size = True, PART * c.EVENT.size
        self._twin.put(self._opening)
        self._hand_over()

    def _hand_over(self) -> None:
        """Hands over the log since the last time, or ends it if the thread has ended."""
        assert self._twin is not None
        if not self._twin.is_running():
            self.give_up()
        elif self._events:
            self._twin.put(Entries(self._events, self._replies))
            self._events, self._replies = bytearray(), bytearray()

    def ask(self, engine: c.Engine, query: int) -> "Optional[SimpleQueue[Optional[Audit]]]":
        """Requests the audit of a committed query of the first engine, at this point of the log. Returns None if there is no
        second engine."""
        if self._is_fed:
            self._hand_over()
        if not self._is_fed or self._twin is None:
            return None
        return self._twin.ask(query, state_of(engine))


class Twin:
    """The thread of the second engine."""

    def __init__(self, weights: Sequence[int]) -> None:
        self._auditor = Auditor(weights)
        self._thread = threading.Thread(target=self._auditor.run, name="esr audits", daemon=True)
        self._thread.start()

    def is_running(self) -> bool:
        """Returns whether the thread runs. After a fork it does not run in the child."""
        return self._thread.is_alive() and not self._auditor.is_closed

    def put(self, part: Part) -> None:
        """Adds a part."""
        self._auditor.parts.put(part)

    def ask(self, query: int, state: State) -> "Optional[SimpleQueue[Optional[Audit]]]":
        """Requests an audit. Returns None if the thread has ended."""
        answer: "SimpleQueue[Optional[Audit]]" = SimpleQueue()
        self.put(Question(query, state, answer))
        # a thread that ends answers what it finds in the queue after it has said so
        return None if self._auditor.is_closed else answer

    def end(self, waits: bool) -> None:
        """Ends the thread after the part that it works on."""
        self._auditor.is_ending = True
        self.put(None)
        if waits:
            self._thread.join()


class Auditor:
    """The second engine, on its thread. It does not refer to the bank, which may be discarded."""

    def __init__(self, weights: Sequence[int]) -> None:
        self.parts: "SimpleQueue[Part]" = SimpleQueue()
        self.is_ending = self.is_closed = False
        self._weights = (ctypes.c_uint32 * max(1, len(weights)))(*weights)
        self._count = len(weights)
        self._engine = c.Engine()
        self._is_open = False

    def run(self) -> None:
        """Takes parts until the end, or until an exception."""
        try:
            while not self.is_ending:
                part = self.parts.get()
                if part is not None:
                    self._take(part)
                del part  # it may be large
        except Exception:
            LOG.exception("the thread of background audits has failed")
        finally:
            self.is_closed = True
            self._close()
            self._disconnect()

    def _disconnect(self) -> None:
        """Refuses the questions that are left."""
        while True:
            try:
                part = self.parts.get_nowait()
            except Empty:
                return
            if isinstance(part, Question):
                part.answer.put(None)

    def _take(self, part: Union[Opening, Entries, Question, Ended]) -> None:
        if isinstance(part, Question):
            audit = None
            try:
                audit = self._audit(part.query, part.state)
            finally:
                part.answer.put(audit)
        elif isinstance(part, Entries):
            if self._is_open and not self._replay(part.events, part.replies):
                self._give_up()
        else:
            self._close()
            if isinstance(part, Opening):
                self._reopen(part)

    def _close(self) -> None:
        if self._is_open:
            c.library.esr_close(self._engine)
            self._is_open = False

    def _give_up(self) -> None:
        LOG.error("the second engine differs or has failed: audits hold the lock of the bank until the next renewal")
        self._close()

    def _reopen(self, opening: Opening) -> None:
        values = opening.values
        status = c.library.esr_open_weighted(self._engine, values, self._count, self._weights, self._count)
        self._is_open = status == c.DONE
        entries = list(entries_of(opening.script.decode(), list(values)))
        events, replies = (bytearray().join(kind) for kind in (zip(*entries) if entries else ((), ())))
        if self._is_open and not self._replay(events, replies):
            self._give_up()

    def _replay(self, events: bytearray, replies: bytearray) -> bool:
        """Replays events, and returns whether the replies are those of the first engine. The reply to an event after a refusal
        or an error remains 0."""
        count = len(events) // c.EVENT.size
        given = (ctypes.c_char * len(events)).from_buffer(events)
        mine = ctypes.create_string_buffer(len(replies))
        c.library.esr_replay(self._engine, given, count, mine, count, True, ctypes.c_size_t())
        # padding may differ
        return mine.raw == replies or all(map(tuple.__eq__, c.REPLY.iter_unpack(mine.raw), c.REPLY.iter_unpack(replies)))

    def _audit(self, query: int, state: State) -> Optional[Audit]:
        """Returns the audit of a query of the first engine, which has this state."""
        if self._is_open and state_of(self._engine) != state:
            self._give_up()
        if not self._is_open:
            return None
        status, audit = audited(self._engine, query)
        return audit if status == c.DONE else None


def state_of(engine: c.Engine) -> State:
    """Returns numbers that both engines have in common."""
    counts, totals = c.Counts(), c.Totals()
    c.library.esr_counts_of(engine, counts)
    c.library.esr_totals_of(engine, totals)
    return counts.transactions, counts.active, totals.high, totals.low


def audited(engine: c.Engine, query: int) -> Tuple[int, Audit]:
    """Audits a committed query, and returns the status too. The buffer is large enough for every update, so the audit is made
    once."""
    counts, found = c.Counts(), c.Finding()
    c.library.esr_counts_of(engine, counts)
    capacity = max(1, counts.transactions)
    before = (ctypes.c_uint32 * capacity)()
    status = c.library.esr_audit(engine, query, before, capacity, found)
    return status, (found.distance, found.imported, tuple(before[: found.count]))


def entries_of(script: str, values: List[int]) -> Iterator[Tuple[bytes, bytes]]:
    """Returns the entries of a script with the names that the library makes, each accepted. No transaction ends in it, so a
    read returns the last value that was written to the item, or its opening value."""
    current = values[:]
    begun = 0
    for line in script.splitlines():
        kind, *words = line.split()
        if kind == "begin":
            begun += 1
            update = words[1] == "update"
            number = c.BEGIN_UPDATE if update else c.BEGIN_STRICT_QUERY if words[-1] == "strict" else c.BEGIN_QUERY
            yield c.EVENT.pack(number, 0, 0, int(words[2]), 0), c.REPLY.pack(c.BEGUN, 0, begun, 0)
        elif kind != "item":
            txn, item = int(words[0][1:]), int(words[1][1:])
            if kind == "write":
                current[item] = int(words[2])
                yield c.EVENT.pack(c.WRITE, txn, item, 0, current[item]), c.REPLY.pack(c.WROTE, 0, 0, 0)
            else:
                yield c.EVENT.pack(c.READ, txn, item, 0, 0), c.REPLY.pack(c.VALUE, 0, 0, current[item])
