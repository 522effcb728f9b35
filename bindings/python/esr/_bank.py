"""A bank: an engine with named items that threads share.

Each call takes the bank's lock once, so other threads proceed between the calls of a transaction. A blocked event is retried
after a pause for as long as the transaction's patience lasts; the youngest transaction of a deadlock is given up at once. When
the history is nearly full, the next begin renews the engine and carries the active transactions over: each has another number
then, and the rest of its limit. The part of its charges that is settled in earlier histories is kept in its handle.

A renewal that carries searches the whole history for the operations of active transactions, and all threads wait meanwhile.
So a history with a carried transaction is short, which divides the same time among more renewals. A renewal without active
transactions does not search, and the engine keeps its memory.

Once a bank has had a report, a second engine replays the accepted events and audits on its own thread (`_twin`), so an audit
holds the lock for microseconds. The calls that execute events log them.

With a store, the engine is ahead of the store by the updates in a queue. Every call that returns something of them waits
until the store has them; `bank[name]` and `snapshot` return the store's values without waiting.
"""

import csv
import ctypes
import io
import logging
import mmap
import re
import struct
import threading
import time
import types
from collections import Counter
from dataclasses import dataclass
from types import TracebackType
from typing import Callable, Dict, ItemsView, Iterator, List, Mapping, Optional, Tuple, Type, TypeVar, ValuesView

from . import _checks as checks
from . import _library as c
from ._errors import (
    REASONS,
    BankClosed,
    Blocked,
    Deadlock,
    EsrError,
    HistoryFull,
    Misuse,
    OutOfRange,
    Refused,
    RenewalFailed,
    StoreStopped,
    StoreUnfit,
    UnknownItem,
    WrongType,
)
from ._metrics import Active, Counters, Metrics
from ._store import Store, StoreQueue, Ticket
from ._transactions import ACTIVE, ENDED, Draft, Finding, Query, Transaction, Update
from ._twin import MAX_LOGGED, Feed
from ._waiting import SHARE, Lock, WaitGraph, Waiting

__all__ = ["Bank", "Counts", "Finding", "Query", "Update"]

LOG = logging.getLogger("esr")
WROTE = bytes(c.Reply(c.WROTE))
MAX_ENTRIES, MAX_TRANSACTIONS = 1_000_000, 65_535
"""The size of a history."""
NEARLY_FULL = 100_000
"""If no more entries are left, the engine is renewed before a transaction begins, so that active ones can continue."""
SHORT = 100_000
"""A history into which a transaction was carried is renewed at this number of entries plus twice those at its opening: a renewal
that carries takes a time for each entry, in which all threads wait."""
RESERVE = 1_000
"""With `before_renewal` the engine is renewed when no more transactions are left, so they are there if it fails."""
RETRY = 1.0
"""Seconds until a `before_renewal` that failed is called again, as long as the history has capacity."""
MAX_RERUNS = 64
"""How often a function that was overtaken runs again, within `SHARE` seconds, before its update is run step by step."""
T = TypeVar("T")


@dataclass(frozen=True)
class Counts:
    """The size of a history, and the capacity that is left besides the ends of active transactions."""

    entries: int
    """Events that were answered, including refusals."""
    transactions: int
    """Transactions that have begun."""
    active: int
    """Transactions that have not ended."""
    entries_left: int
    """Events that may follow."""
    transactions_left: int
    """Transactions that may begin."""


class Bank(Mapping[str, int]):
    """Items with names and integer values, and transactions over them. A bank is a mapping of the names to the committed
    values. The difference of an item's values is multiplied by its weight, 1 to 1,000, which is 1 by default.

    A name is any text. Scripts and explanations contain names of a letter and up to 15 letters, digits or underscores, and
    call another item `i` and its number.

    `patience` is how many seconds a transaction waits for others in total, before it is `Blocked`.

    `optimistic` is whether `transact` runs a function before the engine sees its update, on the committed values of one
    moment, and then gives the engine all events at once. If other updates have changed what it read, the function runs again.

    `before_renewal` is called with the bank before a history is discarded: `due()` returns the reports that were not audited
    yet; an active one is not due. It may not begin a transaction. If it raises an exception, the bank continues in the old history as long as that has
    capacity, and calls it again later.

    `background_audits` is whether reports are audited on a thread of the bank, by a second engine that replays the same events.
    Then only the report's caller waits for an audit; otherwise an audit holds the lock for about half a microsecond for each
    transaction of the history. The thread starts when the first report begins. A bank without reports only logs the first 65,536
    events of each history. If the history has more events when the first report begins, the bank is renewed before that; active
    transactions continue.

    `store` keeps the committed values on disk: see `SQLiteStore` and `PostgreSQLStore`. Its values replace the opening values
    of `items`, and items that it does not have are added. If it fails for `store_patience` seconds, the bank stops.

    >>> def audit(bank):
    ...     print([report.finding for report in bank.due()])
    >>> bank = Bank({"phones": 15, "money": 0}, weights={"phones": 900}, patience=5, before_renewal=audit)
    >>> bank["phones"], "phones" in bank, list(bank)
    (15, True, ['phones', 'money'])
    """

    def __init__(
        self,
        items: Mapping[str, int] = {},
        *,
        weights: Mapping[str, int] = {},
        patience: float = 10.0,
        optimistic: bool = True,
        background_audits: bool = True,
        before_renewal: Optional[Callable[["Bank"], None]] = None,
        store: Optional[Store] = None,
        store_patience: float = 10.0,
    ) -> None:
        opening, counted = _checked(items, weights)
        if before_renewal is not None and not callable(before_renewal):
            raise WrongType(f"before_renewal is {before_renewal!r}, and must be a function of the bank")
        if store is not None and not isinstance(store, Store):
            raise WrongType(f"store is {store!r}, and must have the calls of `esr.Store`")
        self._patience = checks.seconds("patience", patience)
        store_seconds = checks.seconds("store_patience", store_patience)
        self._optimistic = bool(optimistic)
        self._before_renewal = before_renewal
        self._lock = Lock()
        self._ended = threading.Condition(self._lock.inner)
        self._is_closed = self._is_renewing = False
        self._engine = c.Engine()
        self._queue: Optional[StoreQueue] = None
        if store is None:
            self._open(opening, counted, background_audits)
            return
        stored = store.open(opening)
        try:
            values = _merged(opening, stored)
            self._open(values, counted, background_audits)
        except BaseException:
            store.close()
            raise
        self._queue = StoreQueue(store, store_seconds, dict(values))

    def _open(self, opening: Dict[str, int], weights: Mapping[str, int], background_audits: bool) -> None:
        """Opens the engine, and the log of its history."""
        self._numbers = {name: number for number, name in enumerate(opening)}
        self._mirror: Dict[Optional[str], Tuple[int, int]] = {name: (0, value) for name, value in opening.items()}
        """The committed value of each item with the number of the commit that wrote it, and at None the last number. Each
        commit changes it by one `dict.update`, which no other thread interrupts."""
        self._mirror[None] = (0, 0)
        self._names = "\n".join(checks.script_names(opening)).encode()
        self._waits = WaitGraph()
        self._active: Dict[int, Transaction] = {}
        self._txn_names: Dict[int, str] = {}
        self._bodies = 0
        self.renewals = 0
        """The number of renewals of the history."""
        self.renewal_failure: Optional[BaseException] = None
        """The exception of the last `before_renewal`, or None if it has succeeded."""
        self._retry_at = 0.0
        self._repeated = c.Counts()
        """The size of this history when it was opened: the entries of the transactions that were carried into it."""
        self._carried = 0
        """How many of the active transactions were carried into this history."""
        self._begun = 0
        """How many transactions had begun in this history when `_make_room` returned: the number of the last one."""
        self._due: List[Query] = []
        self._counters = Counters()
        if not weights.keys() <= opening.keys():
            raise UnknownItem(min(weights.keys() - opening.keys()))
        count = len(opening)
        if count > checks.MAX_ITEMS:
            raise OutOfRange(f"the number of items is {count}, and must be 0 to {checks.MAX_ITEMS:,}")
        values = (ctypes.c_int64 * max(count, 1))(*opening.values())
        counted = (ctypes.c_uint32 * max(count, 1))(*(weights.get(name, 1) for name in opening))
        self._check(c.library.esr_open_weighted(self._engine, values, count, counted, count))
        self._feed = Feed(counted[:count], bool(background_audits))
        self._feed.open(values, b"")

    def close(self) -> None:
        """Closes the bank. Each later call raises `BankClosed`, those of active transactions too. A store is closed once it has
        all updates that have committed.

        >>> with Bank({"checking": 500}) as bank:
        ...     pass
        >>> bank
        <Bank of 1 items, closed>
        """
        with self._lock:
            if self._is_renewing:
                raise Misuse("before_renewal may not close the bank")
            if not self._is_closed:
                self._is_closed = True
                self._active.clear()
                c.library.esr_close(self._engine)
                self._ended.notify_all()
            twin = self._feed.close()
        if twin is not None:
            twin.end(waits=True)
        if self._queue is not None:
            self._queue.close()

    def __enter__(self) -> "Bank":
        return self

    def __exit__(self, kind: Optional[Type[BaseException]], error: object, trace: Optional[TracebackType]) -> None:
        self.close()

    def __del__(self) -> None:
        if getattr(self, "_queue", None) is not None:
            assert self._queue is not None
            self._queue.close(waits=False)
        twin = self._feed.close() if hasattr(self, "_feed") else None
        if twin is not None:
            twin.end(waits=False)
        if hasattr(self, "_engine") and not self._is_closed:
            c.library.esr_close(self._engine)

    def __repr__(self) -> str:
        if self._is_closed:
            state = "closed"
        elif self._queue is not None and self._queue.stopped is not None:
            state = "stopped"
        else:
            state = f"{len(self._active)} active, {self.renewals} renewals"
        return f"<Bank of {len(self._numbers)} items, {state}>"

    # The mapping

    def __getitem__(self, name: str) -> int:
        """Returns the committed value of an item.

        >>> Bank({"checking": 500})["checking"]
        500
        """
        self._number_of(name)
        self._require_running()
        return self._mirror[name][1] if self._queue is None else self._queue.values[name]

    def __iter__(self) -> Iterator[str]:
        return iter(self._numbers)

    def __len__(self) -> int:
        return len(self._numbers)

    def __bool__(self) -> bool:
        return True

    def __contains__(self, name: object) -> bool:
        return isinstance(name, str) and name in self._numbers

    def __eq__(self, other: object) -> bool:
        return self is other

    def __hash__(self) -> int:
        return id(self)

    def items(self) -> ItemsView[str, int]:
        """Returns the items of a `snapshot`."""
        return self.snapshot().items()

    def values(self) -> ValuesView[int]:
        """Returns the values of a `snapshot`: `sum(bank.values())` is the exact total of one moment.

        >>> sum(Bank({"checking": 500, "savings": 1500}).values())
        2000
        """
        return self.snapshot().values()

    def snapshot(self) -> Dict[str, int]:
        """Returns the committed values of all items at one moment: exact, without a limit, and without waiting for an update.
        It does not contain uncommitted writes. A `report` reads them, and its finding has the error that this causes.

        >>> Bank({"checking": 500, "savings": 1500}).snapshot()
        {'checking': 500, 'savings': 1500}
        """
        if self._queue is not None:
            self._require_running()
            return self._queue.snapshot()
        values, count = (ctypes.c_int64 * max(1, len(self._numbers)))(), ctypes.c_size_t()
        with self._lock:
            self._check(c.library.esr_values(self._engine, values, len(values), count))
        # Iterating over the ctypes array itself takes several times as long.
        return dict(zip(self._numbers, memoryview(values).cast("B").cast("q")))

    # Transactions

    def update(self, limit: int, *, name: Optional[str] = None) -> Update:
        """Returns an update that may export up to `limit`, for a `with` statement: it commits at the end, and an exception
        aborts it. Its `name` appears in `active`, `ledger`, `script` and in errors.

        >>> bank = Bank({"checking": 500})
        >>> with bank.update(200) as update:
        ...     update.add("checking", -100)
        400
        """
        return Update(self, limit, name)

    def report(self, limit: int, *, strict: bool = False, name: Optional[str] = None) -> Query:
        """Returns a query that may import up to `limit`, for a `with` statement: it commits at the end, and then has a
        `finding`. The audit of a strict one places it after all updates that had committed when it began.

        >>> bank = Bank({"checking": 500})
        >>> with bank.report(200, strict=True) as report:
        ...     report.read("checking")
        500
        >>> report.finding.distance
        0
        """
        return Query(self, limit, strict, name)

    def transact(self, limit: int, body: Callable[[Update], T], *, name: Optional[str] = None) -> T:
        """Runs `body` in an update and returns its result. It runs again in another update if the first was overtaken, or was
        given up because of a deadlock or a long wait. The last exception is raised when patience ends. An exception of `body`
        aborts the update and is raised.

        A transaction that needs an item which an active transaction of the same thread has locked waits in vain: pass that
        transaction on instead of beginning another one.

        >>> bank = Bank({"checking": 500})
        >>> bank.transact(200, lambda update: update.add("checking", -100))
        400
        """
        checks.limit(limit)
        checks.optional_text("name", name)
        if not callable(body):
            raise WrongType(f"body is {body!r}, and must be a function of an update")
        checks.no_event_loop()
        waiting = Waiting(self._patience, SHARE)
        try:
            result = self._run_whole(limit, body, name, waiting) if self._optimistic else None
            return self._run_stepwise(limit, body, name, waiting) if result is None else result[0]
        except BaseException:
            with self._lock:
                self._counters.aborts += 1
            raise

    def _run_whole(
        self, limit: int, body: Callable[[Update], T], name: Optional[str], waiting: Waiting
    ) -> Optional[Tuple[T]]:
        """Returns the result of an optimistic update, or None if it has to be run step by step."""
        draft = Draft(self, limit, name, waiting)
        until = time.monotonic() + SHARE
        try:
            for _ in range(MAX_RERUNS):
                draft._restart()
                try:
                    result = _called(body, draft)
                except BaseException as why:
                    if not (draft._overtaken and isinstance(why, Exception)):
                        self._wait_for_store()
                        raise
                else:
                    given, ticket = (False, None) if draft._overtaken else draft._give()
                    if given:
                        self._wait_for_store(ticket)
                        return (result,)
                    if given is None:
                        break
                with self._lock:
                    self._counters.reruns += 1
                if time.monotonic() >= until:
                    return None
            with self._lock:
                self._counters.reruns += 1
            return None
        finally:
            draft._state = ENDED

    def _run_stepwise(self, limit: int, body: Callable[[Update], T], name: Optional[str], waiting: Waiting) -> T:
        age = None
        while True:
            update = Update(self, limit, name, waiting, age)
            try:
                with update:
                    age = update._age
                    return _called(body, update)
            except (Blocked, Deadlock, HistoryFull) as why:
                if why is not update._given_up:  # that of another transaction, which the function began
                    raise
                if isinstance(why, Deadlock):
                    self._wait_for_end(why.other, update._renewals, waiting)
                elif isinstance(why, HistoryFull):
                    waiting.left -= waiting.share
                else:
                    waiting.pause_for_attempt()
                if waiting.left <= 0:
                    raise
                with self._lock:
                    self._counters.reruns += 1

    def _wait_for_end(self, txn: int, renewals: int, waiting: Waiting) -> None:
        """Waits until a transaction has ended, as long as patience lasts."""
        count = 0
        while waiting.left > 0:
            with self._lock:
                if txn not in self._active or self.renewals != renewals:
                    return
            waiting.pause(count)
            count += 1

    # What operators ask for

    def metrics(self) -> Metrics:
        """Returns the counters since the bank was opened. A renewal does not reset them.

        >>> bank = Bank({"checking": 500})
        >>> value = bank.transact(200, lambda update: update.add("checking", -100))
        >>> bank.metrics().updates, bank.metrics().active
        (1, 0)
        """
        with self._lock:
            ages = [time.monotonic() - transaction._begun_at for transaction in self._active.values()]
            writes, updates = (0, 0) if self._queue is None else (self._queue.writes, self._queue.updates)
            return self._counters.metrics(len(ages), max(ages, default=0.0), writes, updates)

    def active(self) -> List[Active]:
        """Returns the transactions that have not ended, the oldest first.

        >>> bank = Bank({"checking": 500})
        >>> with bank.update(200, name="transfer"):
        ...     [(one.number, one.name, one.limit, one.charged) for one in bank.active()]
        [(1, 'transfer', 200, 0)]
        """
        with self._lock:
            now, found = time.monotonic(), []
            for number, one in self._active.items():
                item = one._item if one._waits_for is not None else None
                charged = one._settled + self._account(number).charged
                age = now - one._begun_at
                found.append(Active(number, one.name, one._kind, age, one._limit, charged, one._waits_for, item))
            return found

    def script(self) -> str:
        """Returns the history since the last renewal as a script of `esr run`: each entry that was accepted or blocked.

        Items have their names, or `i` and their number if a name is not a letter and up to 15 letters, digits or underscores.
        Transactions are `t1`, `t2`, or have their name if it is such a one and no other transaction has it.

        >>> print(Bank({"checking": 500}).script(), end="")
        item checking 500
        """
        with self._lock:
            self._require_running()
            text = self._text(c.library.esr_history_script, self._names, len(self._names)).decode()
            uses = Counter(self._txn_names.values())
            names = {f"t{number}": name for number, name in self._txn_names.items() if uses[name] == 1 and _may_name(name)}
        self._wait_for_store()
        if not names:
            return text
        return re.sub(
            r"^(begin|read|write|commit|abort) (t\d+)\b",
            lambda found: f"{found[1]} {names.get(found[2], found[2])}",
            text,
            flags=re.MULTILINE,
        )

    def ledger(self) -> str:
        """Returns the ledger of the history since the last renewal as CSV. After a line with the names of the fields it has a
        line for each transaction: its limit, its charges, how it ended, and the distance of a committed report. Transactions
        are `t1`, `t2`, or have their name.

        >>> bank = Bank({"checking": 500})
        >>> with bank.update(200) as update:
        ...     update.write("checking", 400)
        >>> print(bank.ledger().splitlines()[1])
        1,t1,update,200,0,200,0,1,0,0,0,committed,,2,4
        """
        with self._lock:
            self._require_running()
            text = self._text(c.library.esr_ledger).decode()
            names = {str(number): name for number, name in self._txn_names.items()}
        self._wait_for_store()
        if not names:
            return text
        out = io.StringIO()
        writer = csv.writer(out, lineterminator="\n")
        for row in csv.reader(io.StringIO(text)):
            writer.writerow([row[0], names.get(row[0], row[1]), *row[2:]])
        return out.getvalue()

    def due(self) -> List[Query]:
        """Returns the reports of this history that have committed and were not audited.

        >>> bank = Bank({"checking": 500})
        >>> with bank.report(0) as report:
        ...     report.read("checking")
        500
        >>> [report.finding.distance for report in bank.due()], bank.due()
        ([0], [])
        """
        with self._lock:
            self._require_running()
            return list(self._due)

    @property
    def imported(self) -> int:
        """The total that all reports of this history have imported.

        >>> Bank({"checking": 500}).imported
        0
        """
        totals = c.Totals()
        with self._lock:
            self._require_running()
            self._check(c.library.esr_totals_of(self._engine, totals))
        return int(totals.high) << 64 | int(totals.low)

    @property
    def counts(self) -> Counts:
        """The size of the history since the last renewal, and the capacity that is left.

        >>> Bank({"checking": 500}).counts
        Counts(entries=0, transactions=0, active=0, entries_left=1000000, transactions_left=65535)
        """
        with self._lock:
            self._require_running()
            counts = self._counts()
        return Counts(counts.entries, counts.transactions, counts.active, counts.entries_left, counts.transactions_left)

    # The engine. Except for _number_of, _require_running and _wait_for_store the lock is held.

    def _number_of(self, name: str) -> int:
        try:
            return self._numbers[name]
        except KeyError:
            raise UnknownItem(name) from None
        except TypeError:
            raise WrongType(f"the name of an item is {name!r}, and must be a string") from None

    def _require_running(self) -> None:
        """Raises an exception if the bank was closed, or has stopped because of its store."""
        if self._is_closed:
            raise BankClosed("the bank is closed")
        if self._queue is not None:
            self._queue.require_running()

    def _wait_for_store(self, ticket: Optional[Ticket] = None) -> None:
        """Waits until the store has an update, or all updates that have committed so far."""
        if self._queue is None:
            return
        if ticket is None:
            self._queue.wait_for_all()
        else:
            self._queue.wait(ticket)

    def _publish(self, wrote: Mapping[str, int]) -> Optional[Ticket]:
        """Shows the writes of a commit, and returns their place in the queue of the store."""
        if not wrote:
            return None
        # A function that reads a value from the mirror without the lock waits for the store only if the write is queued.
        ticket = None if self._queue is None else self._queue.enter(dict(wrote))
        now = self._mirror[None][0] + 1
        shown: Dict[Optional[str], Tuple[int, int]] = {name: (now, value) for name, value in wrote.items()}
        shown[None] = (now, 0)
        self._mirror.update(shown)
        return ticket

    def _text(self, call: Callable[..., int], *arguments: object) -> bytes:
        """Returns the text that a call writes. The buffer is large enough for nearly every text of the history, so that it is
        made once; pages that are not written cost nothing. A longer text is made twice."""
        history, count = self._counts(), ctypes.c_size_t()
        capacity = 2**18 + 128 * history.entries + 256 * history.transactions
        while True:
            pages = mmap.mmap(-1, capacity)
            text = (ctypes.c_uint8 * capacity).from_buffer(pages)
            status = call(self._engine, *arguments, text, capacity, count)
            del text
            if status != c.TOO_SMALL:
                self._check(status)
                return pages[: count.value]
            capacity = count.value

    def _counts(self) -> c.Counts:
        counts = c.Counts()
        self._check(c.library.esr_counts_of(self._engine, counts))
        return counts

    def _account(self, txn: int) -> c.Account:
        account = c.Account()
        self._check(c.library.esr_account_of(self._engine, txn, account))
        return account

    @staticmethod
    def _check(status: int) -> None:
        if status == c.DONE:
            return
        if status == c.FULL:
            raise HistoryFull("the history has no capacity left")
        if status == c.NO_MEMORY:
            raise MemoryError
        if status == c.IS_CLOSED:
            raise BankClosed("the bank is closed")
        raise EsrError(f"status {status}")

    # Each of these executes an event, and logs it for the second engine if it is accepted.

    def _read(self, txn: int, item: int) -> c.Reply:
        reply = c.Reply()
        self._check(c.library.esr_read(self._engine, txn, item, reply))
        if self._feed.is_on and reply.kind != c.REFUSED:
            self._feed.push(c.STEP(c.READ, txn, item, 0), reply)
        return reply

    def _read_for_update(self, txn: int, item: int, is_locked: bool) -> c.Reply:
        reply = c.Reply()
        self._check(c.library.esr_read_for_update(self._engine, txn, item, reply))
        if self._feed.is_on and reply.kind != c.REFUSED:
            read = c.STEP(c.READ, txn, item, 0)
            if is_locked:
                self._feed.push(read, reply)
            else:
                # the engine has taken the lock by a write of the current value
                self._feed.push(c.STEP(c.WRITE, txn, item, reply.value) + read, WROTE + reply)
        return reply

    def _write(self, txn: int, item: int, value: int) -> c.Reply:
        reply = c.Reply()
        self._check(c.library.esr_write(self._engine, txn, item, value, reply))
        if self._feed.is_on and reply.kind != c.REFUSED:
            self._feed.push(c.STEP(c.WRITE, txn, item, value), reply)
        return reply

    def _end(self, call: Callable[..., int], kind: int, txn: int) -> None:
        reply = c.Reply()
        self._check(call(self._engine, txn, reply))
        if self._feed.is_on and reply.kind != c.REFUSED:
            self._feed.push(c.STEP(kind, txn, 0, 0), reply)

    def _abort(self, txn: int) -> None:
        self._end(c.library.esr_abort, c.ABORT, txn)

    def _execute(self, events: List[int]) -> Tuple[int, ...]:
        """Executes events up to the first that is refused, logs them, and returns the replies: five numbers for each event, four
        for each reply. It keeps the interpreter's lock, since creating objects for them takes longer than the call."""
        count, answered = len(events) // 5, ctypes.c_size_t()
        replies = ctypes.create_string_buffer(c.REPLY.size * count)
        given = struct.pack("@" + "IIIQq" * count, *events)
        self._check(c.library.esr_do_packed(self._engine, given, count, replies, count, True, answered))
        found = struct.unpack_from("@" + "IIIq" * answered.value, replies)
        if self._feed.is_on:
            accepted = answered.value - (found[-4] == c.REFUSED)
            if accepted == count:
                self._feed.push(given, replies)
            else:
                self._feed.push(given[: accepted * c.EVENT.size], replies.raw[: accepted * c.REPLY.size])
        return found

    def _begin_txn(self, kind: int, limit: int) -> int:
        """Begins a transaction in the engine, and returns its number."""
        reply = c.Reply()
        if kind == c.BEGIN_UPDATE:
            self._check(c.library.esr_begin_update(self._engine, limit, reply))
        else:
            self._check(c.library.esr_begin_query(self._engine, limit, kind == c.BEGIN_STRICT_QUERY, reply))
        if reply.kind == c.REFUSED:
            raise OutOfRange(REASONS[reply.refusal])
        if self._feed.is_on:
            self._feed.push(c.EVENT.pack(kind, 0, 0, limit, 0), reply)
        return reply.txn

    def _begin(self, transaction: Transaction, kind: int) -> None:
        with self._lock:
            self._make_room(transaction)
            number = transaction.number = self._begin_txn(kind, transaction._limit)
            transaction._renewals = self.renewals
            transaction._state, transaction._begun_at = ACTIVE, time.monotonic()
            self._active[number] = transaction
            self._note_name(transaction)
            if transaction._age is None:
                self._bodies += 1
                transaction._age = self._bodies

    def _note_name(self, transaction: Transaction) -> None:
        if transaction.name is not None:
            self._txn_names[transaction.number] = transaction.name

    def _finish(self, transaction: Transaction, error: Optional[BaseException]) -> None:
        """Commits a transaction, or aborts it because of an exception, and waits until the store has all that it saw."""
        ticket = None
        with self._lock:
            if self._is_closed:
                transaction._state = ENDED
                if error is None:
                    raise BankClosed(f"the bank was closed before {transaction._shown()} ended, which has not committed")
                return
            commits = error is None and (self._queue is None or self._queue.stopped is None)
            transaction._state = ENDED
            self._waits.forget(transaction.number)
            self._active.pop(transaction.number, None)
            self._carried -= transaction._carried > 0
            self._ended.notify_all()
            self._counters.aborts += not commits and not transaction._is_retried
            if not commits:
                self._abort(transaction.number)
            elif isinstance(transaction, Update):
                ticket = self._commit(transaction.number, transaction._wrote)
                self._counters.updates += 1
            else:
                self._commit(transaction.number, {})
                self._note_report(transaction)
        if self._queue is not None and (error is None or error is not transaction._given_up):
            try:
                self._wait_for_store(ticket)
            except StoreStopped as why:
                raise why from None

    def _commit(self, txn: int, wrote: Mapping[str, int]) -> Optional[Ticket]:
        """Commits in the engine, shows the writes, and returns their place in the queue of the store.

        An interrupt may arrive after the engine's commit. Then the writes are shown all the same, since later updates read
        them. A commit for which the allocation fails has changed nothing, and is aborted, since an active transaction keeps its
        locks.
        """
        try:
            self._end(c.library.esr_commit, c.COMMIT, txn)
            return self._publish(wrote)
        except BaseException:
            self._feed.give_up()
            if self._account(txn).status == c.COMMITTED:
                self._publish(wrote)
            else:
                self._abort(txn)
            raise

    def _note_report(self, report: Transaction) -> None:
        assert isinstance(report, Query)
        self._counters.reports += 1
        report._has_committed = True
        self._due.append(report)

    # Blocked events

    def _step(self, transaction: Transaction, events: Callable[[], c.Reply]) -> c.Reply:
        """Gives the engine events under one lock up to the first that is refused, and again after a pause if that may pass.

        An exception because of which the transaction has to be given up is noted in the transaction.
        """
        waiting, count, waited = transaction._waiting, 0, 0.0
        try:
            while True:
                with self._lock:
                    transaction._require_active()
                    if self._waits.given_up:
                        self._raise_deadlock(transaction)
                    try:
                        reply = events()
                    except HistoryFull:
                        self._feed.give_up()  # some of the events may have been executed
                        if not self._renew_for_event():
                            raise
                        continue
                    except EsrError:  # an argument is invalid
                        raise
                    except BaseException:
                        self._feed.give_up()
                        raise
                    if reply.kind != c.REFUSED:
                        return reply
                    blocked = self._blocked(transaction, reply)
                if waiting.left <= 0 or waited >= waiting.share:
                    raise blocked
                waited += waiting.pause(count)
                count += 1
        except (Blocked, Deadlock, HistoryFull) as why:
            transaction._given_up = why
            raise
        finally:
            if transaction._waits_for is not None:
                with self._lock:
                    transaction._waits_for = None
                    self._waits.end(transaction.number)
                    self._counters.waits += 1
                    self._counters.waited += waited

    def _raise_deadlock(self, transaction: Transaction) -> None:
        other = self._waits.given_up.get(transaction.number)
        if other is not None:
            self._counters.deadlocks += 1
            error = Deadlock(transaction.number, other, transaction.name, self._txn_names.get(other))
            LOG.debug("%s", error)
            raise error

    def _blocked(self, transaction: Transaction, reply: c.Reply) -> Blocked:
        """Notes that a transaction waits, and returns the exception for the end of its patience. Raises `Refused` if the
        refusal cannot pass."""
        number, other = int(reply.refusal), int(reply.txn)
        if number < c.FIRST_THAT_MAY_PASS:
            raise Refused(number, REASONS[number], other, transaction._item, self._txn_names.get(other))
        transaction._waits_for = other
        if other != transaction.number:
            self._waits.begin(transaction.number, transaction._age or 0, other)
        return Blocked(number, REASONS[number], other, transaction._item, self._txn_names.get(other))

    # Renewals

    def _make_room(self, transaction: Transaction) -> None:
        """Renews a history that is nearly full, or before the first report one whose log was dropped. If its entries are those of
        active transactions, the bank continues in it while it has capacity, and then waits until one of them ends."""
        self._require_running()
        if self._is_renewing:
            raise Misuse("before_renewal may not begin a transaction: it is called because the history is full")
        waiting, is_report = transaction._waiting, isinstance(transaction, Query)
        while True:
            is_for_audits = is_report and self._feed.begin_report()
            if not is_for_audits and not self._is_nearly_full():
                return
            is_early = self.renewal_failure and time.monotonic() < self._retry_at
            is_worth_renewing = is_for_audits or self._is_worth_renewing()
            if (is_early or not is_worth_renewing) and self._has_capacity():
                return
            if is_worth_renewing:
                if self._renew():
                    continue
                return
            if waiting.left <= 0:
                transaction._given_up = HistoryFull("the history has no capacity until an active transaction has ended")
                raise transaction._given_up
            begun = time.monotonic()
            self._ended.wait(min(waiting.left, threading.TIMEOUT_MAX))
            waiting.left -= time.monotonic() - begun
            self._require_running()

    def _is_nearly_full(self) -> bool:
        counts = self._counts()
        self._begun = counts.transactions
        reserve = RESERVE if self._before_renewal else 0
        if counts.transactions_left <= reserve or counts.entries_left <= NEARLY_FULL:
            return True
        return self._carried > 0 and counts.entries >= 2 * self._repeated.entries + SHORT

    def _is_worth_renewing(self) -> bool:
        """Returns whether this history has grown since it was opened. Otherwise it has entries of active transactions only,
        which a renewal repeats."""
        counts = self._counts()
        reserve = RESERVE if self._before_renewal else 0
        entries, numbers = (MAX_ENTRIES - NEARLY_FULL) // 32, (MAX_TRANSACTIONS - reserve) // 8
        return counts.entries - self._repeated.entries >= max(entries, 1) or (
            counts.transactions - self._repeated.transactions >= numbers
        )

    def _renew_for_event(self) -> bool:
        """Renews the history for an event of an active transaction. Returns whether it has capacity then."""
        return not self._is_renewing and self._is_worth_renewing() and self._renew()

    def _has_capacity(self) -> bool:
        counts = self._counts()
        return counts.transactions_left > 0 and counts.entries_left > NEARLY_FULL // 2

    def _renew(self) -> bool:
        """Returns whether the engine was renewed: False if `before_renewal` failed while the history has capacity."""
        self._wait_for_store()
        begun = time.monotonic()
        if self._before_renewal is not None:
            self._is_renewing = True
            try:
                self._before_renewal(self)
            except Exception as why:
                self._note_failure(why)
                if not self._has_capacity():
                    raise RenewalFailed(f"the history is full, and before_renewal failed: {why}") from why
                return False
            finally:
                self._is_renewing = False
        self._renew_engine()
        self._open_log()
        self._due.clear()
        self.renewals += 1
        self.renewal_failure = None
        took = time.monotonic() - begun
        self._counters.count_renewal(took)
        self._ended.notify_all()
        LOG.info("renewed the history in %.3f s", took)
        return True

    def _renew_engine(self) -> None:
        """Renews the engine, in place if no transaction is active. Otherwise it carries the active ones over, and gives them the
        numbers that they have in the new history."""
        active, carried = self._counts().active, []
        if active:
            room, count = (c.Carried * active)(), ctypes.c_size_t()
            self._check(c.library.esr_renew_carrying(self._engine, room, active, count))
            carried = room[: count.value]
        else:
            self._check(c.library.esr_renew(self._engine))
        self._repeated = self._counts()
        numbers = {one.old: one.new for one in carried}
        for one in carried:
            self._active[one.old]._carry(one.new, one.settled, numbers)
        self._active = {one.number: one for one in self._active.values()}
        self._carried = len(self._active)
        self._txn_names = {numbers[old]: name for old, name in self._txn_names.items() if old in numbers}
        self._waits.renumber(numbers)
        reports = sum(isinstance(one, Query) for one in self._active.values())
        self._counters.carried_reports += reports
        self._counters.carried += len(numbers) - reports

    def _open_log(self) -> None:
        """Begins the log of this history, with the entries that the renewal has repeated."""
        if not self._feed.is_enabled or self._repeated.entries > MAX_LOGGED:
            return self._feed.give_up()
        try:
            values, count = (ctypes.c_int64 * max(1, len(self._numbers)))(), ctypes.c_size_t()
            self._check(c.library.esr_values(self._engine, values, len(values), count))
            script = self._text(c.library.esr_history_script, b"", 0) if self._repeated.entries else b""
            self._feed.open(values, script)
        except (MemoryError, OSError):
            self._feed.give_up()

    def _note_failure(self, why: Exception) -> None:
        self.renewal_failure = why
        self._retry_at = time.monotonic() + RETRY
        self._counters.renewals_put_off += 1
        LOG.warning("before_renewal failed, and the renewal is put off: %r", why)


def _checked(items: Mapping[str, int], weights: Mapping[str, int]) -> Tuple[Dict[str, int], Dict[str, int]]:
    """Returns the opening values and weights, checked."""
    try:
        given, counted = dict(items), dict(weights)
    except (TypeError, ValueError):
        raise WrongType("items and weights must be mappings of names to integers") from None
    opening = {
        checks.text("the name of an item", name): checks.integer_in(
            f"the opening value of {name!r}", value, -checks.MAX_VALUE, checks.MAX_VALUE
        )
        for name, value in given.items()
    }
    return opening, {
        checks.text("the name of an item", name): checks.integer_in(f"the weight of {name!r}", weight, 1, checks.MAX_WEIGHT)
        for name, weight in counted.items()
    }


def _merged(opening: Mapping[str, int], stored: Mapping[str, int]) -> Dict[str, int]:
    """Returns the values of a store: the given items first, then the others that it has."""
    for name, value in stored.items():
        if not isinstance(value, int) or not -checks.MAX_VALUE <= value <= checks.MAX_VALUE:
            raise StoreUnfit(f"item {name!r} of the store has the value {value!r}, and must have -10^12 to 10^12")
    differing = sum(stored[name] != value for name, value in opening.items())
    others = len(stored) - len(opening)
    if differing or others:
        LOG.info("the store replaces %d opening values, and has %d more items", differing, others)
    return {name: stored[name] for name in [*opening, *(name for name in stored if name not in opening)]}


def _called(body: Callable[[Update], T], update: Update) -> T:
    """Calls a function. The result of a coroutine function would be discarded together with its writes."""
    result = body(update)
    if isinstance(result, types.CoroutineType):
        result.close()
        raise Misuse("the function of an update is a coroutine function; use threads, not coroutines")
    return result


def _may_name(name: str) -> bool:
    """Returns whether a script may have the name for a transaction without confusing it with another one's number."""
    return checks.is_script_name(name) and not re.fullmatch(r"t\d+", name)
