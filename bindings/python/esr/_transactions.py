"""Updates and reports: the handles that a bank hands out.

A handle checks in each call, under the bank's lock, that its transaction is active, since the engine gives the number of an
ended transaction to another one after a renewal. An active transaction is carried over, and its handle gets the new number.
"""

import time
from dataclasses import dataclass, field
from types import TracebackType
from typing import TYPE_CHECKING, Callable, Dict, Iterable, List, Optional, Set, Tuple, Type

from . import _checks as checks
from . import _library as c
from ._errors import BankClosed, EsrError, HandleExpired, Misuse, Overtaken, ReportCarried
from ._twin import Audit, audited
from ._waiting import Waiting

if TYPE_CHECKING:
    from ._bank import Bank
    from ._store import Ticket

NEW, ACTIVE, ENDED = "not begun", "active", "ended"
SHOWN_UPDATES = 8
"""The maximum number of updates in the text of a finding."""


@dataclass(frozen=True, repr=False)
class Finding:
    """The result of a report's audit. A notebook shows it as a picture, as long as the report's history exists. Its text
    abbreviates a long `before`. That of a report that was carried over renewals has an upper bound as distance, and no picture.

    >>> from esr import Bank
    >>> bank = Bank({"checking": 500})
    >>> with bank.report(100) as report:
    ...     report.read("checking")
    500
    >>> report.finding
    Finding(distance=0, charged=0, before=())
    >>> print(report.finding.explain().splitlines()[0])
    read checking 500 nearest 500 off 0
    """

    distance: int
    """The distance of the report's reads from the nearest serial placement, or a bound of it: see `is_exact`."""
    charged: int
    """What the report was charged over all histories: at least the distance."""
    before: Tuple[int, ...]
    """The updates before that placement, in commit order. Empty if the distance is not exact."""
    _query: "Query" = field(compare=False)
    renewals: int = 0
    """How many renewals the report was carried over."""

    @property
    def is_exact(self) -> bool:
        """Whether the distance is exact. Otherwise it is an upper bound, because the history of the first reads is gone.

        >>> from esr import Bank
        >>> with Bank({"checking": 500}).report(100) as report:
        ...     report.read("checking")
        500
        >>> report.finding.is_exact
        True
        """
        return self.renewals == 0

    def __repr__(self) -> str:
        if not self.is_exact:
            return f"Finding(distance<={self.distance}, charged={self.charged}, renewals={self.renewals})"
        before = repr(self.before)
        if len(self.before) > SHOWN_UPDATES:
            first = ", ".join(map(str, self.before[: SHOWN_UPDATES - 2]))
            before = f"({first}, ..., {self.before[-1]}: {len(self.before)} updates)"
        return f"Finding(distance={self.distance}, charged={self.charged}, before={before})"

    def explain(self) -> str:
        """Returns the explanation of the report: see `Query.explain`."""
        return self._query.explain()

    def _repr_svg_(self) -> Optional[str]:
        return self._query._repr_svg_()


class Transaction:
    """The common part of updates and reports. A transaction ends with the `with` statement that began it."""

    _kind = "transaction"

    def __init__(
        self,
        bank: "Bank",
        limit: int,
        name: Optional[str] = None,
        waiting: Optional[Waiting] = None,
        age: Optional[int] = None,
    ) -> None:
        self._bank = bank
        self._limit = checks.limit(limit)
        self.name = checks.optional_text("name", name)
        """The name that its caller gave it, or None."""
        self.number = 0
        """Its number in the history, from 1, once it has begun."""
        self._waiting = waiting or Waiting(bank._patience)
        self._is_retried = waiting is not None
        self._age = age
        self._state = NEW
        self._renewals = 0
        """The renewals of the bank before the history that it belongs to."""
        self._carried = 0
        """How many renewals it was carried over."""
        self._settled = 0
        """The part of its limit and of its charges that is in earlier histories only."""
        self._begun_at = 0.0
        self._given_up: Optional[EsrError] = None
        self._item: Optional[str] = None
        """The item of the event that it is about to make."""
        self._waits_for: Optional[int] = None

    def __repr__(self) -> str:
        name = "" if self.name is None else f" {self.name!r}"
        number = f" {self.number}" if self.number else ""
        return f"<{type(self).__name__.lstrip('_')}{number}{name} of limit {self._limit}, {self._state}>"

    def _begin(self, kind: int) -> None:
        if self._state != NEW:
            raise Misuse(f"{self._shown()} began before; begin another {self._kind} instead")
        checks.no_event_loop()
        self._bank._begin(self, kind)

    def _carry(self, number: int, settled: int, numbers: Dict[int, int]) -> None:
        """Gives it its number in the next history of the bank. The lock is held."""
        self.number, self._renewals = number, self._bank.renewals + 1
        self._settled += settled
        self._carried += 1
        if self._waits_for is not None:
            self._waits_for = numbers.get(self._waits_for, self._waits_for)

    def _shown(self) -> str:
        return f"{self._kind} {self.number}" + ("" if self.name is None else f" {self.name!r}")

    def _require_history(self) -> None:
        """Raises an exception unless the transaction belongs to the bank's current history. The lock is held."""
        self._bank._require_running()
        if self._state == NEW:
            raise Misuse(f"a{'n' * (self._kind == 'update')} {self._kind} begins with its `with` statement")
        if self._renewals != self._bank.renewals:
            raise HandleExpired(f"the history of {self._shown()} was renewed; look at its finding in before_renewal")

    def _require_active(self) -> None:
        """Raises an exception unless the transaction is active. The lock is held."""
        queue = self._bank._queue
        if self._state is ACTIVE and not self._bank._is_closed and (queue is None or queue.stopped is None):
            return  # a renewal has carried it over
        self._require_history()
        if self._state != ACTIVE:
            raise HandleExpired(f"{self._shown()} has ended")

    def read(self, name: str) -> int:
        """Reads an item.

        >>> from esr import Bank
        >>> bank = Bank({"checking": 500})
        >>> with bank.report(0) as report:
        ...     report.read("checking")
        500
        """
        bank, item = self._bank, self._bank._number_of(name)
        self._item = name
        return bank._step(self, lambda: bank._read(self.number, item)).value

    def read_all(self, names: Iterable[str]) -> List[int]:
        """Reads items in one call. No other event comes between the reads, unless one is blocked and retried.

        >>> from esr import Bank
        >>> bank = Bank({"checking": 500, "savings": 1500})
        >>> with bank.report(0) as report:
        ...     report.read_all(["savings", "checking"])
        [1500, 500]
        """
        bank, all_names = self._bank, checks.names(names)
        values: List[int] = []
        items = [bank._number_of(name) for name in all_names]

        def rest() -> c.Reply:
            # a renewal may have changed its number since the last reply
            events: List[int] = []
            for item in items[len(values) :]:
                events += (c.READ, self.number, item, 0, 0)
            replies = bank._execute(events)
            values.extend(value for kind, value in zip(replies[::4], replies[3::4]) if kind != c.REFUSED)
            self._item = all_names[min(len(values), len(all_names) - 1)]
            return c.Reply(*replies[-4:])

        if items:
            bank._step(self, rest)
        else:
            with bank._lock:
                self._require_active()
        return values

    @property
    def charged(self) -> int:
        """What it has been charged so far: the reads of a report are off by at most that.

        >>> from esr import Bank
        >>> bank = Bank({"checking": 500})
        >>> with bank.report(100) as report:
        ...     report.read("checking"), report.charged
        (500, 0)
        """
        with self._bank._lock:
            self._require_history()
            return self._settled + self._bank._account(self.number).charged


class Update(Transaction):
    """An update: see `Bank.update`. Its `number` and `name` are those of its row in `Bank.ledger`.

    >>> from esr import Bank
    >>> bank = Bank({"checking": 500})
    >>> with bank.update(0) as update:
    ...     update.write("checking", update.read("checking") - 100)
    >>> update.number, bank["checking"]
    (1, 400)
    """

    _kind = "update"

    def __init__(
        self,
        bank: "Bank",
        limit: int,
        name: Optional[str] = None,
        waiting: Optional[Waiting] = None,
        age: Optional[int] = None,
    ) -> None:
        super().__init__(bank, limit, name, waiting, age)
        self._wrote: Dict[str, int] = {}
        self._locked: Set[int] = set()
        """The items that it has locked for writing."""

    def __enter__(self) -> "Update":
        self._begin(c.BEGIN_UPDATE)
        return self

    def __exit__(
        self, kind: Optional[Type[BaseException]], error: Optional[BaseException], trace: Optional[TracebackType]
    ) -> None:
        self._bank._finish(self, error)

    def write(self, name: str, value: int) -> None:
        """Writes an item.

        >>> from esr import Bank
        >>> bank = Bank({"checking": 500})
        >>> with bank.update(0) as update:
        ...     update.write("checking", 400)
        >>> bank["checking"]
        400
        """
        bank, item, number = self._bank, self._bank._number_of(name), checks.written(name, value)
        self._item = name
        bank._step(self, lambda: bank._write(self.number, item, number))
        self._wrote[name] = number
        self._locked.add(item)

    def add(self, name: str, more: int) -> int:
        """Adds to an item and returns its new value. It takes the write lock before it reads, so two updates that add to one
        item never deadlock.

        >>> from esr import Bank
        >>> bank = Bank({"checking": 500})
        >>> with bank.update(0) as update:
        ...     update.add("checking", -100)
        400
        """
        bank, item, delta = self._bank, self._bank._number_of(name), checks.change(name, more)
        self._item = name
        total = 0

        def read_and_write() -> c.Reply:
            nonlocal total
            reply = bank._read_for_update(self.number, item, item in self._locked)
            if reply.kind == c.REFUSED:
                return reply
            self._locked.add(item)
            total = checks.written(name, reply.value + delta)
            return bank._write(self.number, item, total)

        bank._step(self, read_and_write)
        self._wrote[name] = total
        return total


class Draft(Update):
    """An update whose function runs before the engine sees it. Its reads are of one moment, and its events are collected.

    They are the first read of each item that the function had not written before, and the last value that it wrote to each
    item. The engine's replies to the reads are compared with the values that the function saw.
    """

    def __init__(self, bank: "Bank", limit: int, name: Optional[str], waiting: Waiting) -> None:
        super().__init__(bank, limit, name, waiting)
        self._overtaken: Optional[Overtaken] = None
        self._seen: Dict[str, Tuple[int, int]]
        self._events: List[Tuple[int, str]]
        self._moment = 0

    def _restart(self) -> None:
        """Forgets the run before, and begins one on the values of this moment."""
        self._overtaken, self._seen, self._wrote, self._events = None, {}, {}, []
        self._moment = self._bank._mirror[None][0]
        self._state = ACTIVE

    def _is_stale(self) -> bool:
        mirror = self._bank._mirror
        return any(mirror[name] is not seen for name, seen in self._seen.items())

    def _require_current(self) -> None:
        if self._overtaken:
            raise self._overtaken
        if self._state is ACTIVE and not self._bank._is_closed:
            return
        if self._bank._is_closed:
            raise BankClosed("the bank is closed")
        raise HandleExpired(f"{self._shown() if self.number else 'the update'} has ended")

    def read(self, name: str) -> int:
        self._require_current()
        self._bank._number_of(name)
        if name in self._wrote:
            return self._wrote[name]
        if name in self._seen:
            return self._seen[name][1]
        mirror = self._bank._mirror
        while True:
            shown = mirror[name]
            if shown[0] <= self._moment:
                self._seen[name] = shown
                self._events.append((c.READ, name))
                return shown[1]
            # This value is later than the earlier reads. Move them to this moment if they are unchanged.
            now = mirror[None][0]
            if self._is_stale():
                self._overtaken = Overtaken("other updates have changed items that this update had read")
                raise self._overtaken
            self._moment = now

    def read_all(self, names: Iterable[str]) -> List[int]:
        self._require_current()
        return [self.read(name) for name in checks.names(names)]

    def write(self, name: str, value: int) -> None:
        self._require_current()
        self._bank._number_of(name)
        number = checks.written(name, value)
        if name not in self._wrote:
            self._events.append((c.WRITE, name))
        self._wrote[name] = number

    def add(self, name: str, more: int) -> int:
        total = checks.written(name, self.read(name) + checks.change(name, more))
        if name not in self._wrote:
            self._events.append((c.WRITE, name))
        self._wrote[name] = total
        return total

    @property
    def charged(self) -> int:
        """Returns 0: the engine charges the update when it is given."""
        self._require_current()
        return 0

    def _give(self) -> "Tuple[Optional[bool], Optional[Ticket]]":
        """Gives the engine the collected events as one update under one hold of the lock.

        Returns whether it committed: False if the function has to run again, None if the update is blocked and has to wait.
        A committed update of a bank with a store has a place in its queue.
        """
        bank = self._bank
        with bank._lock:
            bank._require_running()
            bank._make_room(self)
            if self._is_stale():
                return False, None
            # transactions are numbered in the order of their begins
            self.number, self._renewals = bank._begun + 1, bank.renewals
            outcome = self._give_events()
            bank._note_name(self)
            if not outcome:
                bank._abort(self.number)
                return outcome, None
            ticket = bank._commit(self.number, self._wrote)
            bank._counters.updates += 1
            bank._counters.whole += 1
            return True, ticket

    def _give_events(self) -> Optional[bool]:
        """Returns whether the replies are the values that the function saw, or None if an event is blocked."""
        numbers, wrote = self._bank._numbers, self._wrote
        events = [c.BEGIN_UPDATE, 0, 0, self._limit, 0]
        for kind, name in self._events:
            events += (kind, self.number, numbers[name], 0, wrote[name] if kind == c.WRITE else 0)
        try:
            replies = self._bank._execute(events)
        except BaseException:
            # some of the events may have been executed
            self._bank._feed.give_up()
            c.library.esr_abort(self._bank._engine, self.number, c.Reply())
            raise
        if replies[-4] == c.REFUSED:
            return None
        values = zip(self._events, replies[7::4])
        return all(kind == c.WRITE or value == self._seen[name][1] for (kind, name), value in values)


class Query(Transaction):
    """A report: see `Bank.report`. Its `number` and `name` are those of its row in `Bank.ledger`.

    >>> from esr import Bank
    >>> bank = Bank({"checking": 500})
    >>> with bank.report(100) as report:
    ...     report.read("checking")
    500
    >>> report.picture()[:4], report.bundle()[:1]
    ('<svg', b'{')
    """

    _kind = "report"

    def __init__(self, bank: "Bank", limit: int, strict: bool, name: Optional[str] = None) -> None:
        super().__init__(bank, limit, name)
        self._strict = bool(strict)
        self._has_committed = False
        self._audited: Optional[Finding] = None
        self._finding: Optional[Finding] = None
        """The finding once the store has each update that it places before the report."""

    def __enter__(self) -> "Query":
        self._begin(c.BEGIN_STRICT_QUERY if self._strict else c.BEGIN_QUERY)
        return self

    def __exit__(
        self, kind: Optional[Type[BaseException]], error: Optional[BaseException], trace: Optional[TracebackType]
    ) -> None:
        self._bank._finish(self, error)

    @property
    def finding(self) -> Finding:
        """Its audit, made when it is first asked for. That has to be before its history is renewed.

        >>> from esr import Bank
        >>> bank = Bank({"checking": 500})
        >>> with bank.report(100) as report:
        ...     report.read("checking")
        500
        >>> report.finding.charged
        0
        """
        bank = self._bank
        if self._finding is None:
            begun, answer = time.monotonic(), None
            with bank._lock:
                if self._audited is None:
                    self._require_history()
                    self._require_committed()
                    answer = None if self._carried or bank._is_renewing else bank._feed.ask(bank._engine, self.number)
                    if answer is None:
                        self._audit(None, begun)
            if answer is not None:
                audit = answer.get()
                with bank._lock:
                    if self._audited is None:
                        if audit is None:  # the second engine was given up
                            self._require_history()
                            bank._feed.give_up()
                        self._audit(audit, begun)
            bank._wait_for_store()
            self._finding = self._audited
        assert self._finding is not None
        return self._finding

    def _require_committed(self) -> None:
        if not self._has_committed:
            state = "has aborted" if self._state == ENDED else "is active until the end of its `with` statement"
            raise EsrError(f"{self._shown()} {state}; only a report that has committed is audited")

    def _audit(self, audit: Optional[Audit], begun: float) -> None:
        """Keeps its finding, by an audit of the second engine if there is one. The lock is held."""
        bank, is_background = self._bank, audit is not None
        if self._carried:
            bound = self._settled + bank._account(self.number).charged
            self._audited = Finding(bound, bound, (), self, self._carried)
        else:
            if audit is None:
                status, audit = audited(bank._engine, self.number)
                bank._check(status)
            self._audited = Finding(*audit, self)
        bank._counters.count_audit(self._audited.distance, time.monotonic() - begun, is_background)
        if self in bank._due:
            bank._due.remove(self)

    def bundle(self) -> bytes:
        """Returns its audit as JSON, which `esr check` verifies without this engine. Raises `ReportCarried` if the report was
        carried over a renewal.

        >>> import json
        >>> from esr import Bank
        >>> with Bank({"checking": 500}).report(0) as report:
        ...     report.read("checking")
        500
        >>> json.loads(report.bundle())["certificate"]["worth"]
        0
        """
        self._check_exact()
        return self._audit_text(c.library.esr_bundle)

    def _check_exact(self) -> None:
        """Raises `ReportCarried` if the report was carried: its audit in the last history is of repeated reads."""
        if self._carried:
            bound = "it has a bound, and neither certificate nor picture"
            raise ReportCarried(f"{self._shown()} was carried over {self._carried} renewals: {bound}")

    def explain(self) -> str:
        """Returns the text of `esr explain`: each read with the value at the nearest serial placement, each charge with the
        update that caused it, and the sums. Transactions are `t1`, `t2`, also those with a name.

        >>> from esr import Bank
        >>> with Bank({"checking": 500}).report(0) as report:
        ...     report.read("checking")
        500
        >>> print(report.explain().splitlines()[-1])
        distance 0 import 0
        """
        text = self._audit_text(c.library.esr_explain, self._bank._names, len(self._bank._names)).decode()
        if not self._carried:
            return text
        return f"{self._bound()}\nin the last history, with earlier reads at the values of its opening:\n{text}"

    def _bound(self) -> str:
        found = self.finding
        return f"distance at most {found.distance} import {found.charged} renewals {found.renewals}"

    def picture(self) -> str:
        """Returns its audit as a picture, as `esr picture` draws it: one SVG. Transactions are `t1`, `t2`. Raises
        `ReportCarried` if the report was carried over a renewal.

        >>> from esr import Bank
        >>> with Bank({"checking": 500}).report(0) as report:
        ...     report.read("checking")
        500
        >>> report.picture().splitlines()[-1]
        '</svg>'
        """
        self._check_exact()
        return self._audit_text(c.library.esr_picture, self._bank._names, len(self._bank._names)).decode()

    def _repr_svg_(self) -> Optional[str]:
        """Returns the picture for a notebook, or None if the report has not committed, was carried, or its history is gone."""
        try:
            return self.picture()
        except EsrError:
            return None

    def _audit_text(self, call: Callable[..., int], *arguments: object) -> bytes:
        bank = self._bank
        with bank._lock:
            self._require_history()
            self._require_committed()
            text = bank._text(call, self.number, *arguments)
        bank._wait_for_store()
        return text
