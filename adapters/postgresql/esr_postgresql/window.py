"""Windows of a watch: reports checked against the rows of their snapshots, and the records of commits and reports.

The invariant: a `Report` has only rows, sums and counts that are those of its snapshots, to the unit. In a record, a read
has the version that the snapshot sees, and rows that no commit of the window wrote are left out, since they have one
version there.

A count reads which rows exist, and not their values: for each row that comes or goes in a window there is an item that is
1 while the row exists.
"""

from __future__ import annotations

import json
from decimal import Decimal, InvalidOperation
from typing import Any, Iterator, NamedTuple, Optional

from esr_history.record import Action, Item, Operation, Outcome, Record, Transaction

from .decoding import Snapshot
from .tables import RecordingError, Table
from .versions_at import Versions, View

MARGIN = 20  # commits around a report among which it may be placed
MAX_ITEMS, MAX_COMMITS, MAX_REPORTS = 900, 3_000, 300  # of a window
UNCHANGED, OPENING = "unchanged", "opening"


class Read(NamedTuple):
    """A statement: the commits that it sees, the rows that it read, and the tables of which it read or counted all
    rows."""

    view: View
    rows: frozenset[str]
    tables: frozenset[str]
    counted: frozenset[str]


class Report(NamedTuple):
    """A report whose results agree with its snapshots."""

    name: str
    level: str
    began: int
    ended: int
    reads: tuple[Read, ...]

    @property
    def first(self) -> int:
        return min(read.view.first for read in self.reads)

    @property
    def last(self) -> int:
        return max(read.view.last for read in self.reads)


# ---- lines of reports


def load_line(text: str) -> dict[str, Any]:
    """Reads a line of a file of reports.

    # Errors
    RecordingError if it is not one."""
    try:
        content = json.loads(text)
        name, statements = content["report"], content["statements"]
        is_good = isinstance(name, str) and isinstance(statements, list) and all("snapshot" in each for each in statements)
        is_good = is_good and isinstance(content["began"], int) and isinstance(content["ended"], int)
    except (ValueError, KeyError, TypeError):
        is_good = False
    if not is_good:
        raise RecordingError(f"not a line of a file of reports: {text.strip()[:200]}")
    found: dict[str, Any] = content
    return found


# ---- what a report read


def _number(table: Table, item: str, value: Any) -> int:
    try:
        return table.whole(item, Decimal(str(value)))
    except InvalidOperation:
        raise RecordingError(f"{item}: {value!r} is not a number") from None


def _read(content: dict[str, Any], versions: Versions, ended: int) -> Read:
    """Checks the result of a statement, of a report that ended at a time.

    # Errors
    RecordingError if it is not that of its snapshot."""
    if "fault" in content:
        raise RecordingError(content["fault"])
    try:
        view = versions.view(Snapshot.parse(content["snapshot"]))
    except ValueError:
        raise RecordingError(f"{content['snapshot']!r} is not a snapshot") from None
    rows, sums, counts = content.get("rows", []), content.get("sums", {}), content.get("counts", {})
    tables = {versions.table_of(item).name for item, _ in rows} | set(sums) | set(counts)
    for name in tables | set(content.get("tables", [])):
        if name not in versions.tables:
            raise RecordingError(f"{name} is not a watched table")
        fault = versions.faults(name, view)
        if fault:
            raise RecordingError(f"a row of its snapshot cannot be recorded: {fault}")
        _demand_its_file(content, name, versions, view, ended)
    _compare(content, versions, view)
    whole = {name for name in content.get("all", []) if name in versions.tables and _has_all(name, rows, versions, view)}
    return Read(view, frozenset(item for item, _ in rows), frozenset(sums) | whole, frozenset(counts))


def _compare(content: dict[str, Any], versions: Versions, view: View) -> None:
    """Compares the result of a statement with the rows of its snapshot.

    # Errors
    RecordingError if they differ."""
    for item, value in content.get("rows", []):
        found, got = versions.version(item, view)[0], _number(versions.table_of(item), item, value)
        if found != got:
            raise RecordingError(f"it read {got} of {item}, which is {found} at its snapshot")
    for name, value in content.get("sums", {}).items():
        total = versions.total(name, view)[0]
        if _number(versions.tables[name], name, value) != total:
            raise RecordingError(f"it got the sum {value} of {name}, which is {total} units at its snapshot")
    for name, value in content.get("counts", {}).items():
        count = versions.total(name, view)[1]
        if int(value) != count:
            raise RecordingError(f"it counted {value} rows of {name}, which has {count} at its snapshot")


def _count(name: str, rows: list[Any], versions: Versions) -> int:
    return sum(1 for item, _ in rows if versions.table_of(item).name == name)


def _has_all(name: str, rows: list[Any], versions: Versions, view: View) -> bool:
    """Returns whether a result has all rows of a table. (A join may leave out some.)"""
    return _count(name, rows, versions) == versions.total(name, view)[1]


def _demand_its_file(content: dict[str, Any], name: str, versions: Versions, view: View, ended: int) -> None:
    """Finds a statement that read a table after a TRUNCATE or a rewriting ALTER TABLE that its snapshot does not see.

    Neither is MVCC-safe in PostgreSQL: the table has a new file then, whose rows older snapshots do not see. A statement
    that read the old file kept a lock that made the command wait for the end of the report; so if the command committed
    before that end and the result lacks rows of the snapshot, the statement read the new file.

    # Errors
    RecordingError for such a statement."""
    commit = versions.replaced(name, view, ended)
    if commit is not None and _lacks_rows(content, name, versions, view):
        raise RecordingError(
            f"it read {name} without rows of its snapshot: x{commit.xid} replaced the table by {commit.replaced[name]} after"
            " that snapshot and before the read, and PostgreSQL does so without regard to older snapshots (its manual:"
            " Concurrency Control, Caveats)"
        )


def _lacks_rows(content: dict[str, Any], name: str, versions: Versions, view: View) -> bool:
    """Returns whether the result of a statement lacks rows that a table has at its snapshot."""
    total, count = versions.total(name, view)
    rows, sums, counts = content.get("rows", []), content.get("sums", {}), content.get("counts", {})
    if not count:
        return False
    if name in sums or name in counts:
        has_total = name not in sums or _number(versions.tables[name], name, sums[name]) == total
        return not has_total or int(counts.get(name, count)) != count
    if name in content.get("all", []):
        return not _has_all(name, rows, versions, view)
    return not _count(name, rows, versions)


def report_of(content: dict[str, Any], versions: Versions) -> Report:
    """Returns a report.

    # Errors
    RecordingError if it cannot be audited."""
    if content.get("writes"):
        raise RecordingError("it also wrote or locked rows")
    reads = tuple(_read(each, versions, content["ended"]) for each in content["statements"])
    if not reads:
        raise RecordingError("it has no statement with a snapshot")
    return Report(content["report"], str(content.get("level", "")), content["began"], content["ended"], reads)


# ---- windows


def windows_of(reports: list[Report], versions: Versions) -> Iterator[tuple[int, int, list[Report]]]:
    """Groups reports so that the commits around them write few items."""
    group: list[Report] = []
    first = last = 0
    for report in sorted(reports, key=lambda report: (report.first, report.last)):
        low, high = (min(first, report.first), max(last, report.last)) if group else (report.first, report.last)
        is_large = high - low > MAX_COMMITS or len(group) >= MAX_REPORTS
        if group and (is_large or sum(1 for _ in versions.written(low, high)) > MAX_ITEMS):
            yield first, last, group
            group, low, high = [], report.first, report.last
        group, first, last = group + [report], low, high
    if group:
        yield first, last, group


def _operations(report: Report, versions: Versions, items: dict[str, str], first: int) -> Iterator[Operation]:
    """Yields the reads of a report of the items of a window, whose tables are given."""

    def operation(item: str, value: Optional[int], place: Optional[int]) -> Operation:
        is_opening = place is None or place < first
        return Operation(Action.READ, item, value, OPENING if is_opening else str(versions.commits[place or 0].xid))

    for read in report.reads:
        for item, table in items.items():
            if item in read.rows or table in read.tables:
                yield operation(item, *versions.version(item, read.view))
            flips = versions.presences(item) if table in read.counted else []
            seen = [flip for flip in flips if read.view.sees(flip[0])]
            if any(place >= first for place, _ in flips):
                place, exists = seen[-1] if seen else (None, not flips[0][1])
                yield operation(_row(item), int(exists), place)


def _row(item: str) -> str:
    """Returns the item that is 1 while a row exists. A count reads these and no values."""
    return f"{item} exists"


def _add_counts(record: Record, first: int, last: int, versions: Versions, tables: set[str]) -> dict[int, list[Operation]]:
    """Adds the items of rows that come and go in a window. Returns the writes of its commits."""
    writes: dict[int, list[Operation]] = {}
    for item in versions.written(first, last):
        flips = versions.presences(item) if versions.table_of(item).name in tables else []
        if any(place >= first for place, _ in flips):
            before = [exists for place, exists in flips if place < first]
            opening = before[-1] if before else not flips[0][1]
            record.items[_row(item)] = Item(_row(item), int(opening), OPENING)
        for place, exists in flips:
            if first <= place < last:
                version = str(versions.commits[place].xid)
                writes.setdefault(place, []).append(Operation(Action.WRITE, _row(item), int(exists), version))
    return writes


def window_record(first: int, last: int, reports: list[Report], versions: Versions, system: str) -> Record:
    """Returns the record of some commits and the reports among them."""
    first, last = max(0, first - MARGIN), min(len(versions.commits), last + MARGIN)
    record = Record(system, has_update_reads=False)
    for item in versions.written(first, last):
        value, table = versions.value_at(item, first), versions.table_of(item)
        record.items[item] = Item(item, value, OPENING, table.weight, table.scale)
    items = {item: versions.table_of(item).name for item in record.items}
    counted = {table for report in reports for read in report.reads for table in read.counted}
    rows = _add_counts(record, first, last, versions, counted)
    time_of_last = 0
    for place in range(first, last):
        commit = versions.commits[place]
        time_of_last = max(time_of_last, commit.time)
        writes = [Operation(Action.WRITE, each.item, each.value, str(commit.xid)) for each in commit.changes]
        writes += rows.get(place, [])
        times = time_of_last, time_of_last
        if writes:  # (a TRUNCATE of an empty table writes no row)
            record.transactions.append(Transaction(f"x{commit.xid}", Outcome.COMMITTED, *times, tuple(writes)))
    for report in reports:
        operations = tuple(_operations(report, versions, items, first))
        if not operations:
            record.items.setdefault(UNCHANGED, Item(UNCHANGED, 0, OPENING))
            operations = (Operation(Action.READ, UNCHANGED, 0, OPENING),)
        times = report.began, max(report.began, report.ended)
        record.transactions.append(Transaction(report.name, Outcome.COMMITTED, *times, operations, report.level))
    return record
