"""Lines of the output plugin `test_decoding`, read as commits, and the snapshots that see them.

The invariant: a commit has the changes of its watched tables in the order of execution, under the full number of the
top-level transaction. Changes of subtransactions that were rolled back are not in the log.

Rejected: the plugin `pgoutput`, whose binary messages need a publication in the database.
"""

from __future__ import annotations

import datetime
import re
from dataclasses import dataclass, field
from decimal import Decimal, InvalidOperation
from typing import Iterator, NamedTuple, Optional

from .tables import RecordingError, Table

ROUNDS = 2**32
PREFIX = "esr-postgres"
# In a change: a column's name, and after its type in brackets (which may contain brackets) its value.
NAME = re.compile(r'\s*(?:"((?:[^"]|"")*)"|([^\s"\[]+))\[')
VALUE = re.compile(r"B?'((?:[^']|'')*)'|(\S+)")


class Snapshot(NamedTuple):
    """A snapshot of PostgreSQL: the transactions below `xmin`, and those below `xmax` that are not in `running`, have
    ended before it."""

    xmin: int
    xmax: int
    running: frozenset[int]

    @staticmethod
    def parse(text: str) -> Snapshot:
        """Reads `xmin:xmax:xip,..`.

        # Errors
        ValueError if it is something else."""
        xmin, xmax, running = text.split(":")
        return Snapshot(int(xmin), int(xmax), frozenset(map(int, filter(None, running.split(",")))))

    def sees(self, xid: int) -> bool:
        return xid < self.xmin or (xid < self.xmax and xid not in self.running)


class Change(NamedTuple):
    """A write: the item, and its value afterwards, None if the row was deleted. The item EVERY_ROW is each row of the
    table (TRUNCATE)."""

    table: Table
    item: str
    value: Optional[int]
    is_insert: bool = False


EVERY_ROW = ""


@dataclass
class Commit:
    """A transaction of the log that changed a watched table. `time` is in microseconds. `faults` are its rows that cannot
    be recorded. `replaced` has for a table that it gave a new file (empty for older snapshots) the command that did so."""

    xid: int
    time: int = 0
    changes: list[Change] = field(default_factory=list)
    faults: list[str] = field(default_factory=list)
    replaced: dict[str, str] = field(default_factory=dict)


# ---- lines of test_decoding


def _columns(text: str) -> Iterator[tuple[str, Optional[str]]]:
    """Yields the names and values of `name[type]:value ..`."""
    place = 0
    while found := NAME.match(text, place):
        name = found[1].replace('""', '"') if found[1] is not None else found[2]
        place, depth = found.end(), 1
        while depth:
            depth += {"[": 1, "]": -1}.get(text[place], 0)
            place += 1
        value = VALUE.match(text, place + 1)  # (after the colon)
        if value is None:
            return
        place = value.end()
        if value[1] is not None:
            yield name, value[1].replace("''", "'")
        else:
            yield name, None if value[2] == "null" else value[2]


class Decoder:
    """Turns lines of `test_decoding` into commits. `names` are the watched tables by their names in these lines, and
    `near` is a full transaction number near to all that follow."""

    def __init__(self, names: dict[str, Table], near: int) -> None:
        self._names, self._near = names, near
        self._commit: Optional[Commit] = None
        self.markers: set[str] = set()

    def feed(self, line: str) -> Optional[Commit]:
        """Takes a line. Returns a commit at its last line, if it changed a watched table."""
        word, _, rest = line.partition(" ")
        if word == "BEGIN":
            difference = (int(rest) - self._near + ROUNDS // 2) % ROUNDS - ROUNDS // 2
            self._near += difference
            self._commit = Commit(self._near)
        elif word == "COMMIT" and self._commit is not None:
            commit, self._commit = self._commit, None
            commit.time = _microseconds(line[line.index("(at ") + 4 : -1])
            if commit.changes or commit.faults:
                return commit
        elif word == "table" and self._commit is not None:
            self._change(rest)
        elif word == "message:" and f"prefix: {PREFIX}," in line:
            self.markers.add(line.partition("content:")[2])
        return None

    def _change(self, text: str) -> None:
        assert self._commit is not None
        name, _, rest = text.partition(": ")
        if name not in self._names and ", " not in name:
            return
        word, _, row = rest.partition(": ")
        if word == "TRUNCATE":
            self._truncate([each for each in name.split(", ") if each in self._names])
            return
        table = self._names.get(name)
        if table is None:
            return
        old, new = None, row
        if row.startswith("old-key: "):
            old, _, new = row[len("old-key: ") :].partition(" new-tuple: ")
        try:
            if word == "DELETE":
                self._add(table, row, deleted=True)
            else:
                if old is not None:
                    self._add_moved(table, old, new)
                self._add(table, new, is_insert=word == "INSERT")
        except (RecordingError, InvalidOperation, KeyError) as error:
            self._commit.faults.append(str(error))

    def _truncate(self, names: list[str]) -> None:
        """Adds a TRUNCATE of some tables and partitions. (Which rows a single partition had is not in the log.)"""
        assert self._commit is not None
        for table in {self._names[name].name: self._names[name] for name in names}.values():
            self._commit.replaced[table.name] = "TRUNCATE"
            if {name for name, other in self._names.items() if other is table} <= set(names):
                self._commit.changes.append(Change(table, EVERY_ROW, None))
            else:
                self._commit.faults.append(f"{table.name}: some of its partitions were truncated")

    def _item(self, table: Table, columns: dict[str, Optional[str]]) -> str:
        if any(name not in columns for name in table.key):
            raise RecordingError(f"{table.name}: the log does not have the key of a row")
        return table.item([columns[name] for name in table.key])

    def _add(self, table: Table, text: str, deleted: bool = False, is_insert: bool = False) -> None:
        assert self._commit is not None
        columns = dict(_columns(text))
        item = self._item(table, columns)
        value = columns.get(table.value)
        whole = None if deleted else table.whole(item, None if value is None else Decimal(value))
        self._commit.changes.append(Change(table, item, whole, is_insert))

    def _add_moved(self, table: Table, old: str, new: str) -> None:
        """Adds the deletion of a row whose key changes."""
        assert self._commit is not None
        item = self._item(table, dict(_columns(old)))
        if item != self._item(table, dict(_columns(new))):
            self._commit.changes.append(Change(table, item, None))


def _microseconds(text: str) -> int:
    """Reads a time such as `2024-05-01 12:00:00.123456+00`."""
    found = re.fullmatch(r"(\d+)-(\d+)-(\d+) (\d+):(\d+):(\d+)(?:\.(\d+))?([+-]\d+)(?::(\d+))?(?::\d+)?", text)
    if found is None:
        raise RecordingError(f"the log has an unknown form of times: {text}")
    year, month, day, hour, minute, second = map(int, found.groups()[:6])
    offset = int(found[8]) * 3600 + int(found[9] or 0) * (60 if not found[8].startswith("-") else -60)
    days = (datetime.date(year, month, day) - datetime.date(1970, 1, 1)).days
    return ((days * 24 + hour) * 3600 + minute * 60 + second - offset) * 10**6 + int((found[7] or "0").ljust(6, "0"))
