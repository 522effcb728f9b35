"""The rows of watched tables at any snapshot, from the opening rows and the commits of the log since.

The idea: a snapshot sees some of the commits. It sees of each row the last version, in the order of the log, by a commit
that it sees: a writer of a row commits before the next one can write it, so this holds whatever the order of the others.

The invariant: `commits` are the commits since the base, in the order of the log; `values` are the rows at the base, and
`totals[i]` has for each table the sum and the number of its rows after the first i commits.

`trim` moves the base forward. A snapshot that does not see a commit before the base is refused.
"""

from __future__ import annotations

from collections import deque
from typing import Iterator, NamedTuple, Optional, Sequence

from .decoding import EVERY_ROW, Change, Commit, Snapshot
from .tables import RecordingError, Rows, Table

MAX_BEFORE = 10_000

Totals = dict[str, tuple[int, int]]


class View(NamedTuple):
    """The commits that a snapshot sees: those below `first`, and those below `last` that are not `hidden`."""

    first: int
    last: int
    hidden: frozenset[int]

    def sees(self, place: int) -> bool:
        return place < self.first or (place < self.last and place not in self.hidden)


class Versions:
    """The rows of watched tables, and their versions since the base."""

    def __init__(self, tables: Sequence[Table], opening: Rows, snapshot: Snapshot) -> None:
        self.tables = {table.name: table for table in tables}
        self.values: dict[str, Optional[int]] = {item: value for item, (_, value, _) in opening.items()}
        self.now = dict(self.values)
        totals = {name: (0, 0) for name in self.tables}
        self.items: dict[str, set[str]] = {name: set() for name in self.tables}
        for item, (table, value, _) in opening.items():
            total, count = totals[table.name]
            totals[table.name] = total + value, count + 1
            self.items[table.name].add(item)
        self.opening = snapshot
        self.before: deque[int] = deque(maxlen=MAX_BEFORE)  # (the last commits before the base)
        self.commits: list[Commit] = []
        self.totals: list[Totals] = [totals]
        self.chains: dict[str, list[tuple[int, Optional[int]]]] = {}

    def table_of(self, item: str) -> Table:
        for name, table in self.tables.items():
            if item.startswith(f"{name}/"):
                return table
        raise RecordingError(f"{item} is not a row of a watched table")

    def add(self, commit: Commit) -> None:
        """Takes the next commit of the log."""
        totals = dict(self.totals[-1])
        changes = []
        for change in self._single(commit.changes):
            table, item, value, is_insert = change
            old, (total, count) = self.now.get(item), totals[table.name]
            if is_insert and old is not None:
                # (only a form of ALTER TABLE that rewrites the table inserts rows that exist)
                commit.replaced.setdefault(table.name, "ALTER TABLE")
            totals[table.name] = (
                total + (value or 0) - (old or 0),
                count + (value is not None) - (old is not None),
            )
            self.now[item] = value
            self.items[table.name].add(item)
            self.chains.setdefault(item, []).append((len(self.commits), value))
            changes.append(change)
        commit.changes = changes
        self.commits.append(commit)
        self.totals.append(totals)

    def _single(self, changes: Sequence[Change]) -> Iterator[Change]:
        """Yields changes of one row each: for a TRUNCATE, one for each row that exists at that point."""
        for change in changes:
            if change.item != EVERY_ROW:
                yield change
                continue
            for item in sorted(self.items[change.table.name]):
                if self.now.get(item) is not None:
                    yield Change(change.table, item, None)

    def view(self, snapshot: Snapshot) -> View:
        """Returns the commits that a snapshot sees.

        # Errors
        RecordingError if it does not see the whole base."""
        opening = self.opening
        older = [xid for xid in snapshot.running if xid < opening.xmax and xid not in opening.running]
        if snapshot.xmax < opening.xmax or older or not all(map(snapshot.sees, self.before)):
            raise RecordingError("its snapshot is older than the watch, or than two windows")
        hidden = [place for place, commit in enumerate(self.commits) if not snapshot.sees(commit.xid)]
        last = len(self.commits)
        unseen = frozenset(hidden)
        while last and last - 1 in unseen:
            last -= 1
        return View(min(hidden[0], last) if hidden else last, last, unseen)

    def version(self, item: str, view: View) -> tuple[Optional[int], Optional[int]]:
        """Returns the value of an item and the place of its writer, None for the base."""
        for place, value in reversed(self.chains.get(item, [])):
            if view.sees(place):
                return value, place
        return self.values.get(item), None

    def presences(self, item: str) -> list[tuple[int, bool]]:
        """Returns the places of the commits that inserted or deleted a row, and whether it existed afterwards."""
        found: list[tuple[int, bool]] = []
        for place, value in self.chains.get(item, []):
            if found and found[-1][0] == place:
                found.pop()
            found.append((place, value is not None))
        flips, exists = [], self.values.get(item) is not None
        for place, after in found:
            if after != exists:
                flips.append((place, after))
                exists = after
        return flips

    def total(self, table: str, view: View) -> tuple[int, int]:
        """Returns the sum and the number of the rows of a table."""
        total, count = self.totals[view.first][table]
        for place in range(view.first, view.last):
            if place not in view.hidden:
                (before, rows), (after, more) = self.totals[place][table], self.totals[place + 1][table]
                total, count = total + after - before, count + more - rows
        return total, count

    def value_at(self, item: str, place: int) -> Optional[int]:
        """Returns the value of an item after the first commits."""
        return self.version(item, View(place, place, frozenset()))[0]

    def written(self, first: int, last: int) -> Iterator[str]:
        """Yields the items that some commits wrote, each once."""
        seen = set()
        for commit in self.commits[first:last]:
            for change in commit.changes:
                if change.item not in seen:
                    seen.add(change.item)
                    yield change.item

    def faults(self, table: str, view: View) -> Optional[str]:
        """Returns why the rows of a table cannot be known at a snapshot."""
        for place, commit in enumerate(self.commits[: view.last]):
            if place not in view.hidden:
                for fault in commit.faults:
                    if fault.startswith(f"{table}/") or fault.startswith(f"{table}:"):
                        return fault
        return None

    def replaced(self, table: str, view: View, until: int) -> Optional[Commit]:
        """Returns the first commit until a time that moved a table to a new file and that a view does not see."""
        for place, commit in enumerate(self.commits):
            if table in commit.replaced and commit.time <= until and not view.sees(place):
                return commit
        return None

    def trim(self, place: int) -> None:
        """Moves the base past the first commits. Faults stay."""
        if place <= 0:
            return
        for item, chain in list(self.chains.items()):
            for number, value in chain:
                if number < place:
                    self.values[item] = value
            rest = [(number - place, value) for number, value in chain if number >= place]
            if rest:
                self.chains[item] = rest
            else:
                del self.chains[item]
        self.before.extend(commit.xid for commit in self.commits[:place])
        faults = [fault for commit in self.commits[:place] for fault in commit.faults]
        self.commits, self.totals = self.commits[place:], self.totals[place:]
        if faults:
            first = Commit(0, 0, faults=faults)
            self.commits.insert(0, first)
            self.totals.insert(0, self.totals[0])
            self.chains = {
                item: [(number + 1, value) for number, value in chain] for item, chain in self.chains.items()
            }
