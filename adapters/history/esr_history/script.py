"""Scripts of `esr` from a history: the updates one after another, and the reports in their slots among them.

The invariant: the program accepts every line. No update waits for another, since each commits before the next begins. No
report reads an uncommitted value, since it reads in slots, when no update is active; so its reads are charged nothing. A
write is charged to the reports that have read the item and have not committed. All charges of a script together are
computed here, and are at most the limit that each transaction has, so that no sum of some of them exceeds it. `windows` and
`placement` keep the limits of items, transactions, reads and entries.

The reply to each line follows from the record; `program` compares it with the program's.
"""

from __future__ import annotations

from bisect import bisect_left
from dataclasses import dataclass, field
from itertools import accumulate
from typing import Iterator, Optional

from .names import Names
from .order import History
from .placement import PlacedRead, PlacedReport, Positions, placed_reports
from .record import Action, Transaction
from .versions import Chain
from .windows import Window, items_used, restricted, sample_of_items, windows_of

LIMIT = 10**18


class TooLarge(Exception):
    """A history that no script can contain."""


@dataclass
class Script:
    """A script, the reply to each of its lines, and the originals of its names."""

    window: Window
    lines: list[str] = field(default_factory=list)
    answers: list[str] = field(default_factory=list)
    items: Names = field(default_factory=lambda: Names("i"))
    transactions: Names = field(default_factory=lambda: Names("t"))
    opening: dict[str, int] = field(default_factory=dict)  # (the number of each item's version before the window)
    updates: int = 0

    def text(self) -> str:
        return "".join(f"{line}\n" for line in self.lines)

    def say(self, line: str, answer: str) -> None:
        self.lines.append(line)
        self.answers.append(answer)


# ---- charges


class _Charges:
    """The changes of each item by its writes, up to each slot."""

    def __init__(self, positions: Positions) -> None:
        self.positions: dict[str, list[int]] = {}
        self.sums: dict[str, list[int]] = {}
        for item, chain in positions.history.chains.items():
            self.positions[item] = [positions.of[writer] for writer in chain.writers]
            self.sums[item] = list(accumulate(_changes(positions.history, item, chain), initial=0))

    def between(self, item: str, first: int, last: int) -> int:
        """Returns the sum of the changes by the updates between two slots."""
        positions, sums = self.positions[item], self.sums[item]
        return sums[bisect_left(positions, last)] - sums[bisect_left(positions, first)]

    def of(self, window: Window) -> int:
        """Returns the sum of the charges of all writes of a window."""
        return sum(
            self.between(read.item, read.slot, report.commit) for report in window.reports for read in report.reads
        )


def _changes(history: History, item: str, chain: Chain) -> Iterator[int]:
    """Yields for each writer of an item the sum of the changes by its writes, times the item's weight."""
    weight = history.record.items[item].weight
    value = chain.values[0] or 0
    for writer in chain.writers:
        change = 0
        for operation in history.updates[writer].operations:
            if operation.action is Action.WRITE and operation.item == item:
                change += abs((operation.value or 0) - value)
                value = operation.value or 0
        yield change * weight


# ---- the text


class _Writer:
    """Writes the script of a window."""

    def __init__(self, positions: Positions, window: Window, items: list[str]) -> None:
        self.positions, self.history, self.items = positions, positions.history, set(items)
        self.script = Script(window)
        self.begun = 0
        for item in items:
            self.item(item)

    def opening(self, item: str) -> int:
        """Returns the value of an item in the first slot of the window, 0 for a row that does not exist."""
        chain = self.history.chains[item]
        number = sum(1 for writer in chain.writers if self.positions.of[writer] < self.script.window.first)
        self.script.opening[item] = number
        return chain.values[number] or 0

    def item(self, item: str) -> None:
        name, weight = self.script.items[item], self.history.record.items[item].weight
        line = f"item {name} {self.opening(item)}" + ("" if weight == 1 else f" weight {weight}")
        self.script.say(line, line)

    def begin(self, transaction: Transaction, kind: str) -> str:
        name = self.script.transactions[transaction.name]
        self.begun += 1
        self.script.say(f"begin {name} {kind} {LIMIT}", f"begun {name} {self.begun}")
        return name

    def operation(self, name: str, action: Action, item: str, value: Optional[int]) -> None:
        item, value = self.script.items[item], value or 0
        if action is Action.READ:
            self.script.say(f"read {name} {item}", f"{name} {item} {value}")
        else:
            self.script.say(f"write {name} {item} {value}", f"wrote {name} {item} {value}")

    def commit(self, name: str) -> None:
        self.script.say(f"commit {name}", f"committed {name}")

    def update(self, update: Transaction) -> None:
        operations = [operation for operation in update.operations if operation.item in self.items]
        if not operations:
            return
        self.script.updates += 1
        name = self.begin(update, "update")
        for operation in operations:
            self.operation(name, operation.action, operation.item, operation.value)
        self.commit(name)

    def slot(self, beginning: list[PlacedReport], reading: list[tuple[str, PlacedRead]], ending: list[str]) -> None:
        for report in beginning:
            self.begin(report.report, "query")
        for label, read in reading:
            value = self.history.chains[read.item].values[read.number]
            self.operation(self.script.transactions[label], Action.READ, read.item, value)
        for label in ending:
            self.commit(self.script.transactions[label])

    def write(self) -> Script:
        window = self.script.window
        beginning: dict[int, list[PlacedReport]] = {}
        reading: dict[int, list[tuple[str, PlacedRead]]] = {}
        ending: dict[int, list[str]] = {}
        for report in window.reports:
            beginning.setdefault(report.begin, []).append(report)
            ending.setdefault(report.commit, []).append(report.report.name)
            for read in report.reads:
                reading.setdefault(read.slot, []).append((report.report.name, read))
        for slot in range(window.first, window.last + 1):
            self.slot(beginning.get(slot, []), reading.get(slot, []), ending.get(slot, []))
            if slot < window.last:
                self.update(self.history.updates[self.history.serial[slot]])
        return self.script


@dataclass
class Conversion:
    """The scripts of a history, their items, and the reports that they leave out: `too_long` for a window, `unread` since
    they read none of the items. `sampled` reports have more reads than a script may have."""

    scripts: list[Script]
    items: list[str]
    all_items: int
    too_long: list[PlacedReport]
    sampled: list[PlacedReport]
    unread: int


def convert(history: History) -> Conversion:
    """Returns the scripts of a history.

    # Errors
    TooLarge if the changes exceed every limit."""
    positions = Positions(history)
    placed = placed_reports(positions)
    used = items_used(history)
    items = sample_of_items(used, placed)
    reports = restricted(placed, set(items))
    windows, too_long = windows_of(history, reports, set(items))
    charges = _Charges(positions)
    if any(charges.of(window) > LIMIT for window in windows):
        raise TooLarge(f"the changes during the reports add up to more than {LIMIT}: give the values a smaller scale")
    scripts = [_Writer(positions, window, items).write() for window in windows]
    sampled = [report for report in reports if report.left_out]
    return Conversion(scripts, items, len(used), too_long, sampled, len(placed) - len(reports))
