"""The places of reports among the updates of a serial order.

The idea: call the gap after the first j updates of the serial order *slot* j. A version of an item is current from the slot
after its writer to the slot before the writer of the next version. A read of it may be placed in any of these slots, and
returns the recorded value. It is placed in the nearest one to the report's progress, so that a report begins, reads and
commits among the updates that were concurrent with it in the database.

The invariant: each read of a placed report is in a slot where its version is current, not before the slot where the report
begins and not after the one where it commits, which is after all updates that had committed when the report ended.

Rejected: beginning all reports first and reading directly after the version's writer. The distances would be the same, but
every later write would be charged to every report, and an explanation would contain updates long past or to come.
"""

from __future__ import annotations

from bisect import bisect_right
from dataclasses import dataclass
from itertools import accumulate
from typing import NamedTuple

from .order import History
from .record import Transaction
from .versions import Read

MAX_READS = 1_000


class PlacedRead(NamedTuple):
    """A read of a version of an item, and its slot."""

    slot: int
    item: str
    number: int


@dataclass(frozen=True)
class PlacedReport:
    """A report, and the slots where it begins, reads and commits."""

    report: Transaction
    begin: int
    reads: tuple[PlacedRead, ...]
    commit: int
    left_out: int = 0

    @property
    def entries(self) -> int:
        return 2 + len(self.reads)


def spread(count: int, most: int) -> list[int]:
    """Returns at most `most` numbers below a count, evenly spread."""
    if count <= most:
        return list(range(count))
    return [place * count // most for place in range(most)]


class Positions:
    """The positions of updates in the serial order (`of`), and the slots of versions and of times."""

    def __init__(self, history: History) -> None:
        self.history = history
        self.of = [0] * len(history.updates)
        for position, update in enumerate(history.serial):
            self.of[update] = position
        self._times = [update.ended for update in history.updates]
        self._slots = list(accumulate((position + 1 for position in self.of), max, initial=0))

    def at(self, time: int) -> int:
        """Returns the first slot after all updates that had committed at a time."""
        return self._slots[bisect_right(self._times, time)]

    def span(self, read: Read) -> tuple[int, int]:
        """Returns the first and the last slot where the version that was read is current."""
        chain = self.history.chains[read.item]
        writer, replacer = chain.writer(read.number), chain.replacer(read.number)
        first = 0 if writer is None else self.of[writer] + 1
        return first, len(self.of) if replacer is None else self.of[replacer]

    def place(self, report: Transaction, reads: list[Read]) -> PlacedReport:
        """Returns a placed report, with at most as many reads as a script may have of it."""
        kept = [reads[place] for place in spread(len(reads), MAX_READS)]
        spans = [self.span(read) for read in kept]
        begin = min([self.at(report.began)] + [last for _, last in spans])
        reached, placed = begin, []
        for read, (first, last) in zip(kept, spans):
            slot = min(max(reached, first), last)
            reached = max(reached, slot)
            placed.append(PlacedRead(slot, read.item, read.number))
        return PlacedReport(report, begin, tuple(placed), max(reached, self.at(report.ended)), len(reads) - len(kept))


def placed_reports(positions: Positions) -> list[PlacedReport]:
    """Returns all reports, by the slots where they begin."""
    reports = zip(positions.history.reports, positions.history.report_reads)
    placed = [positions.place(report, reads) for report, reads in reports]
    return sorted(placed, key=lambda report: (report.begin, report.commit))
