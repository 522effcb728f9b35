"""The parts of a history that fit the scripts, within the limits of the program.

- *Windows.* A history that is too long for one script is cut into several. A report is in the first window that contains it
  wholly, from the slot where it begins to the one where it commits.
- *Samples.* Of more than 4,096 items a sample is kept, first those that reports read. (Of more than 1,000 reads of a report
  a sample is taken during placement.) A distance over a sample is at most the whole one.

The invariant: the script of a window has at most as many items, transactions and entries as the program accepts.

Rejected: cutting by time. The number of updates in a span of time is not known, and a report across the cut would be
lost.
"""

from __future__ import annotations

from dataclasses import dataclass, replace
from itertools import accumulate

from .order import History
from .placement import PlacedReport, spread

MAX_ITEMS = 4_096
MAX_TRANSACTIONS = 65_535
MAX_ENTRIES = 1_000_000


@dataclass(frozen=True)
class Window:
    """The updates of the serial order from slot `first` to slot `last`, and the reports among them."""

    first: int
    last: int
    reports: tuple[PlacedReport, ...]


def items_used(history: History) -> list[str]:
    """Returns the items that a transaction read or wrote, in their order in the record."""
    used = {operation.item for each in history.updates + history.reports for operation in each.operations}
    return [item for item in history.record.items if item in used]


def sample_of_items(items: list[str], reports: list[PlacedReport]) -> list[str]:
    """Returns as many of some items as a script can have: all, or those that reports read and then others."""
    if len(items) <= MAX_ITEMS:
        return items
    wanted = {read.item for report in reports for read in report.reads}
    first = [item for item in items if item in wanted]
    kept = {first[place] for place in spread(len(first), MAX_ITEMS)}
    others = [item for item in items if item not in wanted]
    kept.update(others[place] for place in spread(len(others), MAX_ITEMS - len(kept)))
    return [item for item in items if item in kept]


def restricted(reports: list[PlacedReport], items: set[str]) -> list[PlacedReport]:
    """Returns the reports with only their reads of some items, and without reports that have none."""
    kept = [replace(each, reads=tuple(read for read in each.reads if read.item in items)) for each in reports]
    return [each for each in kept if each.reads]


class _Sizes:
    """The number of updates and entries of a part of the serial order."""

    def __init__(self, history: History, items: set[str]) -> None:
        counts = [
            sum(operation.item in items for operation in history.updates[update].operations)
            for update in history.serial
        ]
        self.updates = list(accumulate((1 if count else 0 for count in counts), initial=0))
        self.entries = list(accumulate((count + 2 if count else 0 for count in counts), initial=0))

    def fits(self, first: int, last: int, reports: int, entries: int) -> bool:
        transactions = self.updates[last] - self.updates[first] + reports
        return (
            transactions <= MAX_TRANSACTIONS and self.entries[last] - self.entries[first] + entries <= MAX_ENTRIES
        )


def _window(first: int, reports: list[PlacedReport], sizes: _Sizes) -> Window:
    """Returns a window from a slot with as many reports as a script can have. It ends when the last of them commits, and
    has none if the first report is too long by itself."""
    chosen: list[PlacedReport] = []
    entries = 0
    for report in sorted(reports, key=lambda report: report.commit):
        if sizes.fits(first, report.commit, len(chosen) + 1, entries + report.entries):
            chosen.append(report)
            entries += report.entries
    last = max((report.commit for report in chosen), default=first)
    return Window(first, last, tuple(sorted(chosen, key=lambda report: (report.begin, report.commit))))


def windows_of(
    history: History, reports: list[PlacedReport], items: set[str]
) -> tuple[list[Window], list[PlacedReport]]:
    """Returns the windows that contain all reports, one if that suffices, and the reports that are too long for any."""
    sizes, count = _Sizes(history, items), len(history.updates)
    if sizes.fits(0, count, len(reports), sum(report.entries for report in reports)):
        return [Window(0, count, tuple(reports))], []
    windows, too_long, rest = [], [], reports
    while rest:
        window = _window(rest[0].begin, rest, sizes)
        if not window.reports:
            too_long.append(rest[0])
            rest = rest[1:]
            continue
        windows.append(window)
        names = {report.report.name for report in window.reports}
        rest = [report for report in rest if report.report.name not in names]
    return windows, too_long
