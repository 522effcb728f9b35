"""The findings of a record, and their text."""

from __future__ import annotations

from dataclasses import dataclass
from typing import Iterable, Iterator

from . import placement, windows
from .order import History, gaps, unrecorded_endings
from .placement import PlacedReport
from .program import Finding, OffRead
from .record import Outcome, Record, Transaction
from .script import Conversion, Script

UNSEEN = (
    "reads of the updates: not in the log, so whether the updates are serializable is unknown. A report that is off is"
    " off in every serial order of them; one that is exact agrees with an order that keeps all writes"
)
MAX_ENDINGS = 3
MAX_NAMES = 10
MAX_READS = 3


@dataclass(frozen=True)
class AuditedReport:
    """A report, its script, its audit, and by how much the sum of its reads is too large at the nearest placement."""

    placed: PlacedReport
    script: Script
    path: str
    finding: Finding
    sum_error: int = 0

    @property
    def name(self) -> str:
        """Its name in the record."""
        return self.placed.report.name

    @property
    def distance(self) -> int:
        return self.finding.distance


@dataclass(frozen=True)
class ExplainedReport:
    """A report that is off, its reads that are, and the path of its picture."""

    report: AuditedReport
    reads: list[OffRead]
    picture: str


@dataclass(frozen=True)
class Result:
    """The findings of a record: of all reports that a script contains, and more of the worst of them."""

    record: Record
    history: History
    conversion: Conversion
    reports: list[AuditedReport]
    worst: list[ExplainedReport]

    @property
    def distances(self) -> list[int]:
        return [report.distance for report in self.reports]

    @property
    def off(self) -> int:
        """Returns the number of reports that are not exact."""
        return sum(1 for distance in self.distances if distance)

    def text(self) -> str:
        """Returns the printed text: lines that begin with their subject, or with blanks if they continue one."""
        parts = (_record(self), _order(self), _conversion(self.conversion), _reports(self))
        lines = [line for part in parts for line in part]
        lines += [line for explained in self.worst for line in _worst(explained)]
        return "\n".join(lines) + "\n"


def line(subject: str, text: str) -> str:
    return f"{subject:10} {text}"


def _counted(count: int, noun: str) -> str:
    return f"{count:,} {noun}" + ("" if count == 1 else "s")


def _first(names: list[str], count: int) -> str:
    more = f" and {len(names) - count:,} more" if len(names) > count else ""
    return ", ".join(names[:count]) + more


def _at_levels(transactions: Iterable[Transaction]) -> str:
    levels = sorted({each.level for each in transactions if each.level})
    return f" at {', '.join(levels)}" if levels else ""


def _record(result: Result) -> Iterator[str]:
    record, history = result.record, result.history
    updates = _counted(len(history.updates), "update") + _at_levels(history.updates)
    reports = _counted(len(history.reports), "report") + _at_levels(history.reports)
    yield line("record", f"{updates}; {reports}; {_counted(len(record.items), 'item')}")
    if record.system:
        yield line("", f"of {record.system}")
    aborted = sum(each.outcome is Outcome.ABORTED for each in record.transactions)
    if aborted:
        yield line("", f"{_counted(aborted, 'transaction')} that aborted: left out")
    unknown = [each.name for each in record.transactions if each.outcome is Outcome.UNKNOWN]
    if unknown:
        yield line("", f"how they ended is unknown, left out: {_first(unknown, MAX_NAMES)}")
    for each in record.transactions:
        if each.outcome is Outcome.LEFT_OUT:
            yield line("", f"{each.name} was left out: {each.reason}")
    others = unrecorded_endings(history)
    if others:
        yield line("", f"written at the end by a transaction that was not recorded: {_first(others, MAX_ENDINGS)}")
    for note in record.notes:
        yield line("", note.text)


def _order(result: Result) -> Iterator[str]:
    if not result.record.has_update_reads:
        yield line("unseen", UNSEEN)
        return
    how = "is" if result.history.keeps_commit_order else "differs from"
    yield line("order", f"the updates are serializable; the serial order {how} the order of the commits")


def _conversion(conversion: Conversion) -> Iterator[str]:
    if len(conversion.items) < conversion.all_items:
        sample = f"{len(conversion.items):,} of {conversion.all_items:,} items"
        yield line("sample", f"{sample}: distances are at least those shown")
    if conversion.unread:
        yield line("", f"{_counted(conversion.unread, 'report')} that read none of these: left out")
    if conversion.sampled:
        yield line(
            "sample",
            f"{placement.MAX_READS:,} reads of {_counted(len(conversion.sampled), 'report')} that read more",
        )
    if len(conversion.scripts) > 1:
        limits = f"{windows.MAX_TRANSACTIONS:,} transactions and {windows.MAX_ENTRIES:,} entries"
        yield line("windows", f"{len(conversion.scripts)}, since a script has at most {limits}")
    for each in conversion.too_long:
        yield line("", f"{each.report.name} is too long for a window: left out")
    count = sum(len(script.lines) for script in conversion.scripts)
    yield line("script", f"{count:,} lines, each accepted; each read gave the value that was recorded")


def units_of(scales: set[int]) -> str:
    """Returns the end of a line with amounts: their unit, by the numbers of decimal digits of the values."""
    if scales <= {0}:
        return ""
    if len(scales) == 1:
        return f", in units of 1/{10 ** scales.pop():,}"
    return ", in the units of the items"


def _reports(result: Result) -> Iterator[str]:
    count, distances, conversion = len(result.reports), result.distances, result.conversion
    if not count:
        yield line("reports", "none was audited")
        return
    is_sample = len(conversion.items) < conversion.all_items or conversion.sampled
    if not result.record.has_update_reads:
        exact = "exact if the updates are serializable"
    elif gaps(result.history):
        exact = "without an error among the recorded updates, not known to be exact since the record has gaps"
    elif is_sample:
        exact = "exact, as far as the sample goes"
    else:
        exact = "exact: they read what some serial order shows"
    yield line("reports", f"{count - result.off:,} {exact}; {result.off:,} off")
    if result.off:
        mean, units = sum(distances) / count, units_of({item.scale for item in result.record.items.values()})
        bound = "at most, among the updates of a window: " if len(conversion.scripts) > 1 else ""
        yield line("distance", f"{bound}worst {max(distances):,}, mean {mean:,.1f}{units}")
        errors = [abs(report.sum_error) for report in result.reports]
        yield line("sum", f"worst error {max(errors):,}, mean {sum(errors) / count:,.1f}{units}")


def _worst(explained: ExplainedReport) -> Iterator[str]:
    report = explained.report
    yield line("worst", f"{report.name}: off by {report.distance:,}, its sum by {report.sum_error:+,}; {explained.picture}")
    for read in explained.reads[:MAX_READS]:
        item = report.script.items.labels[read.item]
        yield line(
            "", f"read {read.value} of {item}, which is {read.nearest} at the nearest place: off by {read.off}"
        )
    if len(explained.reads) > MAX_READS:
        yield line("", f"and {_counted(len(explained.reads) - MAX_READS, 'more read')}")
