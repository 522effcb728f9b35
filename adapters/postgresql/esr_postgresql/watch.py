"""Watches unchanged writers: their writes from the log, the reads of reports from snapshots, audited window by window.

The idea: a report hands over the snapshot and the result of each statement (`reports`). The log has all writes (`wal`), so
the rows at that snapshot are known (`versions_at`), the result is compared with them, and the report is audited among the
updates around it. Rows that no update of a window wrote have one version there and are left out.

The invariant: a report is audited only if each row, sum and count that it got is that of its snapshot, to the unit.
Everything that is not audited is named with the reason.

The log has no reads of updates. So a report that is off is off in every serial order of the updates, but "exact" is
conditional: if the updates are serializable, and no read of an update forbids the order. The result says so.

Rejected: one record of the whole watch. A sum over 100,000 rows would be 100,000 reads of each report. Within a window only
rows that change matter.
"""

from __future__ import annotations

import contextlib
import os
import pathlib
import shutil
import signal
import sys
import time
from dataclasses import dataclass, field
from typing import Any, Optional, Sequence

from esr_history.audit import audited, explained
from esr_history.program import Program
from esr_history.record import Record, save
from esr_history.result import UNSEEN, AuditedReport, line, units_of

from .connections import ServerError
from .tables import RecordingError, Table
from .versions_at import Versions
from .wal import Log
from .window import load_line, report_of, window_record, windows_of

RESTART = 120.0  # seconds to wait for a server that restarts
MAX_REASONS = 10
REFUSED = "not_audited.txt"  # (in the folder of the result: a line for each report that was not audited)


@dataclass
class Findings:
    """The results of all windows."""

    updates: int = 0
    windows: int = 0
    statements: int = 0
    reports: list[AuditedReport] = field(default_factory=list)
    levels: set[str] = field(default_factory=set)
    refused: list[str] = field(default_factory=list)
    restarts: int = 0

    def text(self, system: str, worst: Sequence[Any], units: str) -> str:
        """Returns the text of the result."""
        distances = [each.distance for each in self.reports]
        off = sum(1 for distance in distances if distance)
        levels = f" at {', '.join(sorted(self.levels))}" if self.levels else ""
        lines = [
            line("record", f"{self.updates:,} updates of the log; {len(distances):,} reports{levels}"),
            line("", f"of {system}"),
            line("unseen", UNSEEN),
            line("checked", f"{self.statements:,} statements: each row, sum and count is that of its snapshot"),
        ]
        if self.restarts:
            lines.append(line("restarts", f"{self.restarts}: the log has a gap there, and no report spans one"))
        lines += [line("", f"not audited: {reason}") for reason in self.refused[:MAX_REASONS]]
        if len(self.refused) > MAX_REASONS:
            lines.append(line("", f"not audited: {len(self.refused) - MAX_REASONS:,} more reports, in {REFUSED}"))
        if not distances:
            return "\n".join(lines + [line("reports", "none was audited")]) + "\n"
        counts = f"{len(distances) - off:,} exact if the updates are serializable; {off:,} off"
        counts += f"; {len(self.refused):,} not audited" if self.refused else ""
        lines.append(line("reports", counts))
        if off:
            mean = sum(distances) / len(distances)
            errors = [abs(each.sum_error) for each in self.reports]
            where = "at most, among the updates of a window: "
            lines.append(line("distance", f"{where}worst {max(distances):,}, mean {mean:,.1f}{units}"))
            lines.append(line("sum", f"worst error {max(errors):,}, mean {sum(errors) / len(errors):,.1f}{units}"))
        for each in worst:
            told = f"off by {each.report.distance:,}, its sum by {each.report.sum_error:+,}"
            lines.append(line("worst", f"{each.report.name}: {told}; {each.picture}"))
        return "\n".join(lines) + "\n"


class Tail:
    """New whole lines at the end of a file, which may not exist yet."""

    def __init__(self, path: str) -> None:
        self._path, self._rest = path, b""
        self._place = os.path.getsize(path) if os.path.exists(path) else 0

    def lines(self) -> list[str]:
        if not os.path.exists(self._path):
            return []
        with open(self._path, "rb") as file:
            file.seek(self._place)
            new = file.read()
        self._place += len(new)
        *whole, self._rest = (self._rest + new).split(b"\n")
        return [text.decode(errors="replace") for text in whole if text.strip()]


class Watch:
    """Watches some tables until `seconds` have passed or `stop` is set, and audits the reports of a file."""

    def __init__(
        self, dsn: str, tables: Sequence[Table], reports: str, folder: str, program: Program, window: float = 5.0
    ) -> None:
        self._dsn, self._tables, self._program, self._window = dsn, tables, program, window
        self._folder, self._tail = pathlib.Path(folder), Tail(reports)
        self._pending: list[str] = []
        self.findings, self.system, self.stop = Findings(), "", False

    def run(self, seconds: Optional[float]) -> None:
        """Watches. A restart of the server ends one log and begins another."""
        self._folder.mkdir(parents=True, exist_ok=True)
        for old in [*self._folder.glob("window_*"), self._folder / "worst"]:
            shutil.rmtree(old, ignore_errors=True)
        until = time.monotonic() + seconds if seconds is not None else float("inf")
        log: Optional[Log] = self._opened(0.0)
        while log is not None:
            try:
                with contextlib.closing(log):
                    self._follow(log, until)
                return
            except ServerError as error:
                self._say(f"the log ended: {str(error).strip()}")
                self.findings.restarts += 1
                self._refuse_pending("the server ended before the log of its snapshot arrived")
                log = None if self.stop else self._opened(RESTART)

    def _say(self, text: str) -> None:
        print(f"esr-postgres: {text}", file=sys.stderr, flush=True)

    def _opened(self, patience: float) -> Log:
        until = time.monotonic() + patience
        while True:
            try:
                log = Log(self._dsn, self._tables)
                self.system = log.system
                self._say("watching")
                return log
            except ServerError:
                if time.monotonic() >= until or self.stop:
                    raise
                time.sleep(0.2)

    def _refuse_pending(self, reason: str) -> None:
        self._pending += self._tail.lines()
        for text in self._pending:
            with contextlib.suppress(RecordingError):
                self.findings.refused.append(f"{load_line(text)['report']}: {reason}")
        self._pending = []

    def _follow(self, log: Log, until: float) -> None:
        """Follows a log window by window."""
        versions = Versions(self._tables, log.opening, log.snapshot)
        versions_faults = list(log.faults.values())
        closed = 0
        while True:
            close = min(time.monotonic() + self._window, until)
            while time.monotonic() < close and not self.stop:
                for commit in log.read(0.2):
                    self._add(commit, versions)
            is_last = self.stop or time.monotonic() >= until
            self._pending += self._tail.lines()
            for commit in log.catch_up():
                self._add(commit, versions)
            self._close(versions, versions_faults)
            if is_last:
                return
            versions.trim(closed)
            closed = len(versions.commits)

    def _add(self, commit: Any, versions: Versions) -> None:
        versions.add(commit)
        self.findings.updates += 1

    def _close(self, versions: Versions, faults: list[str]) -> None:
        """Audits the reports of a window."""
        reports = []
        for text in self._pending:
            name = "a report"
            try:
                content = load_line(text)
                name = content["report"]
                for fault in faults:
                    raise RecordingError(f"an opening row cannot be recorded: {fault}")
                reports.append(report_of(content, versions))
            except RecordingError as error:
                self.findings.refused.append(f"{name}: {error}")
        self._pending = []
        for first, last, group in windows_of(reports, versions):
            self._audit(window_record(first, last, group, versions, self.system))
            self.findings.statements += sum(len(report.reads) for report in group)
            self.findings.levels |= {report.level for report in group if report.level}

    def _audit(self, record: Record) -> None:
        self.findings.windows += 1
        folder = self._folder / f"window_{self.findings.windows}"
        folder.mkdir(exist_ok=True)
        save(record, str(folder / "record.jsonl"))
        found = audited(record, str(folder), self._program, worst=0).reports
        for each in found:
            if each.distance:
                print(line("off", f"{each.name}: by {each.distance:,}, its sum by {each.sum_error:+,}; {folder}"), flush=True)
        self.findings.reports += found

    def result(self, worst: int) -> str:
        """Explains the worst reports, and returns the text of the result."""
        off = sorted((each for each in self.findings.reports if each.distance), key=lambda each: -each.distance)
        (self._folder / "worst").mkdir(exist_ok=True)
        found = [explained(each, self._program, self._folder / "worst") for each in off[:worst]]
        text = self.findings.text(self.system, found, units_of({table.scale for table in self._tables}))
        (self._folder / "result.txt").write_text(text, encoding="utf-8")
        refused = "".join(f"{reason}\n" for reason in self.findings.refused)
        (self._folder / REFUSED).write_text(refused, encoding="utf-8")
        return text


def stop_at_signals(watch: Watch) -> None:
    """Lets SIGINT and SIGTERM close the last window."""

    def stop(*_: Any) -> None:
        watch.stop = True

    for number in (signal.SIGINT, signal.SIGTERM):
        signal.signal(number, stop)
