"""Names reports of a Python program whose statements do not share a snapshot, without an audit.

The idea: at read committed each statement sees another moment, and outside a transaction it does so at every level. A
transaction that only reads, with more than one statement on watched tables, is therefore a report of several moments. The
tables of a statement are those of its plan (EXPLAIN, on a separate connection); the program's statements stay as they are.

Statements outside a transaction are taken as one report if the same call of a function runs them on one connection one
after another. This is a guess, and the finding says that they are separate transactions.

Rejected: reading the source of the program, which does not show the levels, and reporting single statements.
"""

from __future__ import annotations

import os
import sys
import threading
from typing import Any, NamedTuple, Sequence

from .connections import DATABASE, HAS_ENDED, Connector, Ended, RecordingConnection
from .reports import LOCK_TIMEOUT, SHARED, leaves_of, nodes_of
from .tables import Table, known_table

import psycopg2  # isort: skip (`connections` reports how to install it)
from psycopg2.errors import LockNotAvailable  # isort: skip

ALONE = 0  # the life of a statement that is a transaction by itself
HERE = os.path.dirname(os.path.abspath(__file__))


class Look(NamedTuple):
    """A statement on watched tables: the place in the program that runs it, and that place's frame."""

    tables: frozenset[str]
    place: str
    frame: Any


class Finding(NamedTuple):
    """A report whose statements do not share a snapshot."""

    places: tuple[str, ...]
    tables: tuple[str, ...]
    how: str


class LintConnection(RecordingConnection):
    """A connection that notes statements on watched tables."""

    recorder: Linter

    def _is_about_to_run(self, query: Any) -> None:
        super()._is_about_to_run(query)
        self._template = str(query)

    def _note(self, cursor: Any) -> dict[str, set[str]]:
        if self._is_recorded:
            tables = self.recorder.tables_of(cursor.query.decode(errors="replace"), self._template)
            if tables:
                self._noted.append(Look(tables, *_caller()))  # type: ignore[arg-type]
        return {}

    def _ended(self, statement: str) -> Ended:
        # (the label of the connection, by which statements outside a transaction are compared)
        ended = super()._ended(statement)._replace(name=self.label)
        return ended._replace(life=ALONE) if statement == HAS_ENDED else ended


def _caller() -> tuple[str, Any]:
    """Returns the innermost place outside this package and installed packages."""
    frame: Any = sys._getframe(1)
    while frame.f_back is not None:
        path = os.path.abspath(frame.f_code.co_filename)
        if not path.startswith(HERE) and "-packages" not in path:
            break
        frame = frame.f_back
    return f"{os.path.basename(frame.f_code.co_filename)}:{frame.f_lineno}", frame


class Linter(Connector):
    """Watches the reports of its connections."""

    connection_class = LintConnection

    def __init__(self, dsn: str, tables: Sequence[Table]) -> None:
        super().__init__(dsn)
        self._explaining = threading.Lock()
        self._plain = psycopg2.connect(dsn)
        self._plain.autocommit = True
        self._plans: dict[str, frozenset[str]] = {}
        with self._plain.cursor() as cursor:
            cursor.execute(LOCK_TIMEOUT)
            cursor.execute(DATABASE)
            self.database = cursor.fetchone()
            known = [known_table(cursor, table) for table in tables]
            self._leaves = {leaf: each.table.name for each in known for leaf in leaves_of(cursor, each)}
        self.findings: dict[Finding, int] = {}
        self.reports = self.unexplained = 0
        self._alone: dict[str, list[Look]] = {}

    def about_to_end(self, ended: Ended) -> None:
        """Does nothing: a report counts when it ends."""

    def tables_of(self, text: str, template: str) -> frozenset[str]:
        """Returns the watched tables that a statement reads, none if it has no plan. A statement whose tables are locked is
        explained the next time."""
        with self._explaining:
            if template not in self._plans:
                try:
                    self._plans[template] = frozenset(self._explained(text))
                except LockNotAvailable:
                    self.unexplained += 1
                    return frozenset()
            return self._plans[template]

    def _explained(self, text: str) -> set[str]:
        if not text.lstrip(" \n\t(").lower().startswith(("select", "with", "table", "values")):
            return set()
        with self._plain.cursor() as cursor:
            try:
                cursor.execute("explain (verbose, format json) " + text)
                plan = cursor.fetchone()[0][0]["Plan"]
            except LockNotAvailable:
                raise
            except psycopg2.Error:
                return set()
        leaves = {(each["Schema"], each["Relation Name"]) for each in nodes_of(plan) if "Relation Name" in each}
        return {self._leaves[leaf] for leaf in leaves if leaf in self._leaves}

    def keep(self, ended: Ended) -> None:
        """Looks at a transaction that has ended."""
        looks: Any = ended.noted
        with self._lock:
            alone = self._alone.setdefault(ended.name, [])
            is_alone = len(looks) == 1 and ended.life == ALONE
            if is_alone and alone and alone[-1].frame is looks[0].frame:
                alone.append(looks[0])
                return
            self._end_alone(ended.name)
            if is_alone:
                self._alone[ended.name] = [looks[0]]
            elif ended.xid is None:
                self.reports += 1
                if len(looks) > 1 and ended.level not in SHARED:
                    self._find(looks, f"in one transaction at {ended.level or 'read committed'}")

    def _end_alone(self, name: str) -> None:
        looks = self._alone.pop(name, [])
        if looks:
            self.reports += 1
        if len(looks) > 1:
            self._find(looks, "each a transaction by itself")

    def _find(self, looks: Sequence[Look], how: str) -> None:
        places = tuple(dict.fromkeys(look.place for look in looks))
        tables = tuple(sorted({table for look in looks for table in look.tables}))
        finding = Finding(places, tables, how)
        self.findings[finding] = self.findings.get(finding, 0) + 1

    def finish(self) -> None:
        """Ends the reports that are still open."""
        for name in list(self._alone):
            self._end_alone(name)

    def text(self) -> str:
        """Returns a line for each finding."""
        lines = []
        for (places, tables, how), count in sorted(self.findings.items(), key=lambda pair: -pair[1]):
            times = "once" if count == 1 else f"{count:,} times"
            lines.append(
                f"{', '.join(places)}: a report of {', '.join(tables)} by several statements, {how}, so each sees another"
                f" moment; {times}"
            )
        if not lines:
            lines.append(f"{self.reports:,} reports, each of one moment")
        if self.unexplained:
            lines.append(f"{self.unexplained:,} statements are not in this, since their tables were locked for more than 1 s")
        return "\n".join(lines)
