"""Reports that only add `pg_current_snapshot()` to their statements: what each statement read, for `watch`.

The idea: with the snapshot of a statement and the log of all writes, the version of every row that the statement read is
known without `xmin`. So a report may use `sum` and `count`: their rows follow from the snapshot, and the number
that the report got is compared with theirs.

A file of reports has one JSON line for each report that committed, so that programs in any language can write it:

    {"report":"r1","level":"read committed","began":1,"ended":2,"statements":[STATEMENT, ..]}

A STATEMENT has `snapshot`, the text of `pg_current_snapshot()`, and either `rows`, a list of [ITEM, VALUE], or `sums` and
`counts`, objects that have for a table its sum or its number of rows, over all its rows. Values are numbers or decimal texts.
With `rows`, `all` lists the tables of which the statement read all rows, so that a row that is not in `rows` was absent.
`tables`, which may be left out, lists all watched tables that the statement read, also without a row in its result.
`began` and `ended` are microseconds of the server's clock. A report that also wrote has `"writes":true`, and a statement
that could not be understood has `fault`.

The module writes such lines for Python programs that use psycopg2. Rows are found by the column numbers that the server
reports. Sums, and whether a statement read all rows of a table, are found in its plan (EXPLAIN, on a separate connection),
which names tables and conditions. A statement whose result has no row has no snapshot; at repeatable read and serializable it
is that of the other statements of its transaction.

Rejected: reading the statement, which needs a parser; and sums over a condition, whose rows the log does not determine.
"""

from __future__ import annotations

import re
import threading
from typing import Any, Iterator, NamedTuple, Optional, Sequence

from esr_history.record import Outcome, json_line

from .connections import DATABASE, Connector, Ended, RecordingConnection
from .tables import KnownTable, RecordingError, Table, known_table

import psycopg2  # isort: skip (`connections` reports how to install it)

SHARED = ("repeatable read", "serializable")  # levels at which the statements of a transaction share a snapshot
# EXPLAIN may wait for a program that waits for a lock of the report, in which case none of the three would ever end.
LOCK_TIMEOUT = "set lock_timeout = '1s'"
SNAPSHOT_TYPES = (5038, 2970)  # pg_snapshot, txid_snapshot
CONDITIONS = ("Filter", "Index Cond", "Recheck Cond", "One-Time Filter", "TID Cond", "Group Key", "Join Filter")
WHOLE_SCANS = ("Aggregate", "Seq Scan", "Index Scan", "Index Only Scan", "Gather", "Append")


class Statement(NamedTuple):
    """A statement with a snapshot: its line in a file of reports."""

    content: dict[str, Any]


class ReportConnection(RecordingConnection):
    """A connection that notes statements with a snapshot."""

    recorder: ReportRecorder

    def _is_about_to_run(self, query: Any) -> None:
        super()._is_about_to_run(query)
        self._template = str(query)

    def _note(self, cursor: Any) -> dict[str, set[str]]:
        if self._is_recorded:
            content = self.recorder.statement(cursor, self._template)
            if content is not None:
                self._noted.append(Statement(content))
        return {}


class ReportRecorder(Connector):
    """Appends to a file the reports of its connections, whose statements return `pg_current_snapshot()`."""

    connection_class = ReportConnection

    def __init__(self, dsn: str, tables: Sequence[Table], path: str) -> None:
        super().__init__(dsn)
        self._writing, self._explaining = threading.Lock(), threading.Lock()
        self._plain = psycopg2.connect(dsn)
        self._plain.autocommit = True
        self._plans: dict[str, _Plan] = {}
        with self._plain.cursor() as cursor:
            cursor.execute(LOCK_TIMEOUT)
            cursor.execute(DATABASE)
            self.database = cursor.fetchone()
            self._known = [known_table(cursor, table) for table in tables]
            self._leaves = {leaf: known for known in self._known for leaf in leaves_of(cursor, known)}
        self._file = open(path, "a", encoding="utf-8")
        self.count = 0

    def close(self) -> None:
        """Closes the file."""
        self._file.close()
        self._plain.close()

    def about_to_end(self, ended: Ended) -> None:
        """Does nothing: a report counts when its commit is acknowledged."""

    def keep(self, ended: Ended) -> None:
        """Appends a report."""
        statements = list(_with_snapshots([each.content for each in ended.noted], ended.level in SHARED))
        if ended.outcome is not Outcome.COMMITTED or not statements:
            return
        content: dict[str, Any] = {"report": ended.name, "level": ended.level}
        content.update(began=ended.began, ended=ended.ended)
        if ended.xid is not None:
            content["writes"] = True
        content["statements"] = statements
        with self._writing:
            self._file.write(json_line(content))
            self._file.flush()
            self.count += 1

    def statement(self, cursor: Any, template: str) -> Optional[dict[str, Any]]:
        """Returns what a statement read, or None if it does not ask for its snapshot. (Statements of one template have one
        plan here: parameters do not add conditions.)"""
        snapshots = [
            place
            for place, column in enumerate(cursor.description)
            if column.type_code in SNAPSHOT_TYPES or column.name == "pg_current_snapshot"
        ]
        if not snapshots:
            return None
        rows = cursor._rows() if cursor.rowcount > 0 else []
        content: dict[str, Any] = {"snapshot": str(rows[0][snapshots[0]]) if rows else None}
        places = [(known, *each) for known in self._known for each in known.values_of(cursor.description)]
        try:
            plan = self._plan(cursor.query.decode(errors="replace"), template)
            content["tables"] = sorted(plan.tables)
            if places:
                read = {
                    known.table.item([row[part] for part in key]): row[value]
                    for row in rows
                    for known, key, value in places
                    if row[key[0]] is not None  # (None on the other side of an outer join)
                }
                content["rows"] = [[item, str(value)] for item, value in read.items()]
                content["all"] = [known.table.name for known in self._known if known.table.name in plan.whole]
            else:
                content.update(self._aggregates(cursor, plan, rows))
        except RecordingError as error:
            content["fault"] = str(error)
        return content

    def _aggregates(self, cursor: Any, plan: _Plan, rows: list[tuple[Any, ...]]) -> dict[str, Any]:
        if not plan.aggregates or len(rows) != 1:
            text = " ".join(cursor.query.decode(errors="replace").split())
            raise RecordingError(
                f"no key and value of a watched table, and no sum or count over all its rows, in the result of: {text}"
            )
        found: dict[str, Any] = {"sums": {}, "counts": {}}
        for place, (kind, table) in plan.aggregates.items():
            value = rows[0][place]
            found[kind][table.name] = str(0 if value is None else value)
        return found

    def _plan(self, text: str, template: str) -> _Plan:
        with self._explaining:
            if template not in self._plans:
                with self._plain.cursor() as cursor:
                    try:
                        cursor.execute("explain (verbose, format json) " + text)
                        plan = cursor.fetchone()[0][0]["Plan"]
                    except psycopg2.Error as error:
                        raise RecordingError(f"EXPLAIN fails: {str(error).strip()}") from None
                found = (self._leaves.get(_leaf(each)) for each in nodes_of(plan) if "Relation Name" in each)
                tables = frozenset(known.table.name for known in found if known is not None)
                self._plans[template] = _Plan(self._aggregates_of(plan), self._whole_tables(plan), tables)
            return self._plans[template]

    def _whole_tables(self, plan: dict[str, Any]) -> frozenset[str]:
        """Returns the tables that a plan scans without a condition."""
        nodes = list(nodes_of(plan))
        scans = [(self._leaves.get(_leaf(each)), each) for each in nodes if "Relation Name" in each]
        if any(each["Node Type"] == "Limit" for each in nodes):
            return frozenset()
        whole = {known.table.name for known, _ in scans if known is not None}
        return frozenset(whole) - {known.table.name for known, each in scans if known is not None and not _is_whole(each)}

    def _aggregates_of(self, plan: dict[str, Any]) -> dict[int, tuple[str, Table]]:
        """Returns the columns of the result that are the sum or the count of all rows of a table."""
        known: dict[str, tuple[str, Table]] = {}
        for node in nodes_of(plan):
            if node["Node Type"] == "Aggregate" and node.get("Partial Mode") != "Partial":
                known.update(self._of_aggregate(node))
        outputs = [_bare(text) for text in plan.get("Output", [])]
        return {place: known[text] for place, text in enumerate(outputs) if text in known}

    def _of_aggregate(self, node: dict[str, Any]) -> dict[str, tuple[str, Table]]:
        """Returns the outputs of an aggregate that are the sum or count of all rows of one table. An aggregate that is a
        subselect also has the name of its parameter."""
        below = list(nodes_of(node))
        tables = {self._leaves.get(_leaf(each)) for each in below if "Relation Name" in each}
        if len(tables) != 1 or None in tables or not all(map(_is_whole, below)):
            return {}
        (known,) = (each for each in tables if each is not None)
        found = {}
        for text in node.get("Output", []):
            sort = _sort(_bare(text), known.table)
            if sort:
                found[_bare(text)] = (sort, known.table)
        name = re.match(r"InitPlan (\d+) \(returns (\$\d+)\)|InitPlan (\d+)", node.get("Subplan Name", ""))
        if name and len(found) == 1:
            (only,) = found.values()
            found.update({name[2]: only} if name[2] else {f"InitPlan {name[3]}).col1": only})
        return found


def leaves_of(cursor: Any, known: KnownTable) -> list[tuple[str, str]]:
    """Returns the schemas and names of a table and its partitions."""
    cursor.execute(
        "select n.nspname, c.relname from pg_class c join pg_namespace n on n.oid = c.relnamespace"
        " where c.oid in (select %s union select relid from pg_partition_tree(%s))",
        (known.oid, known.oid),
    )
    return [(schema, name) for schema, name in cursor.fetchall()]


class _Plan(NamedTuple):
    """The plan of a statement: the columns that are sums and counts of tables, the tables that are read wholly, and all
    tables that are read."""

    aggregates: dict[int, tuple[str, Table]]
    whole: frozenset[str]
    tables: frozenset[str]


def _with_snapshots(statements: list[dict[str, Any]], is_shared: bool) -> Iterator[dict[str, Any]]:
    """Yields the statements of a report, those without a row with the snapshot of the others if it is shared. If it is not
    known, a statement over a whole table is a fault, and another one counts as not read, as rows that a condition left
    out."""
    known = [each["snapshot"] for each in statements if each["snapshot"] is not None] if is_shared else []
    for each in statements:
        if each["snapshot"] is not None:
            yield each
        elif known:
            yield {**each, "snapshot": known[0]}
        elif each.get("all") or "fault" in each:
            fault = f"a statement over all rows of {', '.join(each.get('all', []))} returned no row, and so no snapshot"
            yield {**each, "snapshot": "", "fault": each.get("fault", fault)}


def _leaf(node: dict[str, Any]) -> tuple[str, str]:
    return node["Schema"], node["Relation Name"]


def _is_whole(node: dict[str, Any]) -> bool:
    return node["Node Type"] in WHOLE_SCANS and not any(key in node for key in CONDITIONS)


def nodes_of(plan: dict[str, Any]) -> Iterator[dict[str, Any]]:
    yield plan
    for each in plan.get("Plans", []):
        yield from nodes_of(each)


def _bare(text: str) -> str:
    while text.startswith("(") and text.endswith(")"):
        text = text[1:-1]
    return text.lstrip("(")


def _sort(text: str, table: Table) -> Optional[str]:
    """Returns `sums` or `counts` if an output is the sum of the values or the count of the rows of a table."""
    found = re.fullmatch(r"(sum|count)\((?:PARTIAL )?(\*|.+)\)", text)
    if found is None:
        return None
    column = re.sub(r'^(?:"(?:[^"]|"")*"|[^".]*)\.', "", found[2]).strip('"')
    if found[1] == "sum":
        return "sums" if re.sub(r"::\w+$", "", column.strip("()")) == table.value else None
    return "counts" if column in ("*", table.value, *table.key) else None
