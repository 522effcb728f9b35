"""A recorder for PostgreSQL: psycopg2 connections that note the rows that an application reads and writes.

The idea: the system column `xmin` of a row is the number of the transaction that wrote this version of the row. A result
with a row's key, its value and its `xmin` therefore identifies the version that was read or, after UPDATE or INSERT with
RETURNING, the version that was written. The recorder finds these columns by the table and column numbers that the server
reports for each result. The application's statements stay as they are, except that they return these columns. Just
before a commit one more statement returns the transaction's number, its isolation level and the time. When the recording
ends, the server reports how each transaction ended and when.

The invariants: a transaction is recorded as committed only if the server reports it so, and only if the number that the
server was asked about was still its number: after a recovery of the server, numbers whose commit was not acknowledged
are assigned a second time, so such a transaction is unknown. Writes that a ROLLBACK TO SAVEPOINT undid are left out, as
each write has the number of its own subtransaction as its version.

A recovery is noticed by a guard connection, since no session survives one. (`pg_postmaster_start_time` does not change,
and `pg_stat_activity` shows the start of the checkpointer only to privileged roles.)

Versions are the 32 bits of `xmin`: a frozen row still shows those, and its epoch is not stored. A recording is far
shorter than 2^32 transactions, so two versions of a row have one label only by an accident that the converter names.

Rejected: triggers, which see no reads, and rewriting statements, which needs a parser and runs other statements than the
application sent. For writes from the write-ahead log see `watch`.
"""

from __future__ import annotations

import contextlib
import time
from typing import Any, Iterator, NamedTuple, Optional, Sequence

from esr_history.record import Action, Ending, Item, Note, Operation, Outcome, Record, Transaction

from .connections import DATABASE, Connector, Ended, Rest, Row, deletes
from .journal import Journal, Recording
from .tables import Place, RecordingError, Rows, Table, known_table, rows_of

import psycopg2  # isort: skip (`connections` reports how to install it)

OLDEST_SERVER = 130000
ROUNDS = 2**32
PATIENCE = 10.0  # seconds to wait for a commit in doubt

# (`pg_xact_status` fails for a number that has not been assigned, as after a recovery.)
ENDINGS = """select label,
    case when xid < 0 or xid > %s then 'aborted'
        else pg_xact_status(xid::text::xid8) end,
    (extract(epoch from pg_xact_commit_timestamp(label::text::xid)) * 1000000)::bigint
    from unnest(%s::bigint[], %s::bigint[]) as each(label, xid)"""


class Recorder(Connector):
    """Records the transactions of its connections from its construction until `finish`. The rows of the tables at the
    construction are the opening versions. It may be used by several threads, each with its own connection. With
    `journal`, the path of a new file, transactions are appended to that file as they end."""

    def __init__(self, dsn: str, tables: Sequence[Table], journal: Optional[str] = None) -> None:
        super().__init__(dsn)
        self._guard: Any = None
        self.database: tuple[Any, ...]
        with _reading(dsn) as cursor:
            system = _checked(cursor)
            cursor.execute(DATABASE)
            self.database = cursor.fetchone()
            self._known = [known_table(cursor, table) for table in tables]
            self._recording = Recording(system, list(tables), rows_of(cursor, tables))
        self._journal = Journal(journal, self._recording) if journal else None
        self.life()

    @property
    def unversioned(self) -> int:
        """The number of statements that read or wrote a recorded value without key and xmin."""
        return self._recording.unversioned

    def life(self) -> int:
        """Returns the number of the server's current life, from 1. A connection that was opened before this call and
        works after it belongs to this life: the guard is older than the call, and no session survives a recovery."""
        with self._lock:
            if self._guard is None or not _works(self._guard):
                self._guard = psycopg2.connect(self._dsn)
                self._guard.autocommit = True
                self._recording.lives.append(_server(self._guard))
                if self._journal:
                    self._journal.life(self._recording.lives[-1])
            return len(self._recording.lives)

    def table(self, name: str) -> Table:
        for known in self._known:
            if known.table.name == name:
                return known.table
        raise RecordingError(f"the table {name} is not recorded")

    def places(self, description: Sequence[Any]) -> list[Place]:
        """Returns the columns of the rows of recorded tables in a result."""
        found = []
        for known in self._known:
            places, is_unversioned = known.places(description)
            found += places
            if is_unversioned:
                with self._lock:
                    self._recording.unversioned += 1
                    if self._journal:
                        self._journal.unversioned()
        return found

    def about_to_end(self, ended: Ended) -> None:
        """Appends a transaction to the journal. If the recorder is killed before `keep`, the server knows how it
        ended."""
        if self._journal:
            self._journal.transaction(ended)

    def keep(self, ended: Ended) -> None:
        """Takes a transaction that has ended."""
        with self._lock:
            self._recording.ended.append(ended)
        if self._journal:
            self._journal.outcome(ended)

    def finish(self) -> Record:
        """Returns the record, without transactions that are still open.

        # Errors
        RecordingError or an error of psycopg2 if the server cannot be asked how the transactions ended. The journal is
        complete then, and `finished` continues from it."""
        return finished(self._dsn, self._recording, self.life())


def finished(dsn: str, recording: Recording, life: int, was_killed: bool = False) -> Record:
    """Returns the record of a recording, after asking the server how its transactions ended. `life` is the number of
    the server's current life."""
    ended = list(recording.ended)
    statuses = _statuses(dsn, ended, life)
    closing = _closing(dsn, recording.tables)
    notes = closing.notes()
    if was_killed:
        notes.append(Note("the recorder was killed: transactions that ended last may be missing", is_gap=True))
    if recording.unversioned:
        text = f"{recording.unversioned} statements read or wrote a recorded value without key and xmin: not recorded"
        notes.append(Note(text, is_gap=True))
    return _record(recording, closing, ended, _Outcomes(ended, statuses, life), notes)


def current_life(dsn: str, recording: Recording) -> int:
    """Returns the number of the server's current life for a recording whose recorder has died: the last one of the
    recording if the server's processes are provably the same, otherwise a new one."""
    connection = psycopg2.connect(dsn)
    try:
        server = _server(connection)
    finally:
        connection.close()
    is_same = recording.lives[-1:] == [server] and server[1] is not None
    return len(recording.lives) + (0 if is_same else 1)


def _server(connection: Any) -> tuple[str, Optional[str]]:
    """Returns the start times of the server and, if the role may see it, of its checkpointer, which is restarted by a
    recovery."""
    with connection.cursor() as cursor:
        cursor.execute(
            "select pg_postmaster_start_time()::text,"
            " (select min(backend_start)::text from pg_stat_activity where backend_type = 'checkpointer')"
        )
        started, checkpointer = cursor.fetchone()
        return started, checkpointer


def _works(connection: Any) -> bool:
    try:
        with connection.cursor() as cursor:
            cursor.execute("select 1")
        return True
    except psycopg2.Error:
        return False


@contextlib.contextmanager
def _reading(dsn: str) -> Iterator[Any]:
    """Yields a cursor that reads one snapshot, on a separate connection."""
    connection = psycopg2.connect(dsn)
    try:
        connection.set_session(isolation_level="REPEATABLE READ", readonly=True)
        yield connection.cursor()
    finally:
        connection.close()


class _Closing(NamedTuple):
    """The rows of the tables at the end, and the faults of those that cannot be recorded."""

    rows: Rows
    faults: dict[str, str]

    def notes(self) -> list[Note]:
        return [Note(f"at the end {fault}", is_gap=True) for fault in self.faults.values()]


def _closing(dsn: str, tables: Sequence[Table]) -> _Closing:
    faults: dict[str, str] = {}
    with _reading(dsn) as cursor:
        return _Closing(rows_of(cursor, tables, faults), faults)


def _checked(cursor: Any) -> str:
    """Returns the name of the server if it can be recorded."""
    cursor.execute(
        "select current_setting('server_version_num')::int, current_setting('server_version'),"
        " current_setting('track_commit_timestamp')"
    )
    number, version, tracks = cursor.fetchone()
    if number < OLDEST_SERVER:
        raise RecordingError(f"the server is PostgreSQL {version}, and 13 is the first that can be recorded")
    if tracks != "on":
        raise RecordingError(
            "the server does not keep the times of commits: ALTER SYSTEM SET track_commit_timestamp = on,"
            " and restart it"
        )
    return f"PostgreSQL {version}"


# ---- how transactions ended


class _Status(NamedTuple):
    """The server's report about a transaction or a subtransaction."""

    outcome: Outcome
    time: int


def _labels(each: Ended) -> list[int]:
    """Returns the 32 bits of the numbers under which a transaction wrote: its own, if known, and then those of its
    subtransactions."""
    own = [each.xid % ROUNDS] if each.xid is not None else []
    rows = (noted.operation for noted in each.noted if isinstance(noted, Row))
    return own + [int(row.version) for row in rows if row.action is Action.WRITE and row.version is not None]


def _statuses(dsn: str, ended: list[Ended], life: int) -> dict[int, _Status]:
    """Returns how the writers ended. Waits some seconds for those of this life that are still about to end."""
    labels = sorted({label for each in ended for label in _labels(each)})
    current = {label for each in ended if each.life == life for label in _labels(each)}
    words = {"committed": Outcome.COMMITTED, "aborted": Outcome.ABORTED}
    following = _next_number(dsn)
    # (the newest number with these 32 bits that has been assigned)
    full = [following - (following - label) % ROUNDS for label in labels]
    until = time.monotonic() + PATIENCE
    while True:
        with _reading(dsn) as cursor:
            cursor.execute(ENDINGS, (following, labels, full))
            statuses = {}
            for label, word, stamp in cursor:
                is_known = word != "committed" or stamp
                statuses[label] = _Status(words.get(word, Outcome.UNKNOWN) if is_known else Outcome.UNKNOWN, stamp or 0)
        if time.monotonic() > until or all(statuses[label].outcome is not Outcome.UNKNOWN for label in current):
            return statuses
        time.sleep(0.1)


def _next_number(dsn: str) -> int:
    """Returns a transaction number that is assigned now: all smaller ones have been assigned, no larger one has. (The
    snapshot's xmax may be smaller than a number in progress.)"""
    connection = psycopg2.connect(dsn)
    try:
        with connection.cursor() as cursor:
            cursor.execute("select pg_current_xact_id()::text::bigint")
            number: int = cursor.fetchone()[0]
            return number
    finally:
        connection.close()


class _Outcomes:
    """Decides how transactions ended, from the server's report about their numbers and from the acknowledgements that
    their connections received. A number of an earlier life of the server may be that of another transaction now."""

    def __init__(self, ended: Sequence[Ended], statuses: dict[int, _Status], life: int) -> None:
        self.statuses, self.life = statuses, life
        self.owners = {_labels(each)[0]: each.name for each in sorted(ended, key=lambda e: e.life) if _labels(each)}

    def of(self, each: Ended) -> tuple[Outcome, int]:
        """Returns the outcome of a transaction, and when it ended."""
        labels = _labels(each)
        if not labels:
            # (the time of the commit of a DELETE outside a block is unknown)
            return (Outcome.UNKNOWN if any(map(deletes, each.noted)) else each.outcome), each.ended
        outcome, time_of_commit = self.statuses[labels[0]]
        if each.life != self.life and outcome is Outcome.COMMITTED:
            is_acknowledged = each.outcome is Outcome.COMMITTED and each.lasts
            if not is_acknowledged or self.owners[labels[0]] != each.name:
                return Outcome.UNKNOWN, each.ended
        return outcome, time_of_commit or each.ended

    def undone(self, each: Ended) -> set[str]:
        """Returns the labels of the subtransactions of a committed transaction that were rolled back."""
        labels = _labels(each)
        if self.of(each)[0] is not Outcome.COMMITTED:
            return set()
        return {str(label) for label in labels if self.statuses[label].outcome is Outcome.ABORTED}


# ---- the record


def _operations(each: Ended, undone: set[str], items: dict[str, Table]) -> Iterator[Operation]:
    """Yields the operations of a transaction without those that it undid, and its reads of rows that did not exist."""
    for noted in each.noted:
        if isinstance(noted, Rest):
            for item, table in items.items():
                if table is noted.table and item not in noted.present and (noted.keys is None or item in noted.keys):
                    yield Operation(Action.READ, item, None, None)
        elif deletes(noted):
            yield noted.operation._replace(version=f"deleted by {each.name}")
        elif noted.operation.version not in undone:
            yield noted.operation


def _transaction(each: Ended, outcomes: _Outcomes, items: dict[str, Table]) -> Transaction:
    outcome, ended = outcomes.of(each)
    reason = ""
    if each.faults and outcome is Outcome.COMMITTED:
        outcome, reason = Outcome.LEFT_OUT, each.faults[0]
        if len(each.faults) > 1:
            reason += f" (and {len(each.faults) - 1} more)"
    operations = tuple(_operations(each, outcomes.undone(each), items))
    labels = (str(each.xid % ROUNDS),) if each.xid is not None else ()
    began = min(each.began, ended)
    return Transaction(each.name, outcome, began, ended, operations, each.level, labels, reason)


def _record(
    recording: Recording, closing: _Closing, ended: list[Ended], outcomes: _Outcomes, notes: list[Note]
) -> Record:
    """Returns the record. Rows that no recorded transaction read or wrote, and that are the same at the end, are left
    out."""
    record = Record(recording.system, notes=notes)
    opening = recording.opening
    items = {item: table for item, (table, _, _) in {**opening, **closing.rows}.items()}
    for each in ended:
        for noted in each.noted:
            if isinstance(noted, Row):
                items.setdefault(noted.operation.item, noted.table)
    done = [(_transaction(each, outcomes, items), each.xid or max(_labels(each), default=0)) for each in ended]
    record.transactions = [each for each, _ in sorted(done, key=lambda pair: (pair[0].ended, pair[1]))]
    used = {operation.item for each in record.transactions for operation in each.operations}
    for item, table in items.items():
        if item in used or opening.get(item) != closing.rows.get(item):
            _, value, version = opening.get(item, (table, None, None))
            record.items[item] = Item(item, value, version, table.weight, table.scale)
            if item not in closing.faults:
                _, value, version = closing.rows.get(item, (table, None, None))
                record.endings.append(Ending(item, value, version))
    return record
