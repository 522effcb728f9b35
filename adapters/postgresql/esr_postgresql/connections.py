"""Connections of psycopg2 that note which rows their statements read and write.

The idea: a cursor looks at the result of each statement before the application does, and a connection hands over the noted
rows when the transaction has ended. The application sees the behavior of plain connections and cursors.

The invariant: the rows that are handed over belong to one transaction. They are noted between two ends of transactions,
whether a call, a statement, or a statement that is a transaction by itself ends it.

Rejected: rewriting statements so that they return versions. The application would run other statements than it sends.
"""

from __future__ import annotations

import contextlib
import functools
import threading
from typing import Any, Iterable, Iterator, NamedTuple, Optional, Sequence

from esr_history.record import Action, Operation, Outcome

from .tables import Place, RecordingError, Table

try:
    import psycopg2
    import psycopg2.extensions as extensions
    from psycopg2.sql import Composable
except ImportError as missing:
    raise ImportError(
        "psycopg2 is not installed for this Python: Debian has it as python3-psycopg2 (for /usr/bin/python3), and"
        " `pip install psycopg2-binary` gets it for any other"
    ) from missing

ServerError: type[Exception] = psycopg2.Error

# The database of a connection, the same after a restart of the server. (Numbers of tables are of one database.)
DATABASE = """select oid, (select system_identifier from pg_control_system())
    from pg_database where datname = current_database()"""
NOW = "(extract(epoch from clock_timestamp()) * 1000000)::bigint"
LASTS = "current_setting('synchronous_commit') <> 'off'"
ABOUT_TO_END = f"""select pg_current_xact_id_if_assigned()::text, current_setting('transaction_isolation'),
    (extract(epoch from transaction_timestamp()) * 1000000)::bigint, {NOW}, {LASTS}"""
HAS_ENDED = f"select null, current_setting('transaction_isolation'), {NOW}, {NOW}, {LASTS}"


class Row(NamedTuple):
    """A row of a result: it was read or written."""

    table: Table
    operation: Operation


class Rest(NamedTuple):
    """The absent rows: all of a table, or those of `keys`, that are not among `present`."""

    table: Table
    present: frozenset[str]
    keys: Optional[frozenset[str]]


Noted = Any  # (a Row, a Rest, or a statement of a subclass of connections)


class Ended(NamedTuple):
    """A transaction as its connection saw it. Its `outcome` is COMMITTED if the server acknowledged the commit. `life`
    counts the starts and recoveries of the server before it, `faults` are the rows that cannot be recorded, and `lasts`
    is whether an acknowledged commit survives a crash."""

    name: str
    noted: tuple[Noted, ...]
    xid: Optional[int] = None
    level: str = ""
    began: int = 0
    ended: int = 0
    outcome: Outcome = Outcome.ABORTED
    life: int = 1
    lasts: bool = False
    faults: tuple[str, ...] = ()


class _Recording(extensions.cursor):  # type: ignore[misc]
    """A mixin for classes of cursors that notes their statements. The application sees the class's own behavior."""

    row_factory: Any

    def __init__(self, *args: Any, **named: Any) -> None:
        super().__init__(*args, **named)
        self._seen: dict[str, set[str]] = {}

    def execute(self, query: Any, vars: Any = None) -> None:  # (psycopg2's own name)
        self.connection._is_about_to_run(query)
        super().execute(query, vars)
        self._seen = self.connection._has_run(self)

    def executemany(self, query: Any, vars_list: Iterable[Any]) -> None:
        for each in vars_list:
            self.execute(query, each)

    def covers(self, table: str, keys: Optional[Iterable[Any]] = None) -> None:
        """Notes that the last statement looked at all rows of a table, or at all with one of some keys: those that are not
        in its result were absent. A key of several columns is a tuple."""
        self.connection._covers(table, self._seen.get(table, set()), keys)

    def _rows(self) -> list[tuple[Any, ...]]:
        """Returns all rows of the result as plain tuples, and rewinds the result for the application."""
        factory, self.row_factory = self.row_factory, None
        rows: list[tuple[Any, ...]] = extensions.cursor.fetchall(self)
        self.row_factory = factory
        extensions.cursor.scroll(self, 0, mode="absolute")
        return rows


@functools.lru_cache(maxsize=None)
def _recording(factory: type) -> type:
    """Returns a class of cursors that notes its statements."""
    bases = (_Recording,) if factory is extensions.cursor else (_Recording, factory)
    return type(f"Recording{factory.__name__}", bases, {})


def _ending(name: str) -> Any:
    """Returns a method of connections that ends a transaction without committing it, as far as the client can see. (The
    server reports how an update ended.)"""
    plain = getattr(extensions.connection, name)

    @functools.wraps(plain)
    def method(connection: RecordingConnection, *args: Any, **named: Any) -> Any:
        done = plain(connection, *args, **named)
        connection._keep(Outcome.ABORTED)
        return done

    return method


class RecordingConnection(extensions.connection):  # type: ignore[misc]
    """A connection whose transactions are recorded."""

    recorder: Any
    label: str

    def _open(self, recorder: Connector, label: str) -> None:
        self.recorder, self.label = recorder, label
        self._noted: list[Noted] = []
        self._faults: list[str] = []
        self._savepoints: list[tuple[str, int]] = []
        self._asked: Optional[Ended] = None
        self._is_recorded = recorder.database == self._query(DATABASE)
        super().rollback()
        self._life = recorder.life()

    def cursor(self, name: Optional[str] = None, cursor_factory: Optional[type] = None, **named: Any) -> Any:
        """Returns a cursor of the requested class that notes its statements."""
        if name is not None:
            raise RecordingError(f"the cursor {name} is one of the server, which cannot be recorded: give it no name")
        factory = _recording(cursor_factory or self.cursor_factory or extensions.cursor)
        return super().cursor(cursor_factory=factory, **named)

    # ---- called by cursors

    def _is_about_to_run(self, query: Any) -> None:
        """Asks for the transaction's number before a statement that ends it."""
        if isinstance(query, Composable):
            query = query.as_string(self)
        text = query.decode(errors="replace") if isinstance(query, bytes) else query
        if text.strip().lower().startswith(("commit", "end", "prepare")):
            self._ask()

    def _has_run(self, cursor: Any) -> dict[str, set[str]]:
        """Notes the rows of a result. Returns the items of each table in it."""
        seen = self._note(cursor) if cursor.description else {}
        word = cursor.statusmessage
        if self.get_transaction_status() == extensions.TRANSACTION_STATUS_IDLE:
            self._keep(Outcome.ABORTED if word == "ROLLBACK" else Outcome.COMMITTED)
        elif word in ("SAVEPOINT", "ROLLBACK", "COMMIT"):
            name = cursor.query.decode(errors="replace").lower().strip().rstrip(";").split()[-1]
            if word == "COMMIT" or name == "chain":
                self._keep(Outcome.COMMITTED if word == "COMMIT" else Outcome.ABORTED)
            else:
                self._note_savepoint(word, name)
        return seen

    def _note(self, cursor: Any) -> dict[str, set[str]]:
        word = cursor.statusmessage.split(" ")[0]
        places = self.recorder.places(cursor.description) if self._is_recorded else []
        seen: dict[str, set[str]] = {}
        if not places or cursor.rowcount < 1:
            return seen
        for row in cursor._rows():
            for place in places:
                if row[place.xmin] is None:
                    continue  # (the other side of an outer join)
                try:
                    operation = _operation(place, row, word)
                except RecordingError as error:
                    self._faults.append(str(error))
                    continue
                seen.setdefault(place.table.name, set()).add(operation.item)
                self._noted.append(Row(place.table, operation))
        return seen

    def _note_savepoint(self, word: str, name: str) -> None:
        """Notes a savepoint, or removes the deletions that ROLLBACK TO undoes. (Other writes have versions, whose status
        the server reports.)"""
        places = [place for other, place in self._savepoints if other == name]
        if word == "SAVEPOINT":
            self._savepoints.append((name, len(self._noted)))
        elif places:
            self._noted[places[-1] :] = [noted for noted in self._noted[places[-1] :] if not deletes(noted)]
        elif any(map(deletes, self._noted)):
            self._faults.append(f"it is unknown which deletions ROLLBACK TO {name} undid")

    def _covers(self, table: str, seen: set[str], keys: Optional[Iterable[Any]]) -> None:
        known = self.recorder.table(table)
        asked = None
        if keys is not None:
            asked = frozenset(known.item(key if isinstance(key, tuple) else (key,)) for key in keys)
        self._noted.append(Rest(known, frozenset(seen), asked))

    # ---- the end of a transaction

    def _query(self, statement: str) -> tuple[Any, ...]:
        with super().cursor(cursor_factory=extensions.cursor) as cursor:
            cursor.execute(statement)
            row: tuple[Any, ...] = cursor.fetchone()
            return row

    def _ended(self, statement: str) -> Ended:
        """Returns the current transaction, whose outcome is not known yet."""
        xid, level, began, ended, lasts = self._query(statement)
        name = self.recorder.next_name(self.label)
        number = int(xid) if xid else None
        noted, faults = tuple(self._noted), tuple(self._faults)
        return Ended(name, noted, number, level, began, ended, Outcome.ABORTED, self._life, lasts, faults)

    def _ask(self) -> None:
        if (self._noted or self._faults) and self.get_transaction_status() == extensions.TRANSACTION_STATUS_INTRANS:
            self._asked = self._ended(ABOUT_TO_END)
            self.recorder.about_to_end(self._asked)

    def _keep(self, outcome: Outcome) -> None:
        """Hands over the transaction that has ended."""
        ended, self._asked = self._asked, None
        if ended is None and outcome is Outcome.COMMITTED and (self._noted or self._faults):
            # (a statement that was a transaction by itself)
            ended = self._ended(HAS_ENDED)
            if self.get_transaction_status() != extensions.TRANSACTION_STATUS_IDLE:
                super().rollback()
            self.recorder.about_to_end(ended)
        elif ended is None and self._noted:
            ended = Ended(self.recorder.next_name(self.label), tuple(self._noted), life=self._life)
        self._noted, self._faults, self._savepoints = [], [], []
        if ended is not None:
            self.recorder.keep(ended._replace(outcome=outcome))

    def commit(self) -> None:
        try:
            self._ask()
            super().commit()
        except BaseException:
            # (the server reports at the end how an update ended; a report without an acknowledged commit is left out)
            self._keep(Outcome.ABORTED)
            raise
        self._keep(Outcome.COMMITTED if self._asked else Outcome.ABORTED)

    rollback = _ending("rollback")
    close = _ending("close")
    reset = _ending("reset")
    set_isolation_level = _ending("set_isolation_level")
    set_client_encoding = _ending("set_client_encoding")
    tpc_prepare = _ending("tpc_prepare")
    tpc_commit = _ending("tpc_commit")
    tpc_rollback = _ending("tpc_rollback")


def _operation(place: Place, row: Sequence[Any], word: str) -> Operation:
    """Returns the operation of a row of a result."""
    item = place.table.item([row[part] for part in place.key])
    if word == "DELETE":
        return Operation(Action.WRITE, item, None, None)
    value = place.table.whole(item, row[place.value])
    return Operation(Action.WRITE if word in ("UPDATE", "INSERT") else Action.READ, item, value, str(row[place.xmin]))


def deletes(noted: Noted) -> bool:
    return isinstance(noted, Row) and noted.operation.action is Action.WRITE and noted.operation.version is None


class Connector:
    """Makes connections whose transactions are recorded. A recorder is one, with methods that take what they noted."""

    connection_class: type = RecordingConnection
    database: tuple[Any, ...]

    def __init__(self, dsn: str) -> None:
        self._dsn = dsn
        self._lock = threading.Lock()
        self._connections = 0
        self._counts: dict[str, int] = {}

    def life(self) -> int:
        """Returns the number of the server's current life, from 1."""
        return 1

    def connect(self, label: Optional[str] = None) -> RecordingConnection:
        """Returns a connection to the recorder's database. The names of its transactions are the label (`c1`, `c2` ..
        by default) and a number."""
        return self._connected(label, psycopg2.connect, self._dsn)

    def _connected(self, label: Optional[str], connect: Any, dsn: Optional[str], **named: Any) -> RecordingConnection:
        with self._lock:
            self._connections += 1
            label = label or f"c{self._connections}"
        connection: RecordingConnection = connect(dsn, connection_factory=self.connection_class, **named)
        connection._open(self, label)
        return connection

    @contextlib.contextmanager
    def in_place_of_psycopg2(self) -> Iterator[None]:
        """Makes every connection of psycopg2.connect one of this recorder. Transactions of other databases are not
        recorded."""
        plain = psycopg2.connect

        def connect(
            dsn: Optional[str] = None, connection_factory: Any = None, cursor_factory: Any = None, **named: Any
        ) -> RecordingConnection:
            if connection_factory is not None:
                raise RecordingError("a connection with its own connection_factory cannot be recorded")
            return self._connected(None, plain, dsn, cursor_factory=cursor_factory, **named)

        psycopg2.connect = connect
        try:
            yield
        finally:
            psycopg2.connect = plain

    def next_name(self, label: str) -> str:
        """Returns the name of the next transaction of a connection."""
        with self._lock:
            count = self._counts[label] = self._counts.get(label, 0) + 1
            return f"{label}_{count}"
