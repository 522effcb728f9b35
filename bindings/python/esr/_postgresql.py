"""A store in a table of a PostgreSQL database, through psycopg2.

The rows of a table of the user's are the items: the text of the key is the name. A table `esr_bank` has a row for each table
that is a store.

A COMMIT that was sent and not answered may still take effect. So `resolve` ends the old backend, identified by its process id
and start time, and reads the number of the last write `for update`, which waits for the old transaction's row lock.
"""

import contextlib
import time
from typing import Any, Dict, List, Mapping

import psycopg2

from ._checks import seconds, text
from ._errors import NotWritten, StoreInUse, StoreUnfit
from ._store import Change, one_line

BANKS = "create table if not exists esr_bank (store text primary key, epoch bigint not null, last bigint not null)"
BACKEND = "select pid, backend_start from pg_stat_activity where pid = pg_backend_pid()"
INTEGERS = "smallint", "integer", "bigint"


class PostgreSQLStore:
    """Keeps the values of a bank in a table of PostgreSQL, with a column for the names and one for the values, a `bigint`.
    `dsn` is a connection string of libpq. The default table is created if it does not exist; any other one must.

    `patience` is how many seconds it waits for another program's lock, or for the server to notice that an earlier bank has
    died.

    >>> from esr import PostgreSQLStore
    >>> PostgreSQLStore("dbname=shop", table="articles", key="id", value="stock").table
    'articles'
    """

    def __init__(
        self, dsn: str, table: str = "esr_items", key: str = "name", value: str = "value", *, patience: float = 5.0
    ) -> None:
        self.dsn, self.table = text("dsn", dsn), text("table", table)
        self.patience = seconds("patience", patience)
        self.key, self.value = text("key", key), text("value", value)
        self._table = ".".join(_quoted(part) for part in table.split("."))
        self._key, self._value = _quoted(key), _quoted(value)
        self._connection: Any = None
        self._guard: Any = None
        self._backend: Any = None
        self._unanswered: List[Any] = []
        """The backends whose COMMIT was not answered."""
        self._epoch = 0
        self._type = "text"

    def open(self, items: Mapping[str, int]) -> Dict[str, int]:
        """Opens the table: see `Store.open`. An advisory lock gives an early message if another bank has it open; the epoch
        excludes the other bank's writes in any case."""
        try:
            self._take_guard()
            connection = self._connect()
            with connection.cursor() as cursor:
                cursor.execute("BEGIN")
                self._create(cursor, items)
                # A share lock waits for every transaction that is writing.
                cursor.execute(f"lock table {self._table} in share row exclusive mode")
                cursor.execute(f"select {self._key}::text, {self._value} from {self._table} order by 1")
                values = dict(cursor.fetchall())
                cursor.execute("COMMIT")
        except psycopg2.Error as why:
            self.close()
            raise StoreUnfit(f"{self.table}: {one_line(why)}") from why
        except BaseException:
            self.close()
            raise
        for name, value in values.items():
            if name is None or value is None:
                self.close()
                raise StoreUnfit(f"{self.table}: item {name!r} has the value {value!r}, and must have an integer")
        return values

    def _take_guard(self) -> None:
        self._guard = psycopg2.connect(self.dsn)
        self._guard.autocommit = True
        until = time.monotonic() + self.patience
        with self._guard.cursor() as cursor:
            while True:
                cursor.execute("select pg_try_advisory_lock(hashtext('esr_bank'), hashtext(%s))", (self.table,))
                row = cursor.fetchone()
                if row and row[0]:
                    return
                if time.monotonic() >= until:
                    raise StoreInUse(f"{self.table} is open in another bank")
                time.sleep(0.02)

    def _create(self, cursor: Any, items: Mapping[str, int]) -> None:
        """Creates what is missing: the tables, the items and the bank's row, whose epoch it increases."""
        if self.table == "esr_items":
            cursor.execute(
                f"create table if not exists esr_items ({self._key} text primary key, {self._value} bigint not null)"
            )
        cursor.execute(BANKS)
        cursor.execute(
            "select attname, atttypid::regtype::text from pg_attribute where attrelid = to_regclass(%s)"
            " and attname in (%s, %s) and not attisdropped",
            (self._table, self.key, self.value),
        )
        types = dict(cursor.fetchall())
        if self.key not in types:
            raise StoreUnfit(f"{self.table} has no column {self.key}, or there is no such table")
        if types.get(self.value) not in INTEGERS:
            raise StoreUnfit(f"{self.table}.{self.value} has the type {types.get(self.value)}, and must be bigint")
        self._type = types[self.key]
        for name, value in items.items():
            cursor.execute(
                f"insert into {self._table} ({self._key}, {self._value}) values (%s::{self._type}, %s) on conflict do nothing",
                (name, value),
            )
        cursor.execute("insert into esr_bank values (%s, 0, 0) on conflict do nothing", (self.table,))
        cursor.execute("update esr_bank set epoch = epoch + 1, last = 0 where store = %s returning epoch", (self.table,))
        self._epoch = cursor.fetchone()[0]

    def _connect(self) -> Any:
        self._connection = connection = psycopg2.connect(self.dsn)
        connection.autocommit = True  # BEGIN and COMMIT are sent here
        with connection.cursor() as cursor:
            cursor.execute("select current_setting('synchronous_commit')")
            row = cursor.fetchone()
            if row and row[0] == "off":
                cursor.execute("set synchronous_commit = on")  # a commit has to survive a crash of the server
            cursor.execute(f"set lock_timeout = '{int(min(self.patience, 10**6) * 1000)}ms'")
            cursor.execute(BACKEND)
            self._backend = cursor.fetchone()
        return connection

    def _drop(self) -> None:
        connection, self._connection = self._connection, None
        if connection is not None:
            with contextlib.suppress(psycopg2.Error):
                connection.close()

    def write(self, number: int, changes: List[Change]) -> None:
        """Writes changes: see `Store.write`."""
        try:
            connection = self._connection or self._connect()
            self._prepare(connection, number, changes)
        except BaseException as why:  # no COMMIT was sent
            self._undo()
            if isinstance(why, psycopg2.Error):
                is_final = isinstance(why, (psycopg2.IntegrityError, psycopg2.DataError))
                raise NotWritten(f"{self.table}: {one_line(why)}", is_final) from why
            raise
        with connection.cursor() as cursor:
            cursor.execute("COMMIT")
            if cursor.statusmessage != "COMMIT":  # the reply to the COMMIT of a failed transaction is ROLLBACK
                raise psycopg2.InternalError(f"the reply to COMMIT was {cursor.statusmessage}")

    def _prepare(self, connection: Any, number: int, changes: List[Change]) -> None:
        """Sends all of a write but its COMMIT, in one message. It locks the bank's row, which excludes the next bank and shows
        that there was none."""
        with connection.cursor() as cursor:
            values = ",".join(
                cursor.mogrify(f"(%s::{self._type},%s::bigint,%s::bigint)", change).decode() for change in changes
            )
            bank = cursor.mogrify("store = %s and epoch = %s", (self.table, self._epoch)).decode()
            cursor.execute(
                f"BEGIN ISOLATION LEVEL READ COMMITTED; update esr_bank set last = {number:d} where {bank};"
                f"update {self._table} as item set {self._value} = change.new"
                f" from (values {values}) as change (name, old, new), esr_bank"
                f" where item.{self._key} = change.name and item.{self._value} = change.old and {bank}"
            )
            if cursor.rowcount == len(changes):
                return
            cursor.execute("select epoch from esr_bank where store = %s", (self.table,))
            if cursor.fetchone() != (self._epoch,):
                raise self._superseded()
            items = ", ".join(change.name for change in changes)
            raise NotWritten(f"{self.table}: another program wrote to the store: to one of {items}", is_final=True)

    def _superseded(self) -> NotWritten:
        return NotWritten(f"{self.table} has been opened by another bank", is_final=True)

    def _undo(self) -> None:
        try:
            with self._connection.cursor() as cursor:
                cursor.execute("ROLLBACK")
        except (psycopg2.Error, AttributeError):
            self._drop()

    def resolve(self, number: int) -> bool:
        """Looks up a write: see `Store.resolve`."""
        if self._backend is not None and self._backend not in self._unanswered:
            self._unanswered.append(self._backend)
        self._drop()
        connection = self._connect()
        with connection.cursor() as cursor:
            for backend in self._unanswered:  # idle at the server, or still at its COMMIT
                cursor.execute(
                    "select pg_terminate_backend(pid) from pg_stat_activity where pid = %s and backend_start = %s", backend
                )
            cursor.execute("select epoch, last from esr_bank where store = %s for update", (self.table,))
            epoch, last = cursor.fetchone()
        self._unanswered = []
        if epoch != self._epoch:
            raise self._superseded()
        return bool(last >= number)

    def close(self) -> None:
        """Closes the connections."""
        self._drop()
        guard, self._guard = self._guard, None
        if guard is not None:
            with contextlib.suppress(psycopg2.Error):
                guard.close()


def _quoted(name: str) -> str:
    """Returns an identifier of SQL, as the catalog has it."""
    if "%" in name or "\0" in name:
        raise StoreUnfit(f"the identifier {name!r} contains a character that psycopg2 does not pass on")
    return '"' + name.replace('"', '""') + '"'
