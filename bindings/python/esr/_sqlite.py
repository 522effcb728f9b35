"""A store in an SQLite file, in write-ahead mode.

With `synchronous="FULL"` a commit returns once the log is on the disk. With `"NORMAL"` it survives the process, but a loss of
power may lose the last seconds: whole updates, from the end.

After a failed COMMIT its frames may remain in the log, and a recovery after a crash might apply them. So `resolve` empties the
log, or writes another commit over them, before it reads the number of the last write.
"""

import contextlib
import fcntl
import os
import sqlite3
from typing import Dict, List, Mapping, Optional, Union

from ._checks import seconds
from ._errors import NotWritten, OutOfRange, StoreInUse, StoreUnfit
from ._store import Change

TABLES = """
create table if not exists esr_items (name text primary key, value integer not null) without rowid;
create table if not exists esr_bank (
    one integer primary key check (one = 1), epoch integer not null, last integer not null, fence integer not null);
insert or ignore into esr_bank values (1, 0, 0, 0);
"""


class SQLiteStore:
    """Keeps the values of a bank in the tables `esr_items` and `esr_bank` of an SQLite file. `timeout` is how many seconds it
    waits for another program's lock on the file.

    >>> import os, tempfile
    >>> from esr import Bank, SQLiteStore
    >>> path = os.path.join(tempfile.mkdtemp(), "shop.db")
    >>> with Bank({"pens": 40}, store=SQLiteStore(path)) as bank:
    ...     bank.transact(0, lambda update: update.add("pens", -1))
    39
    >>> with Bank({"pens": 40}, store=SQLiteStore(path)) as bank:
    ...     bank["pens"]
    39
    """

    def __init__(
        self, path: Union[str, "os.PathLike[str]"], *, synchronous: str = "FULL", timeout: float = 5.0
    ) -> None:
        if synchronous not in ("NORMAL", "FULL", "EXTRA"):
            raise OutOfRange(f"synchronous is {synchronous!r}, and must be NORMAL, FULL or EXTRA")
        self.path, self.synchronous = os.fspath(path), synchronous
        self.timeout = seconds("timeout", timeout)
        self._connection: Optional[sqlite3.Connection] = None
        self._lock: Optional[int] = None
        self._epoch = 0

    def open(self, items: Mapping[str, int]) -> Dict[str, int]:
        """Opens the file: see `Store.open`. A lock on a second file, `PATH.lock`, gives an early message if another bank has it
        open; the epoch excludes the other bank's writes in any case."""
        if self.path in ("", ":memory:"):
            raise StoreUnfit("a store needs the path of a file")
        try:
            self._lock = os.open(self.path + ".lock", os.O_RDWR | os.O_CREAT | os.O_CLOEXEC, 0o644)
            fcntl.flock(self._lock, fcntl.LOCK_EX | fcntl.LOCK_NB)
        except BlockingIOError:
            self.close()
            raise StoreInUse(f"{self.path} is open in another bank") from None
        except OSError as why:
            self.close()
            raise StoreUnfit(f"{self.path}: {why}") from why
        try:
            return self._open_file(items)
        except sqlite3.Error as why:
            self.close()
            raise StoreUnfit(f"{self.path}: {why}") from why
        except BaseException:
            self.close()
            raise

    def _open_file(self, items: Mapping[str, int]) -> Dict[str, int]:
        connection = self._connect()
        connection.executescript(TABLES)
        connection.execute("begin immediate")
        connection.executemany("insert or ignore into esr_items values (?, ?)", items.items())
        connection.execute("update esr_bank set epoch = epoch + 1, last = 0")
        self._epoch = connection.execute("select epoch from esr_bank").fetchone()[0]
        values = dict(connection.execute("select name, value from esr_items"))
        for name, value in values.items():
            if not isinstance(name, str) or not isinstance(value, int):
                raise StoreUnfit(f"{self.path}: item {name!r} has the value {value!r}, and must have an integer")
        connection.execute("commit")
        # The file gets all its pages now, so a log on a full disk can always be emptied into it.
        connection.execute("pragma wal_checkpoint(truncate)").fetchone()
        return values

    def _connect(self) -> sqlite3.Connection:
        timeout = min(self.timeout, 10**6)  # SQLite counts milliseconds in 32 bits
        connection = sqlite3.connect(self.path, timeout, isolation_level=None, check_same_thread=False)
        self._connection = connection
        connection.execute("pragma journal_mode = wal").fetchone()
        connection.execute(f"pragma synchronous = {self.synchronous}")
        return connection

    def _drop(self) -> None:
        """Closes the connection in any state, and discards what it has not committed. It is rolled back first: if a traceback
        still holds a cursor, a closed connection keeps its lock on the file."""
        connection, self._connection = self._connection, None
        if connection is not None:
            for end in (connection.rollback, connection.close):
                with contextlib.suppress(sqlite3.Error):
                    end()

    def write(self, number: int, changes: List[Change]) -> None:
        """Writes changes: see `Store.write`."""
        try:
            connection = self._connection or self._connect()
            self._prepare(connection, number, changes)
        except BaseException as why:  # no COMMIT was made
            self._drop()
            if isinstance(why, sqlite3.Error):
                raise NotWritten(f"{self.path}: {why}", isinstance(why, sqlite3.IntegrityError)) from why
            raise
        try:
            connection.execute("commit")
        except BaseException:
            self._drop()
            raise

    def _prepare(self, connection: sqlite3.Connection, number: int, changes: List[Change]) -> None:
        """Executes all of a write but its COMMIT."""
        connection.execute("begin immediate")
        cursor = connection.executemany(
            "update esr_items set value = ? where name = ? and value = ?",
            [(change.new, change.name, change.old) for change in changes],
        )
        is_as_left = cursor.rowcount == len(changes)
        cursor = connection.execute("update esr_bank set last = ? where epoch = ?", (number, self._epoch))
        if cursor.rowcount != 1:
            raise self._superseded()
        if not is_as_left:
            connection.rollback()
            found = dict(connection.execute("select name, value from esr_items"))
            foreign = [change for change in changes if found.get(change.name) != change.old]
            said = ", ".join(f"{one.name} is {found.get(one.name)} and was {one.old}" for one in foreign)
            raise NotWritten(f"{self.path}: another program wrote to the store: {said}", is_final=True)

    def _superseded(self) -> NotWritten:
        return NotWritten(f"{self.path} has been opened by another bank", is_final=True)

    def resolve(self, number: int) -> bool:
        """Looks up a write: see `Store.resolve`."""
        self._drop()
        connection = self._connect()
        try:
            self._bury(connection)
            epoch, last = connection.execute("select epoch, last from esr_bank").fetchone()
        except BaseException:
            self._drop()
            raise
        if epoch != self._epoch:
            raise self._superseded()
        return bool(last >= number)

    @staticmethod
    def _bury(connection: sqlite3.Connection) -> None:
        """Makes the state permanent that this connection reads: empties the log, or commits over the frames of a failed
        COMMIT that it may contain."""
        try:
            if not connection.execute("pragma wal_checkpoint(truncate)").fetchone()[0]:
                return
        except sqlite3.Error:
            pass
        connection.execute("update esr_bank set fence = fence + 1")

    def close(self) -> None:
        """Closes the file and releases the lock."""
        self._drop()
        if self._lock is not None:
            os.close(self._lock)
            self._lock = None
