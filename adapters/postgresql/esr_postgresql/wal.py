"""Row versions from the write-ahead log, by logical decoding with `test_decoding`.

The idea: the log has every committed write of every writer, in the order of the commits, whatever sent it: any language,
triggers, COPY, ON CONFLICT, prepared transactions. A replication connection creates a *temporary* slot, which the server
drops when that connection ends, also after SIGKILL, and exports the snapshot of the slot's starting point. The rows in
that snapshot are the opening values, and the stream has exactly the commits after it. (A table that TRUNCATE or ALTER TABLE
gave a new file between the snapshot and its first read would appear empty, against the snapshot. Then another slot is made.)

The invariant: after `catch_up` each commit that a snapshot taken before the call can see has been returned. (A marker is
committed, and the stream is read up to it. A transaction becomes visible only after its commit record is written.)

Rejected: polling `pg_logical_slot_get_changes`, which decodes the log from the slot's restart point at every call; and a
permanent slot, which keeps the log of a server forever if its reader does not return.
"""

from __future__ import annotations

import os
import select
import time
from typing import Any, Iterator, Sequence

from .decoding import PREFIX, Commit, Decoder, Snapshot
from .tables import RecordingError, Rows, Table, known_table, rows_of

import psycopg2  # isort: skip (`connections` reports how to install it)
from psycopg2.extras import LogicalReplicationConnection  # isort: skip

PATIENCE = 60.0  # seconds to wait for the marker
TRIES = 5  # slots, until no table is replaced while its opening rows are read


def _names(cursor: Any, tables: Sequence[Table]) -> tuple[dict[str, Table], list[int]]:
    """Returns the tables and their partitions by the names that `test_decoding` prints, and their numbers. Checks that the
    log has the key of a deleted row."""
    found, oids = {}, []
    for table in tables:
        oid = known_table(cursor, table).oid
        cursor.execute(
            "select c.oid, quote_ident(n.nspname) || '.' || quote_ident(c.relname), c.relreplident,"
            " array(select a.attname::text from pg_index i join pg_attribute a on a.attrelid = c.oid"
            "  and a.attnum = any(i.indkey) where i.indrelid = c.oid"
            "  and case c.relreplident when 'd' then i.indisprimary when 'i' then i.indisreplident else false end)"
            " from pg_class c join pg_namespace n on n.oid = c.relnamespace"
            " where c.relkind = 'r' and c.oid in (select %s union select relid from pg_partition_tree(%s))",
            (oid, oid),
        )
        for number, name, identity, columns in cursor.fetchall():
            if identity != "f" and not set(table.key) <= set(columns):
                raise RecordingError(
                    f"the log of {name} has no key of deleted rows: give it a primary key of {', '.join(table.key)}, or"
                    f" ALTER TABLE {name} REPLICA IDENTITY FULL"
                )
            found[name] = table
            oids.append(number)
    return found, oids


def _check(cursor: Any) -> str:
    cursor.execute("select current_setting('wal_level'), current_setting('server_version')")
    level, version = cursor.fetchone()
    if level != "logical":
        raise RecordingError("the server's log has no rows: ALTER SYSTEM SET wal_level = logical, and restart it")
    return f"PostgreSQL {version}"


class Log:
    """A stream of commits from the log, with the opening rows. Ends with the object, or when the server ends it."""

    def __init__(self, dsn: str, tables: Sequence[Table]) -> None:
        self._stream = psycopg2.connect(dsn, connection_factory=LogicalReplicationConnection)
        self._plain = psycopg2.connect(dsn)
        try:
            self._open(tables)
        except BaseException:
            self.close()
            raise

    def _open(self, tables: Sequence[Table]) -> None:
        with self._plain.cursor() as cursor:
            self.system = _check(cursor)
            names, oids = _names(cursor, tables)
        self._plain.rollback()
        self._cursor = self._stream.cursor()
        slot = self._opened(tables, oids)
        self._plain.autocommit = True
        self._decoder = Decoder(names, self.snapshot.xmax)
        options = {"include-timestamp": "1", "skip-empty-xacts": "1", "include-rewrites": "1"}
        self._cursor.start_replication(slot_name=slot, decode=True, options=options, status_interval=5)
        self._marks = 0

    def _opened(self, tables: Sequence[Table], oids: list[int]) -> str:
        """Makes a slot and reads the opening rows at its snapshot. Returns the name of the slot."""
        for _ in range(TRIES):
            slot = f"esr_watch_{os.getpid()}_{time.monotonic_ns()}"
            self._cursor.execute(f"CREATE_REPLICATION_SLOT {slot} TEMPORARY LOGICAL test_decoding EXPORT_SNAPSHOT")
            exported = self._cursor.fetchone()[2]
            self.faults: dict[str, str] = {}
            with self._plain.cursor() as cursor:
                cursor.execute("begin isolation level repeatable read read only")
                cursor.execute("set transaction snapshot %s", (exported,))
                cursor.execute("select pg_current_snapshot()::text")
                self.snapshot = Snapshot.parse(cursor.fetchone()[0])
                self.opening: Rows = rows_of(cursor, tables, self.faults)
                # (the file of a table at the snapshot, and now; its rows are locked against a replacement since the read)
                replaced = "select count(*) from pg_class where oid = any(%s) and relfilenode <> pg_relation_filenode(oid)"
                cursor.execute(replaced, (oids,))
                is_good = cursor.fetchone()[0] == 0
            self._plain.rollback()
            if is_good:
                return slot
            self._cursor.drop_replication_slot(slot)
        raise RecordingError("the tables are replaced by TRUNCATE or ALTER TABLE whenever their opening rows are read")

    def close(self) -> None:
        for connection in (self._stream, self._plain):
            connection.close()

    def read(self, seconds: float) -> Iterator[Commit]:
        """Yields commits until the stream has no more for now, waiting for the first one up to some seconds."""
        until = time.monotonic() + seconds
        while True:
            message = self._cursor.read_message()
            if message is None:
                left = until - time.monotonic()
                if left <= 0 or not select.select([self._stream], [], [], left)[0]:
                    return
                until = 0.0
                continue
            commit = self._decoder.feed(message.payload)
            message.cursor.send_feedback(flush_lsn=message.data_start)
            if commit is not None:
                yield commit

    def catch_up(self) -> Iterator[Commit]:
        """Yields the commits up to now."""
        self._marks += 1
        mark = f"{os.getpid()}.{self._marks}"
        with self._plain.cursor() as cursor:
            cursor.execute("select pg_logical_emit_message(true, %s, %s)", (PREFIX, mark))
        until = time.monotonic() + PATIENCE
        while mark not in self._decoder.markers:
            yield from self.read(0.2)
            if time.monotonic() > until:
                raise RecordingError(f"the log did not arrive within {PATIENCE:.0f} s")
        self._decoder.markers.discard(mark)

