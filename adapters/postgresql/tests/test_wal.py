"""The log on a server: its opening rows, and commands that give a table a new file, which older snapshots see as empty."""

import contextlib
import os
import tempfile
import unittest
from unittest import mock

DSN = os.environ.get("ESR_POSTGRES_DSN")

if DSN is not None:
    import psycopg2

    from esr_postgresql import wal
    from esr_postgresql.reports import ReportRecorder

from esr_postgresql.tables import RecordingError, Table, rows_of  # noqa: E402
from esr_postgresql.versions_at import Versions  # noqa: E402
from esr_postgresql.window import load_line, report_of  # noqa: E402

T, U, P = Table("t", ("id",), "v", 2), Table("u", ("id",), "v"), Table("p", ("id",), "v")
TABLES = """
drop table if exists t, u, p;
create table t(id int primary key, v numeric(9,2));
create table u(id int primary key, v int);
create table p(id int primary key, v int) partition by range (id);
create table p_1 partition of p for values from (0) to (10);
create table p_2 partition of p for values from (10) to (20);
insert into t values (1, 5), (2, 7);
insert into u values (1, 12);
insert into p values (1, 1), (11, 2);
"""
TRUNCATE = "truncate t; insert into t values (1, 3), (4, 4)"
REWRITE = "alter table t alter v type numeric(11,2) using v * 2"


@unittest.skipIf(DSN is None, "no server: ESR_POSTGRES_DSN is not set")
class LogOfServer(unittest.TestCase):
    def setUp(self):
        plain = psycopg2.connect(DSN)
        plain.autocommit = True
        self.addCleanup(plain.close)
        self.plain = plain.cursor()
        self.plain.execute(TABLES)
        self.log = self.versions = None

    def watch(self, *tables):
        self.log = wal.Log(DSN, tables)
        self.addCleanup(self.log.close)
        self.versions = Versions(tables, self.log.opening, self.log.snapshot)

    def rows(self):
        for commit in self.log.catch_up():
            self.versions.add(commit)
        return {item: value for item, value in self.versions.now.items() if value is not None}

    def test_a_table_that_is_replaced_while_its_opening_rows_are_read(self):
        for command, expected in ((TRUNCATE, {"t/1": 300, "t/4": 400}), (REWRITE, {"t/1": 600, "t/4": 800})):
            calls = []

            def replaced_then_read(*words):
                if not calls:
                    self.plain.execute(command)
                calls.append(words)
                return rows_of(*words)

            with self.subTest(command), mock.patch.object(wal, "rows_of", replaced_then_read):
                self.watch(T)
                self.assertEqual(len(calls), 2)
                self.assertEqual({item: value for item, (_, value, _) in self.log.opening.items()}, expected)
                self.assertEqual(self.rows(), expected)
                self.plain.execute("select count(*) from pg_replication_slots")
                self.assertEqual(self.plain.fetchone(), (1,))
                self.log.close()

    def test_tables_that_are_always_replaced(self):
        def replaced_then_read(*words):
            self.plain.execute(TRUNCATE)
            return rows_of(*words)

        with mock.patch.object(wal, "rows_of", replaced_then_read):
            with self.assertRaisesRegex(RecordingError, "replaced by TRUNCATE or ALTER TABLE whenever"):
                self.watch(T)

    def test_rows_after_truncate_and_alter_table(self):
        self.watch(T, P)
        self.plain.execute("insert into t values (9, 9); update t set v = 1 where id = 2; " + TRUNCATE)
        self.assertEqual(self.rows(), {"t/1": 300, "t/4": 400, "p/1": 1, "p/11": 2})
        self.plain.execute(REWRITE)
        self.assertEqual(self.rows(), {"t/1": 600, "t/4": 800, "p/1": 1, "p/11": 2})
        self.plain.execute("truncate p")
        self.assertEqual(self.rows(), {"t/1": 600, "t/4": 800})
        self.plain.execute("insert into p values (2, 2), (12, 2); truncate p_1")
        self.rows()
        self.assertEqual(self.versions.commits[-1].faults, ["p: some of its partitions were truncated"])

    def report(self, level, command, *statements):
        """Returns the line of a report that takes its snapshot, and runs its statements after a command has committed."""
        with tempfile.NamedTemporaryFile() as file:
            recorder = ReportRecorder(DSN, [T, U], file.name)
            with contextlib.closing(recorder), contextlib.closing(recorder.connect("r")) as connection:
                connection.set_session(isolation_level=level)
                cursor = connection.cursor()
                cursor.execute("select sum(v), pg_current_snapshot() from u")
                self.plain.execute(command)
                for statement in statements:
                    cursor.execute(statement)
                connection.commit()
            self.rows()
            return load_line(file.read().decode())

    def test_a_report_that_reads_a_table_after_it_was_replaced(self):
        self.watch(T, U)
        for command, word in ((TRUNCATE, "TRUNCATE"), (REWRITE, "ALTER TABLE")):
            for statement in (
                "select sum(v), count(*), pg_current_snapshot() from t",
                "select id, v, pg_current_snapshot() from t",
                "select id, v, pg_current_snapshot() from t where id = 1",
                "select u.id, u.v, t.id, t.v, pg_current_snapshot() from u left join t on t.id = u.id",
            ):
                with self.subTest(command, statement=statement):
                    found = self.report("repeatable read", command, statement)
                    xid = self.versions.commits[-1].xid
                    said = f"it read t without rows of its snapshot: x{xid} replaced the table by {word} after"
                    with self.assertRaisesRegex(RecordingError, said):
                        report_of(found, self.versions)
                    # (each statement has its own snapshot, taken after the lock)
                    report_of(self.report("read committed", command, statement), self.versions)

    def test_a_report_that_holds_the_table(self):
        self.watch(T, U)
        self.plain.execute("set lock_timeout = '50ms'")
        sums = "select sum(v), count(*), pg_current_snapshot() from t"
        with tempfile.NamedTemporaryFile() as file:
            recorder = ReportRecorder(DSN, [T, U], file.name)
            with contextlib.closing(recorder), contextlib.closing(recorder.connect("r")) as connection:
                connection.set_session(isolation_level="repeatable read")
                connection.cursor().execute(sums)
                with self.assertRaises(psycopg2.errors.LockNotAvailable):
                    self.plain.execute(TRUNCATE)
                connection.cursor().execute(sums)
                connection.commit()
                self.plain.execute(TRUNCATE)
            self.rows()
            report_of(load_line(file.read().decode()), self.versions)
