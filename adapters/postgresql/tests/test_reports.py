"""Reports that return `pg_current_snapshot()`, on a server: the notes of each form of statement."""

import json
import os
import tempfile
import threading
import unittest

DSN = os.environ.get("ESR_POSTGRES_DSN")

if DSN is not None:
    import psycopg2

    from esr_postgresql.reports import ReportRecorder

from esr_postgresql.tables import RecordingError, Table  # noqa: E402


@unittest.skipIf(DSN is None, "no server: ESR_POSTGRES_DSN is not set")
class Reports(unittest.TestCase):
    def setUp(self):
        plain = psycopg2.connect(DSN)
        plain.autocommit = True
        self.addCleanup(plain.close)
        self.plain = plain.cursor()
        self.plain.execute("drop table if exists t, u; create table t(id int primary key, v numeric(9,2), w int)")
        self.plain.execute("create table u(k text, n int, v bigint, primary key (k, n)) partition by list (k)")
        self.plain.execute("create table u_a partition of u for values in ('a')")
        self.plain.execute("create table u_b partition of u for values in ('b')")
        self.plain.execute("insert into t values (1, 10.5, 1), (2, 20, 1); insert into u values ('a', 1, 5), ('b', 2, 6)")
        file = tempfile.NamedTemporaryFile()
        self.addCleanup(file.close)
        self.path = file.name
        tables = [Table("t", ("id",), "v", 2), Table("u", ("k", "n"), "v")]
        self.recorder = ReportRecorder(DSN, tables, self.path)
        self.addCleanup(self.recorder.close)
        self.connection = self.recorder.connect("r")
        self.addCleanup(self.connection.close)

    def noted(self, *statements):
        """Returns the only report that some statements make."""
        cursor = self.connection.cursor()
        for statement in statements:
            cursor.execute(*statement) if isinstance(statement, tuple) else cursor.execute(statement)
        self.connection.commit()
        with open(self.path, encoding="utf-8") as file:
            return json.loads(file.read().splitlines()[-1])

    def read(self, statement):
        """Returns the note of a statement, without the snapshot."""
        (noted,) = self.noted(statement)["statements"]
        self.assertRegex(noted.pop("snapshot"), r"^\d+:\d+:[\d,]*$")
        noted.pop("tables")
        return noted

    def test_rows(self):
        rows = [["t/1", "10.50"], ["t/2", "20.00"]]
        self.assertEqual(self.read("select v, id, pg_current_snapshot() from t order by id"), {"rows": rows, "all": ["t"]})
        self.assertEqual(
            self.read(("select id, v, pg_current_snapshot()::text from t where id = %s", (1,))),
            {"rows": rows[:1], "all": []},
        )
        self.assertEqual(
            self.read("select id, v, pg_current_snapshot() from t order by id limit 2"), {"rows": rows, "all": []}
        )

    def test_joins(self):
        found = self.read(
            "select t.id, t.v, u.k, u.n, u.v, pg_current_snapshot() from t full join u on u.n = t.id + 1 order by t.id"
        )
        expected = [["t/1", "10.50"], ["t/2", "20.00"], ["u/a,1", "5"], ["u/b,2", "6"]]
        self.assertEqual((sorted(found["rows"]), found["all"]), (expected, ["t", "u"]))

    def test_sums_and_counts(self):
        for statement, sums, counts in (
            ("select sum(v), count(*), pg_current_snapshot() from t", {"t": "30.50"}, {"t": "2"}),
            ("select pg_current_snapshot(), count(id) c, sum(x.v) s from t as x", {"t": "30.50"}, {"t": "2"}),
            ("select sum(v), pg_current_snapshot() from u", {"u": "11"}, {}),
            (
                "select (select sum(v) from t), (select count(*) from u), pg_current_snapshot()",
                {"t": "30.50"},
                {"u": "2"},
            ),
            (
                "select a.s, b.s, pg_current_snapshot() from (select sum(v) s from t) a, (select sum(v) s from u) b",
                {"t": "30.50", "u": "11"},
                {},
            ),
        ):
            with self.subTest(statement):
                self.assertEqual(self.read(statement), {"sums": sums, "counts": counts})

    def test_statements_that_are_not_understood_are_named(self):
        for statement in (
            "select sum(v), pg_current_snapshot() from t where w = 1",
            "select sum(v + 1), pg_current_snapshot() from t",
            "select sum(t.v), pg_current_snapshot() from t, u",
            "select w, sum(v), pg_current_snapshot() from t group by w",
            "select avg(v), pg_current_snapshot() from t",
        ):
            with self.subTest(statement):
                self.assertIn("no key and value of a watched table, and no sum or count", self.read(statement)["fault"])

    def test_statements_without_a_snapshot_and_reports_that_write(self):
        report = self.noted("select sum(v) from t", "select sum(v), pg_current_snapshot() from t")
        self.assertEqual((len(report["statements"]), report["level"], "writes" in report), (1, "read committed", False))
        self.assertLessEqual(report["began"], report["ended"])
        report = self.noted("select id, v, pg_current_snapshot() from t", "update t set v = 1 where id = 1")
        self.assertTrue(report["writes"])
        self.noted("select id, v, pg_current_snapshot() from t")
        self.connection.cursor().execute("select id, v, pg_current_snapshot() from t")
        self.connection.rollback()
        self.assertEqual(self.recorder.count, 3)

    def test_tables_that_a_statement_reads(self):
        for statement, tables in (
            ("select sum(v), pg_current_snapshot() from t", ["t"]),
            ("select t.id, t.v, pg_current_snapshot() from t left join u on u.n = t.id where t.id = 1", ["t", "u"]),
        ):
            with self.subTest(statement):
                self.assertEqual(self.noted(statement)["statements"][0]["tables"], tables)

    def test_statements_that_return_no_row(self):
        self.plain.execute("truncate t")
        everything, one = (f"select id, v, pg_current_snapshot() from t{where}" for where in ("", " where id = 1"))
        other = "select sum(v), pg_current_snapshot() from u"
        (statement,) = self.noted(everything)["statements"]
        self.assertEqual(statement["fault"], "a statement over all rows of t returned no row, and so no snapshot")
        self.assertEqual(len(self.noted(other, everything)["statements"]), 2)
        self.assertEqual(len(self.noted(other, one)["statements"]), 1)
        self.connection.set_session(isolation_level="repeatable read")
        first, *rest = self.noted(other, everything, one)["statements"]
        place = {"snapshot": first["snapshot"], "tables": ["t"], "rows": []}
        self.assertEqual(rest, [{**place, "all": ["t"]}, {**place, "all": []}])
        count = self.recorder.count
        self.connection.cursor().execute(one)
        self.connection.commit()
        self.assertEqual(self.recorder.count, count)

    def test_a_statement_whose_table_is_locked_by_a_program_that_waits_for_it(self):
        self.connection.cursor().execute("select id from t")
        waiting = threading.Thread(target=self.plain.execute, args=("truncate t",))
        waiting.start()
        probe = psycopg2.connect(DSN)
        probe.autocommit = True
        self.addCleanup(probe.close)
        cursor = probe.cursor()
        cursor.execute("select 0")
        while cursor.fetchone() == (0,):
            cursor.execute("select count(*) from pg_locks where not granted")
        (statement,) = self.noted("select sum(v), pg_current_snapshot() from t")["statements"]
        waiting.join()
        self.assertIn("EXPLAIN fails: canceling statement due to lock timeout", statement["fault"])
        self.assertNotIn("fault", self.noted("select sum(v), pg_current_snapshot() from t")["statements"][0])

    def test_tables_that_are_not_there(self):
        with self.assertRaisesRegex(RecordingError, "there is no table nowhere"):
            ReportRecorder(DSN, [Table("nowhere", ("id",), "v")], self.path)
