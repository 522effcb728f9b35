"""The linter, on a server: which reports it names."""

import os
import unittest

DSN = os.environ.get("ESR_POSTGRES_DSN")

if DSN is not None:
    import psycopg2

    from esr_postgresql.lint import Linter

from esr_postgresql.tables import Table  # noqa: E402


@unittest.skipIf(DSN is None, "no server: ESR_POSTGRES_DSN is not set")
class Lint(unittest.TestCase):
    def setUp(self):
        plain = psycopg2.connect(DSN)
        plain.autocommit = True
        self.addCleanup(plain.close)
        plain.cursor().execute("drop table if exists t, o; create table t(id int, v int); create table o(id int)")
        plain.cursor().execute("insert into t values (1, 1), (2, 2)")
        self.linter = Linter(DSN, [Table("t", ("id",), "v")])
        self.connection = self.linter.connect()
        self.addCleanup(self.connection.close)

    def run_all(self, *statements):
        for statement in statements:
            self.connection.cursor().execute(statement)

    def found(self):
        self.linter.finish()
        return [(each.tables, each.how, count) for each, count in self.linter.findings.items()]

    def test_reports_of_several_moments(self):
        for _ in range(2):
            self.run_all("select sum(v) from t", "select max(v) from t")
            self.connection.commit()
        self.assertEqual(self.found(), [(("t",), "in one transaction at read committed", 2)])
        self.assertRegex(self.linter.text(), r"^test_lint\.py:\d+: a report of t by several statements, in one .*; 2 times$")

    def test_statements_outside_a_transaction(self):
        self.connection.autocommit = True
        self.run_all("select sum(v) from t", "select 1", "select max(v) from t", "select v from t where id = 1")
        self.run_all("select sum(v) from t")
        self.assertEqual(self.found(), [(("t",), "each a transaction by itself", 1)])
        self.assertEqual(self.linter.reports, 2)

    def test_reports_that_are_not_named(self):
        self.run_all("select sum(v) from t", "select * from o", "select 1")
        self.connection.commit()
        self.run_all("select sum(v) from t", "update t set v = 3", "select sum(v) from t")
        self.connection.commit()
        for level in ("repeatable read", "serializable"):
            self.connection.set_session(isolation_level=level)
            self.run_all("select sum(v) from t", "select sum(v) from t")
            self.connection.commit()
        self.assertEqual(self.found(), [])
        self.assertEqual(self.linter.text(), "3 reports, each of one moment")
