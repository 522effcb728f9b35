"""The recorder, on a server: the variable ESR_POSTGRES_DSN has libpq's connection string; without it, no test runs.
`checks/postgresql` starts one and runs these."""

import contextlib
import os
import pathlib
import signal
import subprocess
import sys
import tempfile
import threading
import time
import unittest
from decimal import Decimal
from unittest import mock

DSN = os.environ.get("ESR_POSTGRES_DSN")
HERE = pathlib.Path(__file__).resolve().parent

if DSN is not None:
    import psycopg2
    import psycopg2.extensions as extensions
    from psycopg2.extras import DictCursor, RealDictCursor, execute_batch
    from psycopg2.sql import SQL

    from esr_postgresql import recorder as module
    from esr_postgresql.recorder import Recorder

from esr_history.order import gaps, history_of, unrecorded_endings  # noqa: E402
from esr_history.record import Action, Outcome  # noqa: E402
from esr_history.versions import IncompleteRecord  # noqa: E402
from esr_postgresql.tables import RecordingError, Table  # noqa: E402

SELECT = "select id, v, xmin from t where id = %s"
UPDATE = "update t set v = %s where id = %s returning id, v, xmin"
INSERT = "insert into t values (%s, %s) returning id, v, xmin"
DELETE = "delete from t where id = %s returning id, v, xmin"


def told(transaction):
    """What a transaction did, without versions."""
    return [(each.action.value, each.item, each.value) for each in transaction.operations]


@unittest.skipIf(DSN is None, "no server: ESR_POSTGRES_DSN is not set")
class Recording(unittest.TestCase):
    def setUp(self):
        plain = psycopg2.connect(DSN)
        plain.autocommit = True
        self.addCleanup(plain.close)
        self.plain = plain.cursor()
        self.plain.execute("drop table if exists t; create table t(id int primary key, v bigint, name text)")
        self.plain.execute("insert into t values (1, 10), (2, 20)")
        self.recorder = Recorder(DSN, [Table("t", ("id",), "v")])

    def connect(self, label="c"):
        connection = self.recorder.connect(label)
        self.addCleanup(connection.close)
        return connection

    def finished(self):
        record = self.recorder.finish()
        return record, {transaction.name: transaction for transaction in record.transactions}

    # ---- what the application sees

    def test_the_application_sees_what_it_would_see(self):
        connection = self.connect()
        cursor = connection.cursor()
        cursor.execute("select id, v, xmin from t order by id")
        self.assertEqual([row[:2] for row in cursor], [(1, 10), (2, 20)])
        cursor.execute("select id, v, xmin from t order by id")
        self.assertEqual((cursor.fetchone()[0], cursor.fetchmany(1)[0][0], cursor.fetchone()), (1, 2, None))
        cursor.execute(SELECT, (9,))
        self.assertEqual(cursor.fetchall(), [])
        for factory in (DictCursor, RealDictCursor):
            cursor = connection.cursor(cursor_factory=factory)
            cursor.execute(SELECT, (1,))
            self.assertIsInstance(cursor, factory)
            self.assertEqual(cursor.fetchone()["v"], 10)
        connection.commit()
        _, done = self.finished()
        self.assertEqual(len(done["c_1"].operations), 6)
        with self.assertRaisesRegex(RecordingError, "give it no name"):
            connection.cursor("on the server")

    def test_each_way_to_end_a_transaction(self):
        with self.connect("with") as connection:
            connection.cursor().execute(UPDATE, (11, 1))
        with self.assertRaises(ZeroDivisionError):
            with connection:
                connection.cursor().execute(UPDATE, (12, 1))
                raise ZeroDivisionError
        with connection:
            connection.cursor().execute(SELECT, (1,))
        by_statement = self.connect("sql")
        by_statement.autocommit = True
        cursor = by_statement.cursor()
        for statement in (
            "begin",
            "select id, v, xmin from t",
            "update t set v = 13 where id = 1 returning id, v, xmin",
        ):
            cursor.execute(statement)
        cursor.execute(SQL("COMMIT;"))
        cursor.execute("begin; update t set v = 14 where id = 1 returning id, v, xmin")
        cursor.execute("rollback")
        cursor.execute(SELECT, (1,))
        cursor.execute(UPDATE, (15, 1))
        cursor.executemany(UPDATE, [(16, 1), (17, 2)])
        by_closing = self.connect("closed")
        by_closing.cursor().execute(UPDATE, (18, 1))
        by_closing.close()
        _, done = self.finished()
        ends = {name: transaction.outcome for name, transaction in done.items()}
        ended, gone = Outcome.COMMITTED, Outcome.ABORTED
        self.assertEqual(
            ends,
            {"with_1": ended, "with_2": gone, "with_3": ended, "sql_1": ended, "sql_2": gone, "sql_3": ended}
            | {"sql_4": ended, "sql_5": ended, "sql_6": ended, "closed_1": gone},
        )
        self.assertEqual(told(done["with_3"]), [("read", "t/1", 11)])
        self.assertEqual(told(done["sql_1"])[-1], ("write", "t/1", 13))
        self.assertEqual(told(done["sql_3"]), [("read", "t/1", 13)])

    def test_levels_and_times(self):
        times = []
        for level in ("READ COMMITTED", "REPEATABLE READ", "SERIALIZABLE"):
            connection = self.connect("same")
            connection.set_session(isolation_level=level)
            connection.cursor().execute(UPDATE, (3, 1))
            connection.commit()
        record, done = self.finished()
        levels = {transaction.level for transaction in done.values()}
        self.assertEqual(levels, {"read committed", "repeatable read", "serializable"})
        for transaction in record.transactions:
            self.assertLess(transaction.began, transaction.ended)
            times.append(transaction.ended)
        self.assertEqual(times, sorted(times))
        self.assertEqual(len(set(times)), 3)
        self.assertEqual(sorted(done), ["same_1", "same_2", "same_3"])

    # ---- what is recorded

    def test_savepoints(self):
        connection = self.connect()
        cursor = connection.cursor()
        for statement in (
            "savepoint a",
            UPDATE % (11, 1),
            "savepoint b",
            UPDATE % (12, 1),
            "select id, v, xmin from t",
            DELETE % 2,
            "Rollback To Savepoint B;",
            UPDATE % (21, 2),
            "release a",
        ):
            cursor.execute(statement)
        connection.commit()
        reader = self.connect("reader")
        reader.cursor().execute("select id, v, xmin from t order by id")
        reader.commit()
        record, done = self.finished()
        self.assertEqual(told(done["c_1"]), [("write", "t/1", 11), ("read", "t/2", 20), ("write", "t/2", 21)])
        self.assertEqual(len({each.version for each in done["c_1"].operations}), 3)
        history = history_of(record)
        self.assertEqual([number for _, number in history.report_reads[0]], [1, 1])
        self.assertEqual(unrecorded_endings(history), [])

    def test_rows_that_come_and_go(self):
        connection = self.connect()
        cursor = connection.cursor()

        def look(keys=None):
            cursor.execute("select id, v, xmin from t" + (" where id = any(%s)" if keys else ""), (keys,))
            cursor.covers("t", keys)
            connection.commit()

        look()
        cursor.execute(INSERT, (3, 30))
        connection.commit()
        look([1, 3])
        cursor.execute(DELETE, (1,))
        connection.commit()
        look([1, 3])
        record, done = self.finished()
        self.assertEqual(told(done["c_1"]), [("read", "t/1", 10), ("read", "t/2", 20), ("read", "t/3", None)])
        self.assertEqual(told(done["c_3"]), [("read", "t/1", 10), ("read", "t/3", 30)])
        self.assertEqual(told(done["c_5"]), [("read", "t/3", 30), ("read", "t/1", None)])
        history = history_of(record)
        self.assertEqual([len(reads) for reads in history.report_reads], [3, 2, 2])
        self.assertEqual(unrecorded_endings(history), [])

    def test_an_insert_that_finds_the_row_and_joins_with_itself(self):
        connection = self.connect()
        cursor = connection.cursor()
        cursor.execute("insert into t values (1, 5) on conflict (id) do update set v = 7 returning id, v, xmin")
        cursor.execute(
            "select a.id, a.v, a.xmin, b.id, b.v, b.xmin from t a left join t b on b.id = a.id + 1 order by 1"
        )
        connection.commit()
        _, done = self.finished()
        self.assertEqual(
            told(done["c_1"]),
            [("write", "t/1", 7), ("read", "t/1", 7), ("read", "t/2", 20), ("read", "t/2", 20)],
        )

    def test_scales_and_keys_of_several_columns(self):
        self.plain.execute("drop table if exists s; create table s(shop text, article int, amount numeric(13,2))")
        self.plain.execute("insert into s values ('x', 1, 4.00), ('y', 1, -0.05)")
        self.recorder = Recorder(
            DSN, [Table("public.s", ("shop", "article"), "amount", 2, 3), Table("t", ("id",), "v")]
        )
        connection = self.connect()
        cursor = connection.cursor()
        cursor.execute("update s set amount = 1.5 where shop = 'x' returning shop, article, amount, xmin")
        cursor.execute(
            "select s.shop, s.article, s.amount, s.xmin, t.id, t.v, t.xmin from s join t on t.id = 1 order by 1"
        )
        cursor.covers("public.s", [("y", 1), ("z", 1)])
        connection.commit()
        record, done = self.finished()
        self.assertEqual(record.items["public.s/y,1"].value, -5)
        self.assertEqual((record.items["public.s/y,1"].weight, record.items["public.s/y,1"].scale), (3, 2))
        self.assertEqual(done["c_1"].operations[0][:3], (Action.WRITE, "public.s/x,1", 150))
        self.assertEqual(len(done["c_1"].operations), 5)

    def test_versions_stay_when_rows_are_frozen_and_moved(self):
        connection = self.connect()
        cursor = connection.cursor()
        cursor.execute(UPDATE, (11, 1))
        connection.commit()
        for statement in ("vacuum (freeze) t", "vacuum (full, freeze) t"):
            self.plain.execute(statement)
            cursor.execute("select id, v, xmin from t order by id")
            connection.commit()
        history = history_of(self.finished()[0])
        self.assertEqual([[number for _, number in reads] for reads in history.report_reads], [[1, 0], [1, 0]])

    def test_calls_that_end_a_transaction_without_a_word(self):
        connection = self.connect()
        for end in (connection.reset, lambda: connection.set_isolation_level(1)):
            connection.cursor().execute(UPDATE, (11, 1))
            end()
        connection.tpc_begin("two phases")
        connection.cursor().execute(UPDATE, (12, 1))
        connection.tpc_prepare()
        connection.tpc_commit()
        connection.cursor().execute(SELECT, (1,))
        connection.commit()
        ends = [(transaction.outcome, told(transaction)) for transaction in self.finished()[0].transactions]
        self.assertEqual(len(ends), 4)
        self.assertEqual(
            [each for end, each in ends if end is Outcome.COMMITTED], [[("write", "t/1", 12)], [("read", "t/1", 12)]]
        )

    def test_a_chain_is_two_transactions(self):
        connection = self.connect()
        for value, end in ((11, "commit and chain"), (12, "rollback and chain"), (13, "commit")):
            connection.cursor().execute(UPDATE, (value, 1))
            connection.cursor().execute(end)
        _, done = self.finished()
        ends = [(done[name].outcome, told(done[name])[0][2]) for name in ("c_1", "c_2", "c_3")]
        committed, aborted = Outcome.COMMITTED, Outcome.ABORTED
        self.assertEqual(ends, [(committed, 11), (aborted, 12), (committed, 13)])

    def test_what_is_done_in_another_database_is_not_recorded(self):
        self.plain.execute("drop database if exists elsewhere")
        self.plain.execute("create database elsewhere template template0")
        with self.recorder.in_place_of_psycopg2():
            connection = psycopg2.connect(DSN, dbname="elsewhere")
        connection.cursor().execute("create table t(id int primary key, v bigint, name text)")
        cursor = connection.cursor()
        cursor.execute("select 't'::regclass::oid")
        self.recorder._known[0].oid = cursor.fetchone()[0]  # (as if it had the same number there)
        connection.cursor().execute("insert into t values (1, 5) returning id, v, xmin")
        connection.commit()
        connection.close()
        self.assertEqual(self.finished()[1], {})

    def test_threads(self):
        def work(label):
            connection = self.connect(label)
            for _ in range(20):
                connection.cursor().execute("update t set v = v + 1 where id = 1 returning id, v, xmin")
                connection.commit()

        threads = [threading.Thread(target=work, args=(f"w{number}",)) for number in range(4)]
        for thread in threads:
            thread.start()
        for thread in threads:
            thread.join()
        record, _ = self.finished()
        history = history_of(record)
        self.assertEqual(history.chains["t/1"].values, list(range(10, 91)))
        self.assertTrue(history.keeps_commit_order)

    # ---- missing data, and the messages about it

    def test_an_update_without_returning_is_named(self):
        connection = self.connect()
        connection.cursor().execute("update t set v = 5 where id = 1")
        connection.commit()
        connection.cursor().execute(SELECT, (1,))
        connection.commit()
        record, _ = self.finished()
        with self.assertRaisesRegex(IncompleteRecord, r"^5 of t/1 by \d+, which c_1 read, has no recorded writer$"):
            history_of(record)

    def test_a_write_that_nobody_read_is_told(self):
        self.plain.execute("update t set v = 5 where id = 1")
        record, _ = self.finished()
        self.assertEqual(list(record.items), ["t/1"])  # (no transaction touched the other row)
        self.assertEqual(unrecorded_endings(history_of(record)), ["t/1"])

    def test_values_without_key_or_version_are_counted(self):
        connection = self.connect()
        cursor = connection.cursor()
        for statement in (
            "select v from t",
            "select id, v from t",
            "select v, xmin from t",
            "select id, name from t",
        ):
            cursor.execute(statement)
        self.assertEqual(self.recorder.unversioned, 3)
        self.assertEqual(self.finished()[1], {})

    def test_an_answer_to_a_commit_that_was_lost(self):
        connection = self.connect()
        connection.cursor().execute(UPDATE, (11, 1))
        connection._ask()
        extensions.connection.commit(connection)
        connection._keep(Outcome.ABORTED)
        self.assertIs(self.finished()[1]["c_1"].outcome, Outcome.COMMITTED)

    def test_a_commit_that_the_server_did_not_live_to_see(self):
        connection = self.connect()
        connection.cursor().execute(UPDATE, (11, 1))
        self.plain.execute("select pg_terminate_backend(%s)", (connection.get_backend_pid(),))
        with self.assertRaises(psycopg2.Error):
            connection.commit()
        connection.close()
        self.assertIs(self.finished()[1]["c_1"].outcome, Outcome.ABORTED)

    def test_a_transaction_that_has_only_been_prepared_is_in_doubt(self):
        connection = self.connect()
        connection.autocommit = True
        cursor = connection.cursor()
        cursor.execute("begin")
        cursor.execute(UPDATE, (11, 1))
        cursor.execute("prepare transaction 'p'")
        with mock.patch.object(module, "PATIENCE", 0.2):
            self.assertIs(self.finished()[1]["c_1"].outcome, Outcome.UNKNOWN)
        self.plain.execute("commit prepared 'p'")
        self.assertIs(self.finished()[1]["c_1"].outcome, Outcome.COMMITTED)

    def test_a_delete_that_is_a_transaction_by_itself_is_in_doubt(self):
        connection = self.connect()
        connection.autocommit = True
        connection.cursor().execute(DELETE, (1,))
        self.assertIs(self.finished()[1]["c_1"].outcome, Outcome.UNKNOWN)

    def test_values_that_cannot_be_recorded(self):
        connection = self.connect()
        connection.cursor().execute(INSERT, (3, 10**12 + 1))
        connection.commit()
        connection.cursor().execute(UPDATE, (None, 2))
        connection.commit()
        connection.cursor().execute("select id, v, xmin from t")
        connection.commit()
        connection.cursor().execute(UPDATE, (11, 1))
        connection.commit()
        record, done = self.finished()
        left_out = [(done[name].outcome, done[name].reason) for name in ("c_1", "c_2", "c_3")]
        reason = "t/3: v is 1000000000001: beyond 1000000000000 units of its scale; give a smaller one"
        null = "t/2: v is null; a recorded column has a value in every row"
        self.assertEqual(
            left_out,
            [(Outcome.LEFT_OUT, reason), (Outcome.LEFT_OUT, null), (Outcome.LEFT_OUT, f"{reason} (and 1 more)")],
        )
        self.assertIs(done["c_4"].outcome, Outcome.COMMITTED)
        self.assertEqual({note.text for note in record.notes}, {f"at the end {null}", f"at the end {reason}"})
        history = history_of(record)
        self.assertEqual([update.name for update in history.updates], ["c_4"])
        self.assertIn("updates left out: c_1, c_2", gaps(history))

    def test_wrong_scales(self):
        self.plain.execute("drop table if exists s; create table s(id int primary key, v numeric)")
        self.plain.execute("insert into s values (1, 1)")
        self.recorder = Recorder(DSN, [Table("s", ("id",), "v")])
        connection = self.connect()
        connection.cursor().execute("update s set v = 1.5 returning id, v, xmin")
        connection.commit()
        connection.cursor().execute("update s set v = 2 returning id, v, xmin")
        connection.commit()
        _, done = self.finished()
        self.assertIs(done["c_1"].outcome, Outcome.LEFT_OUT)
        self.assertIs(done["c_2"].outcome, Outcome.COMMITTED)
        table = Table("t", ("id",), "v", 1)
        self.assertEqual(table.whole("t/1", Decimal("1.50")), 15)
        for value, said in (
            (None, "is null"),
            (Decimal("1.25"), "more than 1 digits behind the point"),
            (1.5, "is 1.5, and not a number"),
            (True, "is True, and not a number"),
            (Decimal("NaN"), "not a number"),
            (10**11 + 1, "beyond"),
        ):
            with self.assertRaisesRegex(RecordingError, said):
                table.whole("t/1", value)

    def test_tables_that_cannot_be_recorded(self):
        self.plain.execute("drop view if exists w; create view w as select * from t")
        self.addCleanup(self.plain.execute, "drop view w")
        for table, said in (
            (Table("nowhere", ("id",), "v"), "there is no table nowhere"),
            (Table("w", ("id",), "v"), "w is not a table"),
            (Table("t", ("key",), "v"), "the table t has no column key"),
            (Table("t", ("id",), "name"), "t.name is text: recorded values are smallint, integer, bigint, numeric"),
        ):
            with self.assertRaisesRegex(RecordingError, said):
                Recorder(DSN, [table])
        self.plain.execute("insert into t values (3, null)")
        with self.assertRaisesRegex(RecordingError, "t/3: v is null"):
            Recorder(DSN, [Table("t", ("id",), "v")])
        for text in ("t:id", "t:id:v:x", "t::v", "a:b:c:1:2"):
            with self.assertRaisesRegex(RecordingError, "is not TABLE:KEY:VALUE"):
                Table.parse(text)
        self.assertEqual(Table.parse("s:shop,article:amount:2"), Table("s", ("shop", "article"), "amount", 2))

    def test_a_trigger_and_a_batch_are_named_also_if_nobody_reads_their_rows(self):
        self.plain.execute(
            "create or replace function mirror() returns trigger language plpgsql as"
            " 'begin update t set v = new.v where id = 2; return null; end'"
        )
        self.plain.execute(
            "create trigger mirror after update on t for each row when (new.id = 1) execute function mirror()"
        )
        connection = self.connect()
        connection.cursor().execute(UPDATE, (11, 1))
        connection.commit()
        with self.assertRaisesRegex(
            IncompleteRecord, r"^at the end t/2 is 11 by \d+, which is c_1: a write of it by this transaction was not"
        ):
            history_of(self.finished()[0])
        self.plain.execute("drop trigger mirror on t")
        self.recorder = Recorder(DSN, [Table("t", ("id",), "v")])
        connection = self.connect()
        cursor = connection.cursor()
        cursor.execute(UPDATE, (12, 1))
        execute_batch(cursor, "update t set v = %s where id = %s", [(5, 2), (6, 2)])
        connection.commit()
        with self.assertRaisesRegex(IncompleteRecord, r"^at the end t/2 is 6 by \d+, which is c_1: "):
            history_of(self.finished()[0])

    def test_versions_under_an_alias(self):
        connection = self.connect()
        connection.cursor().execute("select id as t_id, v as t_v, xmin as t_xmin from t where id = 1")
        connection.commit()
        self.assertEqual(told(self.finished()[1]["c_1"]), [("read", "t/1", 10)])

    # ---- a server that recovers, and a recorder that is killed

    def recover(self):
        """Kills a backend, so that the server ends all others and recovers, and waits until it accepts connections."""
        victim = psycopg2.connect(DSN)
        os.kill(victim.get_backend_pid(), signal.SIGKILL)
        until = time.monotonic() + 30
        while time.monotonic() < until:
            with contextlib.suppress(psycopg2.Error):
                with self.plain.connection.cursor() as cursor:
                    cursor.execute("select 1")
                time.sleep(0.05)
                continue
            break
        while True:
            try:
                plain = psycopg2.connect(DSN)
                break
            except psycopg2.OperationalError:
                self.assertLess(time.monotonic(), until)
                time.sleep(0.05)
        plain.autocommit = True
        self.addCleanup(plain.close)
        self.plain = plain.cursor()

    def test_a_number_that_is_assigned_again_after_a_recovery(self):
        early, lost = self.connect("early"), self.connect("lost")
        early.cursor().execute(UPDATE, (11, 1))
        early.commit()
        cursor = lost.cursor()
        cursor.execute(UPDATE, (21, 2))
        cursor.execute("select pg_current_xact_id()::text")
        number = cursor.fetchone()[0]
        lost._ask()
        self.recover()
        with self.assertRaises(psycopg2.Error):
            lost.commit()
        late = self.connect("late")
        late.cursor().execute(UPDATE, (22, 2))
        late.commit()
        record, done = self.finished()
        self.assertEqual((done["lost_1"].labels, done["late_1"].labels), ((number,), (number,)))
        outcomes = [done[name].outcome for name in ("early_1", "lost_1", "late_1")]
        self.assertEqual(outcomes, [Outcome.COMMITTED, Outcome.UNKNOWN, Outcome.COMMITTED])
        history = history_of(record)
        self.assertEqual(history.chains["t/2"].values, [20, 22])
        self.assertIn("updates that ended unknown: lost_1", gaps(history))

    def test_a_number_that_is_in_the_future_after_a_recovery(self):
        lost = self.connect("lost")
        lost.cursor().execute(UPDATE, (21, 2))
        self.recover()
        lost.close()
        reader = self.connect("reader")
        reader.cursor().execute(SELECT, (2,))
        reader.commit()
        record, done = self.finished()
        self.assertIs(done["lost_1"].outcome, Outcome.ABORTED)
        self.assertEqual(told(done["reader_1"]), [("read", "t/2", 20)])
        self.assertEqual(gaps(history_of(record)), [])

    def test_a_recorder_that_is_killed(self):
        program = f"""
import os, signal, psycopg2
one, other = psycopg2.connect({DSN!r}), psycopg2.connect({DSN!r})
def run(connection, statement):
    cursor = connection.cursor()
    cursor.execute(statement)
run(one, "select id, v, xmin from t where id = 1")
run(other, "update t set v = v - 5 where id = 1 returning id, v, xmin")
run(other, "update t set v = v + 5 where id = 2 returning id, v, xmin")
other.commit()
run(one, "select id, v, xmin from t where id = 2")
one.commit()
run(other, "update t set v = 1 where id = 2 returning id, v, xmin")
other._keep = lambda outcome: os.kill(os.getpid(), signal.SIGKILL)
other.commit()
"""
        with tempfile.TemporaryDirectory() as room:
            done = self.command("run", "--dsn", DSN, "--table", "t:id:v", "--out", room, "PROGRAM", program=program)
            self.assertEqual(done.returncode, -signal.SIGKILL, done.stderr)
            path = os.path.join(room, "record.jsonl")
            with open(path + ".open", "a", encoding="utf-8") as file:
                file.write('{"transaction":"c2_9","xi')
            done = self.command("finish", "--dsn", DSN, path + ".open", program="")
            self.assertEqual((done.returncode, done.stderr), (0, ""))
            done = self.command("audit", path, "--out", room, program="")
            self.assertEqual(done.returncode, 0, done.stdout + done.stderr)
        self.assertIn("record     2 updates at read committed; 1 report at read committed; 2 items\n", done.stdout)
        self.assertIn("the recorder was killed: transactions that ended last may be missing\n", done.stdout)
        self.assertIn("reports    0 without an error among the recorded updates, not known", done.stdout)
        self.assertIn("distance   worst 5, mean 5.0\n", done.stdout)

    def test_a_server_that_is_down_at_the_end(self):
        program = f"""
import psycopg2
from esr_postgresql import recorder
connection = psycopg2.connect({DSN!r})
connection.cursor().execute("update t set v = 5 where id = 1 returning id, v, xmin")
connection.commit()
def down(*_):
    raise psycopg2.OperationalError("the server is down")
recorder._statuses = down
"""
        with tempfile.TemporaryDirectory() as room:
            done = self.command("run", "--dsn", DSN, "--table", "t:id:v", "--out", room, "PROGRAM", program=program)
            path = os.path.join(room, "record.jsonl.open")
            said = f"esr-postgres: the server is down; the recording is kept: esr-postgres finish {path}\n"
            self.assertEqual((done.returncode, done.stderr), (2, said))
            done = self.command("finish", "--dsn", DSN, path, program="")
            self.assertEqual((done.returncode, done.stdout), (0, f"{path[:-5]}: 1 transactions, 1 items\n"))

    # ---- the command

    def test_a_program_whose_statements_have_no_versions(self):
        program = f"import psycopg2; psycopg2.connect({DSN!r}).cursor().execute('select id, v from t')"
        done = self.command("run", "--dsn", DSN, "--table", "t:id:v", "PROGRAM", program=program)
        self.assertEqual((done.returncode, done.stdout), (3, ""))
        self.assertEqual(
            done.stderr,
            "esr-postgres: nothing was recorded, so nothing is audited: no statement had key, value and xmin of a"
            " recorded table in its result\n",
        )

    def command(self, *words, program):
        with tempfile.TemporaryDirectory() as room:
            path = os.path.join(room, "program.py")
            pathlib.Path(path).write_text(program)
            words = [path if word == "PROGRAM" else word for word in words]
            return subprocess.run(
                [sys.executable, HERE.parent / "esr-postgres", *words],
                cwd=room,
                env={**os.environ, "ESR": str(HERE.parents[1] / "history" / "tests" / "plain_esr")},
                capture_output=True,
                text=True,
                check=False,
            )

    def test_a_program_of_its_own(self):
        program = f"""
import sys, psycopg2
one, other = psycopg2.connect({DSN!r}), psycopg2.connect(dsn={DSN!r})
def read(i):
    cursor = one.cursor()
    cursor.execute("select id, v, xmin from t where id = %s", (i,))
    return cursor.fetchone()[1]
first = read(1)
cursor = other.cursor()
cursor.execute("update t set v = v - 5 where id = 1 returning id, v, xmin")
cursor.execute("update t set v = v + 5 where id = 2 returning id, v, xmin")
other.commit()
print("sum", first + read(2), *sys.argv[1:])
one.commit()
cursor.execute("select v from t")
sys.exit(3)
"""
        done = self.command(
            "run", "--dsn", DSN, "--table", "t:id:v", "PROGRAM", "--out", "of the program", program=program
        )
        self.assertEqual(done.returncode, 0, done.stderr)
        self.assertIn("sum 35 --out of the program\n", done.stdout)
        self.assertIn("; 1 off\ndistance   worst 5, mean 5.0\nsum        worst error 5, mean 5.0\n", done.stdout)
        self.assertIn("ended with 3; the record is up to there", done.stderr)
        self.assertIn("1 statements read or wrote a recorded value without key and xmin: not recorded", done.stdout)

    def test_words_that_lead_nowhere(self):
        done = self.command("run", "--dsn", DSN, "--table", "nowhere:id:v", "PROGRAM", program="")
        self.assertEqual((done.returncode, done.stderr), (2, "esr-postgres: there is no table nowhere\n"))
        done = self.command("bank", "--dsn", "host=/nowhere", program="")
        self.assertEqual(done.returncode, 2)
        self.assertIn("/nowhere", done.stderr)
        self.assertNotIn("Traceback", done.stderr)
