"""Unchanged writers of a PostgreSQL server, watched by `esr-postgres watch`: their writes come from the log, and reports
only add `pg_current_snapshot()` to their statements.

- pgbench itself with 100,000 accounts, at six pairs of isolation levels. A report adds up branches, tellers and accounts;
  the three sums are equal at every moment, so a report has to be off if and only if its sums differ.
- An unchanged SQLAlchemy program and a writer with savepoints, COPY, triggers, ON CONFLICT, prepared transactions, DELETE
  and TRUNCATE. A trigger keeps the total of each branch, each transaction changes the sum by an amount that the others do
  not make up for, and a report is off if and only if its totals differ. A report at repeatable read may find the accounts
  empty after a TRUNCATE, against its snapshot (PostgreSQL's manual names this); exactly such reports are not audited.
- A report whose snapshot is older than a TRUNCATE or an ALTER TABLE that committed before its read, each time.
- A restart of the server in the middle, and a watch that is killed: the slot is gone.
"""

import contextlib
import functools
import itertools
import json
import os
import pathlib
import re
import signal
import subprocess
import sys
import textwrap
import time

import psycopg2

ADAPTER = pathlib.Path(__file__).resolve().parent.parent / "adapters" / "postgresql"
BENCH = ("pgbench_branches:bid:bbalance", "pgbench_tellers:tid:tbalance", "pgbench_accounts:aid:abalance")
SHOP = ("account:id:balance:2", "branch:id:total:2")
PAIRS = [
    (updates, reports)
    for updates in ("read committed", "repeatable read", "serializable")
    for reports in ("read committed", "repeatable read")
]
LEVELS = ("read committed", "repeatable read")
PATIENCE = 60
REPORTS = 10

# Reports until the file STOP exists, and a line of their sums for each that committed.
REPORTER = """
import json, os, random, sys, time
import psycopg2
dsn, level, stop, sums, *statements = sys.argv[1:]
connection = psycopg2.connect(dsn)
connection.set_session(isolation_level=level)
with open(sums, "w") as file:
    while not os.path.exists(stop):
        found = []
        for statement in statements:
            cursor = connection.cursor()
            cursor.execute(statement)
            rows = cursor.fetchall()
            found.append([[str(value) for value in row[:-1]] for row in rows])
            time.sleep(random.choice((0, 0.02)))
        connection.commit()
        file.write(json.dumps(found) + chr(10))
        file.flush()
        time.sleep(0.01)
"""

SHOP_TABLES = """
drop table if exists account, branch;
create table branch(id int primary key, total numeric(13,2) not null);
create table account(id int primary key, branch int not null, balance numeric(13,2) not null, note text);
create or replace function add_up() returns trigger language plpgsql as $$
begin
    if tg_op <> 'INSERT' then update branch set total = total - old.balance where id = old.branch; end if;
    if tg_op <> 'DELETE' then update branch set total = total + new.balance where id = new.branch; end if;
    return null;
end $$;
create or replace function none_left() returns trigger language plpgsql as $$
begin update branch set total = 0; return null; end $$;
create trigger add_up after insert or update or delete on account for each row execute function add_up();
create trigger none_left after truncate on account for each statement execute function none_left();
insert into branch select n, 0 from generate_series(1, 4) n;
insert into account select n, 1 + n % 4, 100.50, 'it''s "n[1]":2' from generate_series(1, 40) n;
"""

WRITER = """
import io, itertools, os, random, sys
import psycopg2
dsn, stop, seed = sys.argv[1:]
connection, chosen = psycopg2.connect(dsn), random.Random(seed)
cursor = connection.cursor()
for count in itertools.count():
    if os.path.exists(stop):
        break
    first, second = chosen.sample(range(1, 41), 2)
    fresh = 1000 * (int(seed) + 1) + count % 10
    try:
        kind = count % 6
        if kind == 0:
            cursor.execute("savepoint a")
            cursor.execute("update account set balance = 0 where id = %s", (first,))
            cursor.execute("rollback to a")
            cursor.execute("update account set balance = balance - 1.25 where id = %s", (first,))
            cursor.execute("savepoint b")
            cursor.execute("update account set balance = balance + 1.32 where id = %s", (second,))
        elif kind == 1:
            cursor.execute("delete from account where id = %s", (fresh,))
            cursor.copy_from(io.StringIO(f"{fresh},{1 + fresh % 4},7.75,copied"), "account", sep=",")
        elif kind == 2:
            cursor.execute(
                "insert into account values (%s, 1, 3)"
                " on conflict (id) do update set balance = account.balance + 3",
                (first,),
            )
        elif kind == 3:
            cursor.execute("delete from account where id = %s", (fresh - 2,))
            cursor.execute("update account set id = id + 500 where id = %s", (fresh - 1,))
        elif kind == 4:
            cursor.execute("update account set balance = balance + 2 where id = %s", (first,))
            cursor.execute(f"prepare transaction 'p{seed}_{count}'")
            connection.commit()
            connection.autocommit = True
            cursor.execute(f"{'commit' if count % 5 else 'rollback'} prepared 'p{seed}_{count}'")
            connection.autocommit = False
        elif count % 120 == 5:
            cursor.execute("truncate account")
            cursor.execute("insert into account select n, 1 + n % 4, 100.50 from generate_series(1, 40) n")
        connection.commit()
    except psycopg2.Error:
        connection.rollback()
connection.autocommit = True
cursor.execute("select gid from pg_prepared_xacts where gid like %s", (f"p{seed}%",))
for (gid,) in cursor.fetchall():
    cursor.execute(f"rollback prepared '{gid}'")
"""

ORM = """
import decimal, os, random, sys
import psycopg2, sqlalchemy
from sqlalchemy.orm import Session, declarative_base
Base = declarative_base()
class Account(Base):
    __tablename__ = "account"
    id = sqlalchemy.Column(sqlalchemy.Integer, primary_key=True)
    balance = sqlalchemy.Column(sqlalchemy.Numeric(13, 2))
url, stop = sys.argv[1:]
engine = sqlalchemy.create_engine("postgresql+psycopg2://", creator=lambda: psycopg2.connect(url))
chosen, count = random.Random(3), 0
while count < 5 or not os.path.exists(stop):
    with Session(engine) as session:
        try:
            for number, amount in zip(sorted(chosen.sample(range(1, 41), 2)), (-131, 100)):
                account = session.get(Account, number, with_for_update=True)
                if account is not None:
                    with session.begin_nested():
                        account.balance += decimal.Decimal(amount) / 100
            session.commit()
            count += 1
        except sqlalchemy.exc.DBAPIError:
            session.rollback()
print(count)
"""


def demand(truth, text):
    if not truth:
        raise SystemExit(f"not so: {text}")


class Watch:
    """`esr-postgres watch` in a process, and the results of its windows."""

    def __init__(self, dsn, tables, folder, program):
        self.folder, self.reports = folder, folder / "reports.jsonl"
        folder.mkdir(parents=True)
        options = [word for table in tables for word in ("--table", table)]
        self.tables = options
        words = ["watch", "--dsn", dsn, *options, "--reports", self.reports, "--window", "2", "--out", folder / "out"]
        self.errors = open(folder / "errors", "w+", encoding="utf-8")
        self.process = subprocess.Popen(
            [sys.executable, "-B", ADAPTER / "esr-postgres", *words, "--esr", program],
            stdout=subprocess.PIPE,
            stderr=self.errors,
            text=True,
        )
        self.wait_for("esr-postgres: watching", 1)

    def said(self):
        return (self.folder / "errors").read_text(encoding="utf-8")

    def wait_for(self, text, count):
        until = time.monotonic() + PATIENCE
        while self.said().count(text) < count:
            demand(self.process.poll() is None and time.monotonic() < until, f"the watch works: {self.said()}")
            time.sleep(0.05)

    def wait_for_window(self):
        """Waits until the first window is audited."""
        until = time.monotonic() + PATIENCE
        while not (self.folder / "out" / "window_1" / "audits.tsv").exists():
            demand(self.process.poll() is None and time.monotonic() < until, f"a window closes: {self.said()}")
            time.sleep(0.05)

    def end(self):
        """Ends the watch. Returns its text, the distance of each report, and the reasons of those that were not audited."""
        self.process.send_signal(signal.SIGTERM)
        text = self.process.communicate(timeout=PATIENCE)[0]
        demand(self.process.returncode == 0, f"the watch ends with 0: {text}{self.said()}")
        distances = {}
        for path in (self.folder / "out").glob("window_*/audits.tsv"):
            for row in path.read_text(encoding="utf-8").splitlines()[1:]:
                name, _, _, distance, *_ = row.split("\t")
                distances[name] = int(distance)
        lines = (self.folder / "out" / "not_audited.txt").read_text(encoding="utf-8").splitlines()
        return text, distances, dict(text.split(": ", 1) for text in lines)

    def kill(self):
        if self.process.poll() is None:
            self.process.kill()
            self.process.wait()


class Reporter:
    """A program whose statements return `pg_current_snapshot()`, under `esr-postgres reports`."""

    def __init__(self, dsn, watch, level, *statements):
        self.program, self.stop, self.sums = (watch.folder / name for name in ("reporter.py", "stop", "sums"))
        self.program.write_text(REPORTER, encoding="utf-8")
        words = ["reports", "--dsn", dsn, *watch.tables, "--to", watch.reports, self.program]
        self.process = subprocess.Popen(
            [sys.executable, "-B", ADAPTER / "esr-postgres", *words, dsn, level, self.stop, self.sums, *statements]
        )

    def wait(self, count):
        """Waits for some reports."""
        until = time.monotonic() + PATIENCE
        while not self.sums.exists() or self.sums.read_text(encoding="utf-8").count("\n") < count:
            demand(self.process.poll() is None and time.monotonic() < until, "the reporter reports")
            time.sleep(0.05)

    def end(self):
        """Ends the program after some reports. Returns the rows of each statement of each report."""
        self.wait(REPORTS)
        self.stop.write_text("", encoding="utf-8")
        self.process.wait(PATIENCE)
        lines = self.sums.read_text(encoding="utf-8").splitlines()
        return {f"c1_{number}": json.loads(text) for number, text in enumerate(lines, 1)}


def compare(name, watched, found, is_broken, level, is_emptied=lambda rows: False):
    """Demands that each report whose sums differ is off, and no other, and that each report is audited, except those at
    repeatable read that found a table empty."""
    text, distances, refused = watched
    emptied = {report for report, rows in found.items() if is_emptied(rows)}
    by_truncate = {report for report, reason in refused.items() if "replaced the table by TRUNCATE after" in reason}
    demand(by_truncate == emptied, f"{name}: the reports of an empty table are {emptied}, and not {by_truncate}:\n{text}")
    demand(set(refused) == emptied, f"{name}: each other report is audited:\n{text}")
    demand(not emptied or level != "read committed", f"{name}: no report at read committed finds an empty table")
    found = {report: rows for report, rows in found.items() if report not in emptied}
    demand(set(distances) == set(found) and len(found) > 3, f"{name}: each of {len(found)} reports is audited:\n{text}")
    for report, rows in found.items():
        broken = is_broken(rows)
        demand(
            broken == (distances[report] > 0),
            f"{name}: {report} is off by {distances[report]}, and it read {rows}",
        )
    broken = sum(map(is_broken, found.values()))
    if level != "read committed":
        demand(not broken, f"{name}: no report at {level} is off")
    return len(found), broken, len(emptied)


def pgbench(dsn, tool, folder, program, seconds):
    """pgbench at each pair of levels."""
    quiet = {"stdout": subprocess.DEVNULL, "stderr": subprocess.DEVNULL, "check": True}
    subprocess.run([tool, "-i", "-s", "1", "-q", "-d", dsn], **quiet)
    columns = [word.split(":") for word in BENCH]
    statements = [f"select sum({value}), pg_current_snapshot() from {table}" for table, _, value in columns]
    is_broken = lambda rows: len({row[0][0] for row in rows}) > 1  # noqa: E731
    total_broken = 0
    for number, (updates, reports) in enumerate(PAIRS):
        watch = Watch(dsn, BENCH, folder / f"pair_{number}", program)
        try:
            reporter = Reporter(dsn, watch, reports, *statements)
            reporter.wait(1)  # (before the updates begin)
            level = updates.replace(" ", "\\ ")
            environment = {**os.environ, "PGOPTIONS": f"-c default_transaction_isolation={level}"}
            words = [tool, "-n", "-c", "6", "-T", str(seconds), "--max-tries=100", "-d", dsn]
            subprocess.run(words, env=environment, **quiet)
            found = reporter.end()
            ended = watch.end()
        finally:
            watch.kill()
        name = f"pgbench at {updates}, reports at {reports}"
        count, broken, _ = compare(name, ended, found, is_broken, reports)
        total_broken += broken
        print(f"{name}: {count} reports, {broken} with different sums, and just these are off")
    demand(total_broken > 0, "some report at read committed has different sums")


STATEMENTS = {
    "sum and count": (
        "select sum(balance), count(*), pg_current_snapshot() from account",
        "select sum(total), count(*), pg_current_snapshot() from branch",
    ),
    "row by row": (
        "select id, balance, pg_current_snapshot() from account",
        "select id, total, pg_current_snapshot() from branch",
    ),
    "a join": (
        "select a.id, a.balance, b.id, b.total, pg_current_snapshot()"
        " from account a full join branch b on b.id = a.branch",
        "select count(*), pg_current_snapshot() from branch",
    ),
}
SHAPES = [(kind, "read committed") for kind in STATEMENTS] + [("sum and count", "repeatable read")]


def totals_differ(kind, rows):
    """Whether the accounts of a report do not add up to its branches."""
    if kind == "sum and count":
        return rows[0][0][0] != rows[1][0][0]
    if kind == "row by row":
        return hundredths(rows[0], 1) != hundredths(rows[1], 1)
    branches = {row[2]: round(100 * float(row[3])) for row in rows[0]}
    return hundredths(rows[0], 1) != sum(branches.values())


def is_emptied(kind, rows):
    """Returns whether a report found no account. (There are always some; a transaction replaces them by TRUNCATE and
    INSERT.)"""
    if kind == "sum and count":
        return rows[0] == [["None", "0"]]
    return all(row[0] == "None" for row in rows[0])


def started(programs, folder):
    """Starts some programs: their texts and arguments."""
    for number, (text, *words) in enumerate(programs):
        path = folder / f"writer_{number}.py"
        path.write_text(textwrap.dedent(text), encoding="utf-8")
        yield subprocess.Popen([sys.executable, "-B", path, *words], stdout=subprocess.PIPE, text=True)


def shape(dsn, watch, kind, level, has_orm, seconds):
    """Watches the writers while a report of some shape runs. Returns the findings of both."""
    stop = watch.folder / "stop_writers"
    programs = [(WRITER, dsn, stop, "0"), (WRITER, dsn, stop, "1")] + [(ORM, dsn, stop)] * has_orm
    writers = list(started(programs, watch.folder))
    try:
        reporter = Reporter(dsn, watch, level, *STATEMENTS[kind])
        time.sleep(seconds)
        found = reporter.end()
        stop.write_text("", encoding="utf-8")
        said = [writer.communicate(timeout=PATIENCE)[0] for writer in writers]
        demand(all(writer.returncode == 0 for writer in writers), "the writers end with 0")
        demand(not has_orm or int(said[2]) > 3, f"the SQLAlchemy program commits: {said}")
        return watch.end(), found
    finally:
        watch.kill()
        for writer in writers:
            writer.kill()


def shop(dsn, folder, program, seconds):
    """A SQLAlchemy program and a writer of every kind."""
    with contextlib.closing(psycopg2.connect(dsn)) as plain, plain, plain.cursor() as cursor:
        cursor.execute(SHOP_TABLES)
    tried = subprocess.run([sys.executable, "-c", "import sqlalchemy"], capture_output=True, check=False)
    has_orm = tried.returncode == 0
    for kind, level in SHAPES:
        watch = Watch(dsn, SHOP, folder / f"{kind} {level}".replace(" ", "_"), program)
        ended, found = shape(dsn, watch, kind, level, has_orm, seconds)
        name = f"{kind} at {level}, every kind of write{' and SQLAlchemy' if has_orm else ''}"
        tests = [functools.partial(test, kind) for test in (totals_differ, is_emptied)]
        count, broken, emptied = compare(name, ended, found, tests[0], level, tests[1])
        demand(not broken or ended[0].count(", in units of 1/100\n") == 2, f"{name}: the unit is named:\n{ended[0]}")
        print(f"{name}: {count} reports, {broken} do not add up, and just these are off; {emptied} found no account")
    if not has_orm:
        print("SQLAlchemy: not run: it is not installed (Debian's python3-sqlalchemy)")


def hundredths(rows, place):
    return sum(round(100 * float(row[place])) for row in rows if row[place] != "None")


REPLACED = {
    "TRUNCATE": "truncate t; insert into t select 1, v + 7 from u; update u set v = v + 7",
    "ALTER TABLE": "alter table t alter v type int using v + 7; update u set v = v + 7",
}
LOOKS = {
    "sum": "select sum(v), count(*), pg_current_snapshot() from t",
    "rows": "select id, v, pg_current_snapshot() from t",
}


def replaced(dsn, folder, program):
    """Watches reports whose snapshot is taken before a command that replaces a table, and which read the table afterwards.
    At repeatable read they find it empty, which has to be named; at read committed they are off by the 7 that it adds."""
    with contextlib.closing(psycopg2.connect(dsn)) as plain:
        plain.autocommit = True
        cursor = plain.cursor()
        cursor.execute("drop table if exists t, u; create table t(id int primary key, v int)")
        cursor.execute("create table u(id int primary key, v int); insert into t values (1, 1); insert into u values (1, 1)")
        watch = Watch(dsn, ("t:id:v", "u:id:v"), folder / "replaced", program)
        try:
            names = [report_of_replaced(dsn, watch, cursor, *words) for words in itertools.product(REPLACED, LOOKS, LEVELS)]
            text, distances, refused = watch.end()
        finally:
            watch.kill()
    demand(set(distances) == {name for name in names if "read committed" in name}, f"these are audited: {distances}\n{text}")
    demand(set(distances.values()) == {7}, f"they are off by 7: {distances}\n{text}")
    demand(set(distances) | set(refused) == set(names), f"the others are named: {refused}\n{text}")
    for name, reason in refused.items():
        said = f"it read t without rows of its snapshot: x\\d+ replaced the table by {name.split(',')[0]} after that snapshot"
        demand(re.match(said, reason) and f"not audited: {name}: {reason}" in text, f"{name} is named: {reason}\n{text}")
    print(f"a table replaced before its read: {len(refused)} reports found it empty and are named, {len(distances)} are off")


def report_of_replaced(dsn, watch, writer, word, look, level):
    """Makes a report whose table is replaced before it is read. Returns its name."""
    from esr_postgresql.reports import ReportRecorder
    from esr_postgresql.tables import Table

    recorder = ReportRecorder(dsn, [Table(name, ("id",), "v") for name in ("t", "u")], str(watch.reports))
    label = f"{word}, {look}, {level}"
    with contextlib.closing(recorder), contextlib.closing(recorder.connect(label)) as connection:
        connection.set_session(isolation_level=level)
        cursor = connection.cursor()
        cursor.execute("select sum(v), pg_current_snapshot() from u")
        writer.execute(REPLACED[word])
        cursor.execute(LOOKS[look])
        connection.commit()
    return f"{label}_1"


def slots(dsn):
    with contextlib.closing(psycopg2.connect(dsn)) as plain, plain.cursor() as cursor:
        cursor.execute("select count(*) from pg_replication_slots")
        return cursor.fetchone()[0]


def restart(dsn, folder, program):
    """The server restarts in the middle of a watch; then the watch is killed."""
    from esr_postgresql.reports import ReportRecorder
    from esr_postgresql.tables import Table

    with contextlib.closing(psycopg2.connect(dsn)) as plain, plain, plain.cursor() as cursor:
        cursor.execute("drop table if exists t; create table t(id int primary key, v int); insert into t values (1, 1)")
    watch = Watch(dsn, ("t:id:v",), folder / "restart", program)
    try:
        for number in range(2):
            with contextlib.closing(psycopg2.connect(dsn)) as plain, plain, plain.cursor() as cursor:
                cursor.execute("update t set v = v + 1")
            recorder = ReportRecorder(dsn, [Table("t", ("id",), "v")], str(watch.reports))
            connection = recorder.connect(f"life{number}")
            connection.cursor().execute("select id, v, pg_current_snapshot() from t")
            connection.commit()
            recorder.close()
            if number == 0:
                watch.wait_for_window()
                dsn.restart()
                watch.wait_for("esr-postgres: watching", 2)
        demand(slots(dsn) == 1, "the watch has one slot")
        text, distances, _ = watch.end()
    finally:
        watch.kill()
    demand(distances == {"life0_1": 0, "life1_1": 0}, f"both reports are audited: {distances}\n{text}")
    demand("restarts   1: the log has a gap there" in text, text)
    demand(slots(dsn) == 0, "no slot is left")
    watch = Watch(dsn, ("t:id:v",), folder / "killed", program)
    demand(slots(dsn) == 1, "the watch has one slot")
    watch.kill()
    until = time.monotonic() + PATIENCE
    while slots(dsn):
        demand(time.monotonic() < until, "the slot of a killed watch is dropped")
        time.sleep(0.05)
    print("a restart in the middle: both sides audited; no slot is left, also after SIGKILL")


def writers(dsn, folder, program, seconds):
    """Watches the writers of every kind, tables that are replaced, and a restart."""
    shop(dsn, folder, program, seconds)
    replaced(dsn, folder, program)
    restart(dsn, folder, program)
