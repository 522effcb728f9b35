"""Records a bank in SQLite: sqlite.py snapshot|each RECORD. With `each`, a report reads each account outside a transaction.

The column `ver` is the label of a version: each writer sets it to a fresh number.
"""

import itertools
import json
import pathlib
import random
import sqlite3
import sys
import tempfile
import threading
import time

ACCOUNTS, SECONDS, fresh, transactions = 40, 2.0, itertools.count(1), []


def connect():
    connection = sqlite3.connect(database, 30, isolation_level=None, check_same_thread=False)
    connection.execute("pragma journal_mode=wal")
    return connection


def record(name, began, ended, operations):
    line = {"transaction": name, "outcome": "committed", "level": sys.argv[1], "began": began, "ended": ended}
    transactions.append({**line, "operations": operations})


def teller(number):
    connection, chosen = connect(), random.Random(number)
    for count in itertools.takewhile(lambda _: time.monotonic() < until, itertools.count()):
        operations, began, amount = [], time.monotonic_ns(), chosen.randrange(1, 100)
        connection.execute("begin immediate")
        for account, change in zip(chosen.sample(range(ACCOUNTS), 2), (-amount, amount)):
            ((value, label),) = connection.execute("select value, ver from account where id = ?", (account,))
            new = next(fresh)
            connection.execute("update account set value = ?, ver = ? where id = ?", (value + change, new, account))
            operations.append(["read", f"account/{account}", value, str(label)])
            operations.append(["write", f"account/{account}", value + change, str(new)])
        ended = time.monotonic_ns()  # (the next writer begins after the commit)
        connection.execute("commit")
        record(f"teller{number}_{count}", began, ended, operations)


def reporter(number):
    connection = connect()
    for count in itertools.takewhile(lambda _: time.monotonic() < until, itertools.count()):
        operations, began = [], time.monotonic_ns()
        connection.execute("begin" if sys.argv[1] == "snapshot" else "select 1")
        for account in range(ACCOUNTS):
            ((value, label),) = connection.execute("select value, ver from account where id = ?", (account,))
            operations.append(["read", f"account/{account}", value, str(label)])
        connection.execute("commit" if sys.argv[1] == "snapshot" else "select 1")
        record(f"report{number}_{count}", began, time.monotonic_ns(), operations)


with tempfile.TemporaryDirectory() as folder:
    database = pathlib.Path(folder) / "bank.db"
    connect().execute("create table account(id integer primary key, value integer, ver integer)")
    connect().executemany("insert into account values (?, 1000, 0)", [(account,) for account in range(ACCOUNTS)])
    until = time.monotonic() + SECONDS
    threads = [threading.Thread(target=job, args=(number,)) for job in (teller, reporter) for number in range(3)]
    for thread in threads:
        thread.start()
    for thread in threads:
        thread.join()
head = [{"record": "esr", "format": 2, "system": f"SQLite {sqlite3.sqlite_version}"}]
items = [{"item": f"account/{account}", "value": 1000, "version": "0"} for account in range(ACCOUNTS)]
with open(sys.argv[2], "w", encoding="utf-8") as file:
    file.writelines(json.dumps(line) + "\n" for line in head + items + transactions)
