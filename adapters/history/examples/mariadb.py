"""Records a bank in MariaDB: mariadb.py LEVEL RECORD. Needs pymysql, and MARIADB_SOCKET with a database `test`.

The column `ver` is the label of a version: each writer sets it to a fresh number.
"""

import getpass
import itertools
import json
import os
import random
import sys
import threading
import time

import pymysql

LEVEL, ACCOUNTS, SECONDS, fresh, transactions = sys.argv[1], 40, 2.0, itertools.count(1), []
USER = os.environ.get("MARIADB_USER", getpass.getuser())


def connect():
    connection = pymysql.connect(unix_socket=os.environ["MARIADB_SOCKET"], user=USER, database="test", autocommit=True)
    run(connection, f"set session transaction isolation level {LEVEL}")
    return connection


def run(connection, statement, *values):
    with connection.cursor() as cursor:
        cursor.execute(statement, values)
        return cursor.fetchall()


def record(name, began, ended, operations):
    line = {"transaction": name, "outcome": "committed", "level": LEVEL, "began": began, "ended": ended}
    transactions.append({**line, "operations": operations})


def teller(number):
    connection, chosen = connect(), random.Random(number)
    for count in itertools.takewhile(lambda _: time.monotonic() < until, itertools.count()):
        operations, began, amount = [], time.monotonic_ns(), chosen.randrange(1, 100)
        run(connection, "begin")
        for account, change in zip(sorted(chosen.sample(range(ACCOUNTS), 2)), (-amount, amount)):
            ((value, label),) = run(connection, "select value, ver from account where id = %s for update", account)
            new = next(fresh)
            run(connection, "update account set value = %s, ver = %s where id = %s", value + change, new, account)
            operations.append(["read", f"account/{account}", value, str(label)])
            operations.append(["write", f"account/{account}", value + change, str(new)])
        ended = time.monotonic_ns()  # (the next writer of a row takes it after the commit)
        run(connection, "commit")
        record(f"teller{number}_{count}", began, ended, operations)


def reporter(number):
    connection = connect()
    for count in itertools.takewhile(lambda _: time.monotonic() < until, itertools.count()):
        operations, began = [], time.monotonic_ns()
        run(connection, "begin")
        for account in range(ACCOUNTS):
            ((value, label),) = run(connection, "select value, ver from account where id = %s", account)
            operations.append(["read", f"account/{account}", value, str(label)])
        run(connection, "commit")
        record(f"report{number}_{count}", began, time.monotonic_ns(), operations)


opened = connect()
run(opened, "create or replace table account(id int primary key, value bigint, ver bigint) engine = innodb")
for account in range(ACCOUNTS):
    run(opened, "insert into account values (%s, 1000, 0)", account)
until = time.monotonic() + SECONDS
threads = [threading.Thread(target=job, args=(number,)) for job in (teller, reporter) for number in range(3)]
for thread in threads:
    thread.start()
for thread in threads:
    thread.join()
head = [{"record": "esr", "format": 2, "system": f"MariaDB {run(opened, 'select version()')[0][0]}"}]
items = [{"item": f"account/{account}", "value": 1000, "version": "0"} for account in range(ACCOUNTS)]
with open(sys.argv[2], "w", encoding="utf-8") as file:
    file.writelines(json.dumps(line) + "\n" for line in head + items + transactions)
