"""The bank: tellers move money between accounts while reports add up all of them.

Each transfer moves some units from one account to another, so the sum never changes. A report reads the accounts one by
one, as a program does that processes each. It is the example of README.md, and `checks/postgresql` runs it at several
isolation levels.
"""

from __future__ import annotations

import contextlib
import random
import threading
import time
from dataclasses import dataclass
from typing import Any, Callable, Iterator

import psycopg2

from esr_history.record import Record

from .recorder import Recorder
from .tables import RecordingError, Table

SCHEMA = "esr_bank"
TABLE = Table(f"{SCHEMA}.accounts", ("id",), "balance")
OPENING = 1000

Job = Callable[[Any, random.Random], None]  # one transaction of a teller or a reporter


@dataclass(frozen=True)
class Bank:
    """The parameters of a bank. With `locks`, updates at read committed read FOR UPDATE, which keeps them from losing
    updates."""

    updates: str = "read committed"
    reports: str = "read committed"
    seconds: float = 4.0
    accounts: int = 60
    tellers: int = 6
    reporters: int = 2
    locks: bool = True

    def record(self, dsn: str) -> Record:
        """Runs the bank in its own schema, which is dropped afterwards."""
        with _schema(dsn, self.accounts):
            recorder = Recorder(dsn, [TABLE])
            jobs: list[tuple[str, str, Job]] = []
            jobs += [(f"teller{number}", self.updates, self._transfer) for number in range(1, self.tellers + 1)]
            jobs += [(f"report{number}", self.reports, self._report) for number in range(1, self.reporters + 1)]
            errors: list[BaseException] = []
            opened = threading.Barrier(len(jobs))
            threads = [threading.Thread(target=self._work, args=(recorder, *job, opened, errors)) for job in jobs]
            for thread in threads:
                thread.start()
            for thread in threads:
                thread.join()
            if errors:
                raise errors[0]
            return recorder.finish()

    def _work(
        self,
        recorder: Recorder,
        label: str,
        level: str,
        job: Job,
        opened: threading.Barrier,
        errors: list[BaseException],
    ) -> None:
        """Repeats a job, once all have a connection. A transaction that the server refuses is rolled back, as in an
        application that retries with other values."""
        chosen = random.Random(label)
        try:
            connection = recorder.connect(label)
            connection.set_session(isolation_level=level)
            opened.wait()
            until = time.monotonic() + self.seconds
            while time.monotonic() < until:
                try:
                    job(connection.cursor(), chosen)
                    connection.commit()
                except psycopg2.extensions.TransactionRollbackError:
                    connection.rollback()
            connection.close()
        except threading.BrokenBarrierError:
            pass  # (another could not connect, and has reported it)
        except BaseException as error:  # (raised by the thread that waits for this one)
            errors.append(error)
            opened.abort()

    def _read(self, cursor: Any, account: int, locks: bool = False) -> int:
        statement = f"select id, balance, xmin from {TABLE.name} where id = %s" + (" for update" if locks else "")
        cursor.execute(statement, (account,))
        balance: int = cursor.fetchone()[1]
        return balance

    def _transfer(self, cursor: Any, chosen: random.Random) -> None:
        locks = self.locks and self.updates == "read committed"
        amount = chosen.randrange(1, 100) * chosen.choice((1, -1))
        accounts = sorted(chosen.sample(range(self.accounts), 2))  # (which avoids deadlocks)
        balances = [self._read(cursor, account, locks) for account in accounts]
        for account, balance in zip(accounts, (balances[0] - amount, balances[1] + amount)):
            cursor.execute(
                f"update {TABLE.name} set balance = %s where id = %s returning id, balance, xmin", (balance, account)
            )
            if chosen.random() < 0.3:
                time.sleep(0.001)

    def _report(self, cursor: Any, _: random.Random) -> None:
        for account in range(self.accounts):
            self._read(cursor, account)


@contextlib.contextmanager
def _schema(dsn: str, accounts: int) -> Iterator[None]:
    """Creates the schema of the bank while it runs."""
    connection = psycopg2.connect(dsn)
    connection.autocommit = True
    cursor = connection.cursor()
    try:
        cursor.execute(f"create schema {SCHEMA}")
    except psycopg2.errors.DuplicateSchema:
        connection.close()
        raise RecordingError(
            f"the schema {SCHEMA} is there already: another bank is running, or one was killed"
            f" (then DROP SCHEMA {SCHEMA} CASCADE)"
        ) from None
    try:
        cursor.execute(f"create table {TABLE.name}(id int primary key, balance bigint not null)")
        cursor.execute(
            f"insert into {TABLE.name} select id, %s from generate_series(0, %s) id", (OPENING, accounts - 1)
        )
        yield
    finally:
        cursor.execute(f"drop schema {SCHEMA} cascade")
        connection.close()
