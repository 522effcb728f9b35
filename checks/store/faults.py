"""Stores that fail: a full disk, connections that are cut at COMMIT, a server that is killed.

usage: faults.py full FOLDER           a folder on a small file system that is its own
       faults.py cut DSN TIMES         cuts by turns before the server has the COMMIT and before the reply
       faults.py server DSN PATIENCE   kills the server four times

In each, eight threads transfer and one reports. Then the store is reopened, and compared with the transfers that were answered.
"""

import os
import sys
import threading
import time

from transfers import ACCOUNTS, COUNTERS, ITEMS, THREADS, TOTAL, Balances, demand, store_of, transfer


class Load:
    """Transfers and reports by threads, until they are ended or the bank stops."""

    def __init__(self, bank):
        self.bank, self.runs = bank, True
        self.answered, self.unknown, self.reports, self.off, self.said = [0] * THREADS, set(), 0, 0, set()
        self.threads = [threading.Thread(target=self.teller, args=(k,)) for k in range(THREADS)]
        self.threads.append(threading.Thread(target=self.reporter))
        self.errors = []
        for thread in self.threads:
            thread.start()

    def teller(self, thread):
        from esr import Blocked, StoreStopped

        number = self.answered[thread] = self.bank[COUNTERS[thread]]
        while self.runs:
            try:
                transfer(self.bank, thread, number + 1, stepwise=number % 4 == 0)
            except Blocked as why:
                self.said.add(type(why).__name__)
                continue
            except StoreStopped as why:
                if why.is_written is None:
                    self.unknown.add(thread)
                self.said.add(str(why).replace("\n", " ")[:120])
                return
            except BaseException as why:
                self.errors.append(why)
                raise
            number += 1
            self.answered[thread] = number

    def reporter(self):
        from esr import EsrError, StoreStopped

        while self.runs:
            try:
                with self.bank.report(10**12) as report:
                    total = sum(report.read(name) for name in ACCOUNTS)
                distance = report.finding.distance
            except StoreStopped:
                return
            except EsrError as why:
                self.said.add(f"report: {why}")
                continue
            if abs(total - TOTAL) > distance:
                self.errors.append(f"a report is off by {abs(total - TOTAL)}, and its distance is {distance}")
            self.reports, self.off = self.reports + 1, self.off + (distance > 0)
            time.sleep(0.002)

    def count(self):
        return sum(self.answered)

    def has_stopped(self):
        return self.bank._queue.stopped is not None

    def end(self):
        self.runs = False
        for thread in self.threads:
            thread.join()
        demand(not self.errors, f"{self.errors}")

    def compare(self, store):
        """Reopens the store. Returns how many transfers it has that were not answered."""
        from esr import Bank

        self.bank.close()
        with Bank(store=store) as bank:
            kept = Balances().compare(bank.snapshot(), "reopened")
        for thread, (answered, number) in enumerate(zip(self.answered, kept)):
            allowed = answered + (thread in self.unknown)
            demand(
                answered <= number <= allowed,
                f"thread {thread} was answered {answered}, and the store has {number}; its last one is"
                f" {'unknown' if thread in self.unknown else 'certainly not there'}",
            )
        return sum(kept) - self.count()

    def summary(self):
        stopped = "stopped" if self.has_stopped() else "runs"
        return (
            f"{self.count():,} transfers answered, all there; {self.reports:,} reports, {self.off:,} off; the bank {stopped}"
            f"{'; ' if self.said else ''}{'; '.join(sorted(self.said))}"
        )


def full(folder):
    """A disk that is full for a second, twice: with a patience that bridges it, and with one that may not."""
    from esr import Bank

    for patience in (10.0, 0.2):
        path = os.path.join(folder, f"bank{patience}.db")
        load = Load(Bank(ITEMS, store=store_of("sqlite", path), store_patience=patience))
        time.sleep(0.5)
        before, ballast = load.count(), os.path.join(folder, "ballast")
        try:
            with open(ballast, "wb", buffering=0) as file:
                while True:
                    file.write(b"x" * 4096)
        except OSError:
            pass
        time.sleep(1)
        while_full = load.count() - before
        os.remove(ballast)
        time.sleep(1)
        load.end()
        more, summary = load.compare(store_of("sqlite", path)), load.summary()
        print(f"full disk, patience {patience} s: {while_full:,} of them while it was full, {more} more there; {summary}", flush=True)
        for name in os.listdir(folder):
            os.remove(os.path.join(folder, name))


def cut(dsn, times):
    from proxy import Proxy

    from esr import Bank

    folder = dsn.split("host=")[1].split()[0]
    rest = " ".join(word for word in dsn.split() if not word.startswith("host="))
    proxy = Proxy(os.path.join(folder, ".s.PGSQL.5432"))
    through = f"host=127.0.0.1 port={proxy.port} sslmode=disable gssencmode=disable {rest}"
    load = Load(Bank(ITEMS, store=store_of("postgresql", through)))
    for k in range(int(times)):
        time.sleep(0.03)
        proxy.cut = ("before", "after")[k % 2]
        until = time.monotonic() + 30
        while proxy.cut:
            demand(not load.has_stopped() and time.monotonic() < until, f"the bank goes through the cuts: {load.said}")
            time.sleep(0.002)
    time.sleep(0.2)
    load.end()
    more = load.compare(store_of("postgresql", dsn))
    demand(not load.has_stopped(), f"the bank goes through the cuts: {load.said}")
    print(f"cut at COMMIT {proxy.cuts} times: {more} more there; {load.summary()}", flush=True)


def server(dsn, patience, stop, start):
    from esr import Bank

    load = Load(Bank(ITEMS, store=store_of("postgresql", dsn), store_patience=float(patience)))
    for _ in range(4):
        time.sleep(0.5)
        stop()
        time.sleep(0.5)
        start()
    time.sleep(1)
    load.end()
    more = load.compare(store_of("postgresql", dsn))
    print(f"server killed 4 times, patience {patience} s: {more} more there; {load.summary()}", flush=True)


if __name__ == "__main__":
    {"full": full, "cut": cut}[sys.argv[1]](*sys.argv[2:])
