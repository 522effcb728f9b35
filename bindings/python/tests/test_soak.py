"""Eight threads with exceptions, deadlocks, reports and renewals: every committed update is in the script of one history,
and the audits of the bank are those of the scripts.

`ESR_SOAK_SECONDS` is the duration, 2 by default. On a slow machine the load continues until each kind of event has occurred.
`ESR_PROGRAM` names the program `esr`, which audits each script.
"""

import collections
import csv
import io
import os
import queue
import subprocess
import threading
import time
import unittest
from unittest import mock

from esr import Bank, Deadlock

PROGRAM = os.environ.get("ESR_PROGRAM")
SECONDS = float(os.environ.get("ESR_SOAK_SECONDS", "2"))
# How long the load continues at most after its duration, in seconds.
PATIENCE = 120
LARGE = 10**9
NAMES = [f"account{n}" for n in range(12)]


class Overdrawn(Exception):
    """An exception of a body."""


def shown(finding):
    """The finding as `audits_of` has it."""
    return finding.distance, finding.charged, finding.before


def begun_in(script):
    """The transactions of a script in the order of their numbers, and those that are updates."""
    begins = [line.split() for line in script.splitlines() if line.startswith("begin ")]
    return [words[1] for words in begins], {words[1] for words in begins if words[2] == "update"}


def audits_of(script):
    """The audits by the program of the reports of a script."""
    ran = subprocess.run([PROGRAM, "audit"], input=script, capture_output=True, text=True, check=True)
    numbers, found = {txn: number for number, txn in enumerate(begun_in(script)[0], 1)}, {}
    for line in ran.stdout.splitlines():
        words = line.split()
        if words[0] == "audit":
            before = () if words[7] == "-" else tuple(numbers[txn] for txn in words[7].split(","))
            found[words[1]] = int(words[3]), int(words[5]), before
    return found


class Histories:
    """The histories of a bank, which are checked as they end, and whose threads' work is compared with them at last."""

    def __init__(self):
        self.waiting, self.errors = queue.Queue(), []
        self.committed, self.audits, self.count = collections.Counter(), {}, 0
        self.thread = threading.Thread(target=self.check_all)
        self.thread.start()

    def close(self, bank):
        """Keeps a history that ends: `before_renewal` calls it, and audits what was not audited."""
        for report in bank.due():
            shown(report.finding)
        self.waiting.put((bank.script(), bank.ledger()))

    def check_all(self):
        for script, ledger in iter(self.waiting.get, None):
            try:
                self.check(script, ledger)
            except Exception as error:
                self.errors.append(error)

    def check(self, script, ledger):
        rows = list(csv.DictReader(io.StringIO(ledger)))
        committed = [row["name"] for row in rows if (row["kind"], row["end"]) == ("update", "committed")]
        self.committed.update(committed)
        self.count += 1
        begun = begun_in(script)[1]
        updates = [line for line in script.splitlines() if line.startswith("commit ") and line.split()[1] in begun]
        assert len(updates) == len(committed), f"{len(updates)} updates in the script, {len(committed)} in the ledger"
        if PROGRAM:
            self.audits.update(audits_of(script))

    def end(self, bank):
        self.close(bank)
        self.waiting.put(None)
        self.thread.join()


class Soak(unittest.TestCase):
    def setUp(self):
        self.end = time.monotonic() + SECONDS
        self.change, self.committed, self.reports = collections.Counter(), set(), []
        self.failed = collections.Counter()

    def figures(self, bank):
        """What has to occur at least once."""
        metrics = bank.metrics()
        return metrics.updates, metrics.reports, metrics.aborts, metrics.renewals

    def continues(self, bank):
        """Whether the load continues: for its duration, and until each kind of event has occurred."""
        now = time.monotonic()
        return now < self.end or now < self.end + PATIENCE and not all(self.figures(bank))

    def client(self, bank, one):
        """Moves money until the end, in functions and step by step. Some bodies fail, and some close a ring."""
        seed, count = one, 0
        while self.continues(bank):
            seed = seed * 1_103_515_245 + 12_345 & 0x7FFFFFFF
            source, target, kind = NAMES[(seed >> 8) % 12], NAMES[(seed >> 14) % 12], (seed >> 20) % 40
            count += 1
            name = f"c{one}x{count}"

            def body(update):
                update.add(source, -10)
                if kind < 3:
                    raise Overdrawn
                if kind < 12:
                    time.sleep(0.0001)
                update.add(target, 10)

            try:
                if kind % 2:
                    bank.transact(LARGE, body, name=name)
                else:
                    with bank.update(LARGE, name=name) as update:
                        body(update)
            except (Overdrawn, Deadlock) as error:
                self.failed[one, type(error)] += 1
                continue
            self.change[one, source] -= 10
            self.change[one, target] += 10
            self.committed.add(name)

    def clerk(self, bank, one, audits):
        """Sums all accounts until the end, and audits every report at once or none."""
        count = 0
        while self.continues(bank):
            count += 1
            with bank.report(LARGE, name=f"r{one}x{count}") as report:
                total = 0
                for name in NAMES:
                    total += report.read(name)
                    time.sleep(0.0001)
            self.reports.append((report, total))
            if audits:
                shown(report.finding)
            time.sleep(0.05)

    def test_every_history_is_accepted(self):
        histories, errors = Histories(), []
        bank = Bank({name: 1_000 for name in NAMES}, before_renewal=histories.close)

        def caught(body, *words):
            try:
                body(bank, *words)
            except BaseException as error:
                errors.append(error)

        bodies = [(self.client, one) for one in range(1, 7)] + [(self.clerk, 7, True), (self.clerk, 8, False)]
        threads = [threading.Thread(target=caught, args=words) for words in bodies]
        # short histories, so that a short run has some renewals
        with mock.patch("esr._bank.NEARLY_FULL", 960_000):
            for thread in threads:
                thread.start()
            for thread in threads:
                thread.join()
        histories.end(bank)
        self.assertEqual((errors, histories.errors), ([], []))
        self.compare(bank, histories)

    def compare(self, bank, histories):
        metrics, compared = bank.metrics(), 0
        self.assertEqual((set(histories.committed), max(histories.committed.values())), (self.committed, 1))
        for name in NAMES:
            self.assertEqual(bank[name], 1_000 + sum(self.change[one, name] for one in range(1, 7)))
        for report, total in self.reports:
            finding = report.finding
            self.assertLessEqual(abs(total - 12_000), finding.distance)
            if finding.is_exact and PROGRAM:
                self.assertEqual(histories.audits[report.name], shown(finding), report.name)
                compared += 1
        self.assertEqual((metrics.updates, metrics.reports), (len(self.committed), len(self.reports)))
        self.assertEqual((metrics.aborts, metrics.active), (sum(self.failed.values()), 0))
        self.assertGreater(min(self.figures(bank)), 0)
        deadlocks = sum(count for (_, kind), count in self.failed.items() if kind is Deadlock)
        print(f"{metrics.updates} updates, {metrics.aborts} failed, {metrics.deadlocks} deadlocks, {deadlocks} of them raised")
        print(f"{histories.count} histories, {metrics.carried} updates carried, {compared} of {metrics.reports} audits")


if __name__ == "__main__":
    unittest.main()
