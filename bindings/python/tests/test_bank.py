"""The Python package as threads use it. ESR_SOAK_SECONDS is the duration of the soak test, 2 by default."""

import collections
import contextlib
import csv
import doctest
import io
import json
import os
import random
import subprocess
import threading
import time
import unittest

import esr
import esr._sqlite
from esr import Bank, Blocked, Deadlock, EsrError, OutOfRange, Refused, UnknownItem


PROGRAM = os.environ.get("ESR_PROGRAM")
LEDGER = [("t1", "100", "committed", ""), ("t2", "100", "committed", "100")]


def two_accounts(**words):
    return Bank({"checking": 500, "savings": 1500}, **words)


def busy_day(draw):
    """Four updates and three reports that go on side by side, of which some are blocked; the bank, and the reports."""
    names = [f"account{n}" for n in range(5)]
    bank = Bank({name: 1000 for name in names}, weights={names[0]: 3}, patience=0)
    with contextlib.ExitStack() as active:
        updates = [active.enter_context(bank.update(200)) for _ in range(4)]
        reports = [active.enter_context(bank.report(150, strict=n == 1)) for n in range(3)]
        for _ in range(80):
            with contextlib.suppress(Blocked, Deadlock):
                if draw.randrange(2):
                    draw.choice(updates).add(draw.choice(names), draw.randrange(-9, 10))
                else:
                    draw.choice(reports).read(draw.choice(names))
    return bank, reports


def together(*bodies):
    """Runs bodies in separate threads, and raises the first error of any."""
    errors = []

    def run(body):
        try:
            body()
        except BaseException as error:
            errors.append(error)

    threads = [threading.Thread(target=run, args=[body]) for body in bodies]
    for thread in threads:
        thread.start()
    for thread in threads:
        thread.join()
    if errors:
        raise errors[0]


def load_tests(loader, tests, pattern):
    """The examples of the documentation are tests too."""
    for module in (esr, esr._bank, esr._transactions, esr._errors, esr._metrics, esr._store, esr._sqlite):
        tests.addTests(doctest.DocTestSuite(module))
    return tests


class Banks(unittest.TestCase):
    def test_a_report_tells_how_far_it_was(self):
        """Between the halves of a transfer a report is off by 100, in either of two ways of saying it."""
        bank = two_accounts()
        with bank.update(200) as transfer:
            transfer.write("checking", 400)
            with bank.report(200) as report:
                total = report.read("checking") + report.read("savings")
            finding = report.finding
            transfer.write("savings", 1600)
        self.assertEqual((total, finding.distance, finding.charged, finding.before), (1900, 100, 100, ()))
        self.assertEqual(json.loads(report.bundle())["certificate"]["worth"], 100)
        self.assertEqual((bank["checking"], bank["savings"], bank.imported), (400, 1600, 100))

    def test_what_happened_is_told(self):
        """The script has the names of the items, or their numbers if a script cannot contain one."""
        bank = two_accounts()
        with bank.update(200) as transfer:
            transfer.write("checking", 400)
        with bank.report(200) as report:
            report.read("checking")
        self.assertEqual(
            bank.script(),
            "item checking 500\nitem savings 1500\nbegin t1 update 200\nwrite t1 checking 400\ncommit t1\n"
            "begin t2 query 200\nread t2 checking\ncommit t2\n",
        )
        self.assertEqual(Bank({"my savings": 1, "checking": 2}).script(), "item i0 1\nitem checking 2\n")

    def test_a_report_is_explained_and_drawn(self):
        """To the byte, by the names of the items; a notebook shows the picture, if there is one."""
        bank = two_accounts()
        with bank.update(200) as transfer:
            transfer.write("checking", 400)
            with bank.report(200) as report:
                report.read("checking")
                self.assertIsNone(report._repr_svg_())
            transfer.write("savings", 1600)
        told = (
            "read checking 400 nearest 500 off 100\n"
            "charge read t1 checking amount 100 step 4 import left 100 of 200 export left 100 of 200\n"
            "before -\nafter -\ndistance 100 import 100\n"
        )
        self.assertEqual((report.explain(), report.finding.explain()), (told, told))
        picture = report.finding._repr_svg_()
        self.assertEqual(picture, report.picture())
        self.assertTrue(picture.startswith("<svg") and picture.endswith("</svg>\n") and "checking" in picture)
        rows = list(csv.DictReader(io.StringIO(bank.ledger())))
        self.assertEqual([(row["name"], row["charged"], row["end"], row["distance"]) for row in rows], LEDGER)
        with self.assertRaises(EsrError):
            esr.Query(bank, 0, False).explain()

    @unittest.skipUnless(PROGRAM, "ESR_PROGRAM names no program")
    def test_the_program_tells_the_same(self):
        """Explanations, pictures and the ledger are to the byte those of the program over the history's script."""
        for seed in range(20):
            bank, reports = busy_day(random.Random(seed))

            def told(*words, script=bank.script()):
                return subprocess.run([PROGRAM, *words], input=script, capture_output=True, text=True, check=True).stdout

            self.assertEqual(bank.ledger(), told("ledger", "--format", "csv"))
            for report in reports:
                name = f"t{report.number}"
                self.assertEqual((report.explain(), report.picture()), (told("explain", name), told("picture", name)))

    def test_reads_in_one_call(self):
        """The values are in the order of the names; a blocked read is retried, and the rest is read after it."""
        bank = two_accounts(patience=5)
        with bank.report(0) as report:
            self.assertEqual(report.read_all(["savings", "checking"]), [1500, 500])
            self.assertEqual(report.read_all([]), [])
            with self.assertRaises(UnknownItem):
                report.read_all(["pocket"])
        has_written = threading.Event()

        def late_commit():
            with bank.update(0) as transfer:
                transfer.write("savings", 1400)
                has_written.set()
                time.sleep(0.05)

        def read():
            has_written.wait()
            with bank.report(0) as report:
                self.assertEqual(report.read_all(["checking", "savings"]), [500, 1400])

        together(late_commit, read)

    def test_an_exception_takes_back(self):
        """What an update wrote before an exception is gone, and its locks with it."""
        bank = two_accounts(patience=0.01)
        with self.assertRaises(ZeroDivisionError):
            with bank.update(100) as update:
                update.write("checking", 1 // 0 if update.add("checking", 5) else 0)
        self.assertEqual(bank["checking"], 500)
        with bank.update(0) as update:
            self.assertEqual(update.add("checking", 1), 501)

    def test_what_is_refused_says_why(self):
        """Unknown names, invalid values and limits; a write that stays blocked names its blocker."""
        bank = two_accounts(patience=0.01)
        with self.assertRaisesRegex(UnknownItem, "'pocket'"):
            with bank.update(0) as update:
                update.read("pocket")
        with self.assertRaises(OutOfRange):
            Bank({"a": 10**13})
        with self.assertRaises(OutOfRange):
            with bank.update(10**18 + 1):
                pass
        with bank.update(0) as first:
            first.write("checking", 1)
            with self.assertRaises(Blocked) as caught:
                with bank.update(0) as second:
                    second.write("checking", 2)
            self.assertEqual((caught.exception.number, caught.exception.other), (9, first.number))
            with self.assertRaises(Refused):
                first.write("checking", 10**13)

    def test_weights_and_charges(self):
        """A weighted item's differences count as money, and the charges can be queried while a report continues."""
        bank = Bank({"phones": 15, "money": 0}, weights={"phones": 900})
        with bank.update(900) as sale:
            sale.add("phones", -1)
            with bank.report(900) as report:
                self.assertEqual((report.read("phones"), report.charged, sale.charged), (14, 900, 900))
            self.assertEqual(report.finding.distance, 900)
            sale.add("money", 900)
        with self.assertRaises(UnknownItem):
            Bank({"a": 1}, weights={"b": 1})

    def test_a_deadlock_is_given_up_by_the_younger(self):
        """Two updates hold the lock that the other needs: one detects it at once, and both commit after a retry."""
        bank, met, runs = two_accounts(patience=10, optimistic=False), threading.Barrier(2), []

        def move(first, second):
            waited = []

            def body(update):
                runs.append(first)
                update.add(first, 1)
                if not waited:
                    waited.append(met.wait())
                update.add(second, 1)

            bank.transact(100, body)

        begun = time.monotonic()
        together(lambda: move("checking", "savings"), lambda: move("savings", "checking"))
        self.assertLess(time.monotonic() - begun, 5)
        self.assertEqual((bank["checking"], bank["savings"], len(runs)), (502, 1502, 3))

    def test_a_ring_that_nobody_finds_is_left(self):
        """A report at its limit waits for an update that waits for the report: the update is restarted."""
        bank, runs = two_accounts(optimistic=False), []
        has_written, has_read = threading.Event(), threading.Event()

        def move(update):
            runs.append(update.number)
            update.add("checking", -100)
            has_written.set()
            has_read.wait()
            update.add("savings", 100)

        def look():
            has_written.wait()
            with bank.report(50) as report:
                total = report.read("savings")
                has_read.set()
                total += report.read("checking")
            self.assertEqual(total, 2000)

        together(lambda: bank.transact(1_000, move), look)
        self.assertEqual((len(runs) > 1, bank["checking"], bank["savings"]), (True, 400, 1600))

    def test_patience_ends(self):
        """A blocker that outlasts the patience is named, and nothing stays active; a slow one is waited for."""
        bank, runs = two_accounts(patience=0.3), []
        with bank.update(0) as holder:
            holder.write("checking", 1)
            begun = time.monotonic()
            with self.assertRaises(Blocked) as caught:
                bank.transact(0, lambda update: runs.append(update.number) or update.add("checking", 1))
            self.assertGreaterEqual(time.monotonic() - begun, 0.3)
            self.assertEqual((caught.exception.other, len(runs) > 1), (holder.number, True))
        bank, runs = two_accounts(patience=0.1, optimistic=False), []

        def within(update):
            runs.append(update.number)
            update.write("checking", 1)
            with bank.update(0) as other:
                other.write("checking", 2)

        with self.assertRaises(Blocked):
            bank.transact(0, within)
        self.assertEqual((len(runs), bank["checking"], bank.counts.active), (1, 500, 0))
        bank, has_written = two_accounts(), threading.Event()

        def hold():
            with bank.update(0) as holder:
                holder.write("checking", 1)
                has_written.set()
                time.sleep(0.3)

        def add():
            has_written.wait()
            self.assertEqual(bank.transact(0, lambda update: update.add("checking", 1)), 2)

        together(hold, add)

    def test_a_bank_renews_itself(self):
        """65,535 transactions and one more: the report that is due is looked at before its history is gone."""
        seen = []
        bank = Bank({"hits": 0}, before_renewal=lambda bank: seen.extend(q.finding.distance for q in bank.due()))
        with bank.report(0) as report:
            report.read("hits")
        with bank.report(0) as late:
            late.read("hits")
        self.assertEqual(late.finding.distance, 0)
        for _ in range(65_535):
            with bank.update(1) as update:
                update.add("hits", 1)
        self.assertEqual((bank.renewals, seen, bank["hits"]), (1, [0], 65_535))
        self.assertEqual(report.finding.distance, 0)
        self.assertIsNone(report.finding._repr_svg_())
        for tell in (report.bundle, report.explain, report.finding.explain):
            with self.assertRaises(EsrError):
                tell()

    def test_an_optimistic_update_is_an_ordinary_one(self):
        """The history has its first reads and its last writes; it reads its own writes, and refusals are the same."""
        bank = two_accounts(optimistic=True)

        def move(update):
            before = update.read("checking")
            update.write("checking", 1)
            update.write("checking", before - 100)
            update.add("savings", 100)
            self.assertEqual(update.read_all(["checking", "savings"]), [400, 1600])
            return before, update.charged

        self.assertEqual(bank.transact(200, move), (500, 0))
        self.assertEqual(
            bank.script(),
            "item checking 500\nitem savings 1500\nbegin t1 update 200\nread t1 checking\nwrite t1 checking 400\n"
            "read t1 savings\nwrite t1 savings 1600\ncommit t1\n",
        )
        self.assertEqual(bank.snapshot(), {"checking": 400, "savings": 1600})
        for error, body in [
            (UnknownItem, lambda update: update.read("pocket")),
            (Refused, lambda update: update.write("checking", 10**12 + 1)),
            (ZeroDivisionError, lambda update: update.write("checking", 1 // 0)),
        ]:
            with self.assertRaises(error):
                bank.transact(0, body)
        with self.assertRaises(OutOfRange):
            bank.transact(10**18 + 1, lambda update: update.read("checking"))
        self.assertEqual((bank["checking"], bank.counts.active, bank.counts.transactions), (400, 0, 1))

    def test_an_overtaken_function_runs_anew(self):
        """It never sees an inconsistent set of values, not even if it swallows its errors."""
        for swallows in (False, True):
            bank, runs = two_accounts(optimistic=True), []

            def move(update):
                runs.append(update)
                checking = update.read("checking")
                if len(runs) == 1:
                    bank.transact(200, lambda other: (other.add("checking", -100), other.add("savings", 100)))
                try:
                    savings = update.read("savings")
                except EsrError as why:
                    if swallows:
                        return update.number
                    raise ValueError from why
                self.assertEqual(checking + savings, 2000)
                return update.add("savings", 1)

            self.assertEqual((bank.transact(200, move), len(runs)), (1601, 2))
            self.assertEqual(bank.snapshot(), {"checking": 400, "savings": 1601})

    def test_an_optimistic_update_waits(self):
        """For a lock, and for a report whose limit is in its way; a report that has read is charged for it."""
        bank, has_read = two_accounts(optimistic=True), threading.Event()
        with bank.report(100) as report:
            self.assertEqual(report.read("checking"), 500)
            bank.transact(100, lambda update: update.add("checking", -100))
            self.assertEqual(report.charged, 100)

        def slow(limit):
            with bank.report(0) as report:
                value = report.read("checking")
                has_read.set()
                time.sleep(0.05)
                self.assertEqual(report.read("checking"), value)

        def hold():
            with bank.update(1) as update:
                update.add("savings", 1)
                has_read.set()
                time.sleep(0.05)

        for body, item, value in [(lambda: slow(0), "checking", 401), (hold, "savings", 1502)]:
            has_read.clear()
            thread = threading.Thread(target=body)
            thread.start()
            has_read.wait()
            self.assertEqual(bank.transact(100, lambda update: update.add(item, 1)), value)
            thread.join()

    def test_audits_and_texts_are_made_once(self):
        """Their capacity is reserved from the start."""
        bank, calls = two_accounts(), []
        for _ in range(200):
            with bank.update(0) as update:
                update.add("checking", 1)
        with bank.report(0) as report:
            report.read_all(["checking", "savings"] * 200)
        library = esr._bank.c.library
        for name in ("esr_audit", "esr_bundle", "esr_explain", "esr_picture", "esr_history_script", "esr_ledger"):
            call = getattr(library, name)
            setattr(library, name, lambda *words, call=call, name=name: calls.append(name) or call(*words))
            self.addCleanup(setattr, library, name, call)
        self.assertEqual(report.finding.before, tuple(range(1, 201)))
        texts = [report.bundle(), report.explain(), report.picture(), bank.script(), bank.ledger()]
        self.assertTrue(all(texts))
        self.assertEqual(len(calls), len(set(calls)))

    def test_a_soak_loses_nothing_either_way(self):
        for words in ({}, {"optimistic": False}):
            self.soak(**words)

    def soak(self, **words):
        """Eight threads move money and read sums: no sum is off by more than it imported, the accounts contain
        exactly the transfers reported as committed, and no thread is stuck."""
        names = [f"account{n}" for n in range(16)]
        bank, change = Bank({name: 1000 for name in names}, **words), collections.Counter()
        end, counts = time.monotonic() + float(os.environ.get("ESR_SOAK_SECONDS", "2")), collections.Counter()

        def client(seed):
            mine = collections.Counter()
            while time.monotonic() < end:
                seed = seed * 1_103_515_245 + 12_345 & 0x7FFFFFFF
                source, target = names[seed >> 8 & 15], names[seed >> 16 & 15]
                bank.transact(100_000, lambda update: (update.add(source, -10), update.add(target, 10)))
                mine[source] -= 10
                mine[target] += 10
                mine["transfers"] += 1
            with bank._lock:
                change.update(mine)

        def clerk():
            while time.monotonic() < end:
                with bank.report(1_000_000) as report:
                    total = sum(report.read(name) for name in names)
                finding = report.finding
                self.assertLessEqual(abs(total - 16_000), finding.distance)
                self.assertLessEqual(finding.distance, finding.charged)
                counts["reports"] += 1
                time.sleep(0.1)  # an audit of a long history takes the bank's lock for as long

        together(*[lambda seed=seed: client(seed) for seed in range(1, 8)], clerk)
        self.assertLess(time.monotonic(), end + 10)
        self.assertEqual({name: bank[name] for name in names}, {name: 1000 + change[name] for name in names})
        print(f"{change['transfers']} transfers, {counts['reports']} reports, {bank.renewals} renewals")


if __name__ == "__main__":
    unittest.main()
