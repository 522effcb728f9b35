"""What operators use: metrics over HTTP, active transactions, names, logs, the mapping."""

import collections
import contextlib
import importlib.util
import json
import pathlib
import re
import subprocess
import sys
import threading
import time
import unittest
import urllib.error
import urllib.request
from unittest import mock

import esr
from esr import Bank, Deadlock

HERE = pathlib.Path(__file__).resolve().parent


def dashboard_module():
    spec = importlib.util.spec_from_file_location("dashboard", HERE.parent / "examples/dashboard.py")
    module = importlib.util.module_from_spec(spec)
    spec.loader.exec_module(module)
    return module


def samples_of(text):
    """The samples of a page in Prometheus' text format. Each name has its HELP and TYPE before."""
    samples, types = {}, {}
    for line in text.splitlines():
        if line.startswith("# "):
            _, word, name, said = line.split(" ", 3)
            if word == "TYPE":
                types[name] = said
            continue
        name, value = line.rsplit(" ", 1)
        family = re.sub(r"\{.*|(_bucket|_sum|_count)(?=\{|$)", "", name) if name not in types else name
        if family not in types:
            family = re.sub(r"\{.*", "", name)
        assert family in types, line
        assert types[family] in ("counter", "gauge", "histogram"), line
        assert name not in samples, line
        samples[name] = float(value)
    return samples


class CountingStore:
    def __init__(self):
        self.writes = 0

    def open(self, items):
        return dict(items)

    def write(self, number, changes):
        self.writes += 1

    def resolve(self, number):
        return True

    def close(self):
        pass


class Day:
    """A day whose every step is counted by hand."""

    def __init__(self):
        self.done = collections.Counter()
        self.failures = [OSError("disk full")]
        self.store = CountingStore()
        self.bank = Bank({"a": 0, "b": 0}, before_renewal=self.before_renewal, store=self.store, patience=20)

    def before_renewal(self, bank):
        if self.failures:
            raise self.failures.pop()

    def commit_updates(self):
        for _ in range(3):
            self.bank.transact(1_000, lambda update: update.add("a", 1))
            self.done.update(updates=1, whole=1)
        for _ in range(2):
            with self.bank.update(1_000) as update:
                update.add("a", 1)
            self.done.update(updates=1)

    def abort(self):
        for begin in (self.bank.update, self.bank.report):
            with contextlib.suppress(ZeroDivisionError), begin(0):
                1 // 0
            self.done.update(aborts=1)
        with contextlib.suppress(ZeroDivisionError):
            self.bank.transact(0, lambda update: 1 // 0)
        self.done.update(aborts=1)

    def overtake(self):
        runs = []

        def body(update):
            runs.append(update.read("a"))
            if len(runs) == 1:
                self.bank.transact(1_000, lambda other: other.add("a", 1))
            update.add("a", 1)

        self.bank.transact(1_000, body)
        assert len(runs) == 2
        self.done.update(updates=2, whole=2, reruns=1)

    def deadlock(self):
        with self.bank.update(0) as older:
            older.add("a", 1)
            younger = self.bank.update(0)
            younger.__enter__().add("b", 1)
            thread = threading.Thread(target=lambda: older.add("b", 1))
            thread.start()
            while not any(one.waits_for for one in self.bank.active()):
                time.sleep(0.001)
            try:
                younger.add("a", 1)
            except Deadlock as why:
                younger.__exit__(type(why), why, None)
                self.done.update(deadlocks=1, aborts=1)
            thread.join()
        self.done.update(updates=1, waits=2)

    def audit(self):
        with self.bank.update(100) as update:
            update.add("a", 7)
            with self.bank.report(100) as report:
                report.read("a")
            update.add("b", 1)
        found = [report.finding.distance, report.finding.distance]
        with self.bank.report(0) as report:
            report.read("a")
        found[1] = report.finding.distance
        assert found == [7, 0]
        self.done.update(updates=1, reports=2, audits=2, distance=7)

    def renew(self):
        with mock.patch("esr._bank.NEARLY_FULL", 999_999), mock.patch("esr._bank.RETRY", 0.0):
            with self.bank.report(0), self.bank.report(0):
                pass
        self.done.update(reports=2, renewals=1, renewals_put_off=1, carried_reports=1)


class Metrics(unittest.TestCase):
    maxDiff = None

    def test_every_metric_is_what_was_done(self):
        begun, day = time.monotonic(), Day()
        for step in (day.commit_updates, day.abort, day.overtake, day.deadlock, day.audit, day.renew):
            with self.assertLogs("esr", "DEBUG"):
                esr._bank.LOG.debug("so that there is a line")
                step()
        module, done = dashboard_module(), day.done
        with module.Dashboard(day.bank) as dashboard, day.bank.update(5, name="late") as late:
            late.add("a", 1)
            threading.Thread(target=dashboard.serve_forever, daemon=True).start()
            time.sleep(0.05)
            pages = {name: urllib.request.urlopen(f"{dashboard.url}/{name}") for name in ("metrics", "active", "values")}
            with self.assertRaises(urllib.error.HTTPError):
                urllib.request.urlopen(f"{dashboard.url}/nothing")
            ledger = urllib.request.urlopen(f"{dashboard.url}/ledger").read().decode()
            dashboard.shutdown()
            store_writes = day.store.writes
        samples = samples_of(pages["metrics"].read().decode())
        self.assertIn("version=0.0.4", pages["metrics"].headers["Content-Type"])
        elapsed = time.monotonic() - begun
        for name in ("wait", "renewal", "audit"):
            self.assertTrue(0 < samples.pop(f"esr_{name}_seconds_total") < elapsed, name)
        self.assertTrue(0.05 <= samples.pop("esr_oldest_active_seconds") < elapsed)
        buckets = {
            f'esr_distance_bucket{{le="{bound}"}}': 1 + (bound >= 7) for bound in [0, *(10**n for n in range(19))]
        }
        self.assertEqual(
            samples,
            {
                'esr_updates_total{way="whole"}': done["whole"],
                'esr_updates_total{way="stepwise"}': done["updates"] - done["whole"],
                "esr_reports_total": done["reports"],
                "esr_aborts_total": done["aborts"],
                "esr_reruns_total": done["reruns"],
                "esr_deadlocks_total": done["deadlocks"],
                "esr_waits_total": done["waits"],
                "esr_renewals_total": 1,
                "esr_renewals_put_off_total": 1,
                "esr_carried_updates_total": 0,
                "esr_carried_reports_total": 1,
                "esr_audits_total": 2,
                "esr_background_audits_total": 2,
                "esr_store_writes_total": store_writes,
                "esr_store_updates_total": done["updates"],
                "esr_active": 1,
                **buckets,
                'esr_distance_bucket{le="+Inf"}': 2,
                "esr_distance_sum": 7,
                "esr_distance_count": 2,
            },
        )
        self.assertEqual(dict(done, whole=5, updates=9), dict(done))
        [active] = json.loads(pages["active"].read())
        self.assertTrue(0.05 <= active.pop("age") < elapsed)
        expected = {"number": 3, "name": "late", "kind": "update", "limit": 5, "charged": 0}
        self.assertEqual(active, {**expected, "waits_for": None, "waits_at": None})
        self.assertEqual(json.loads(pages["values"].read()), {"total": 17, "values": {"a": 15, "b": 2}})
        self.assertIn("\n3,late,update,5,", ledger)

    def test_a_snapshot_has_no_work_in_progress(self):
        bank = Bank({"a": 500, "b": 1500})
        with bank.update(200) as update:
            update.add("a", -100)
            self.assertEqual(sum(bank.values()), 2000)
        self.assertEqual(bank.snapshot(), {"a": 400, "b": 1500})


class Names(unittest.TestCase):
    def test_active_transactions_and_their_waits(self):
        bank, waits = Bank({"a": 0, "b": 0}, patience=20), threading.Event()
        with bank.update(100, name="holder") as holder:
            holder.add("a", 1)

            def wait():
                with bank.update(7, name="waiting") as update:
                    waits.set()
                    update.add("a", 1)

            thread = threading.Thread(target=wait)
            thread.start()
            waits.wait()
            while not bank.active()[-1].waits_for:
                time.sleep(0.001)
            with bank.report(50, name="count") as report:
                report.read("a")
                found = [
                    (one.number, one.name, one.kind, one.limit, one.charged, one.waits_for, one.waits_at)
                    for one in bank.active()
                ]
        thread.join()
        self.assertEqual(
            found,
            [
                (1, "holder", "update", 100, 1, None, None),
                (2, "waiting", "update", 7, 0, 1, "a"),
                (3, "count", "report", 50, 1, None, None),
            ],
        )
        self.assertEqual((bank.active(), bank["a"]), ([], 2))

    def test_names_appear_in_ledger_and_script(self):
        """A script has those that it may have. The ledger has each, quoted as CSV wants it."""
        bank = Bank({"a": 0})
        for name in ("transfer", 'late, "very"', "t1", "twice", "twice", None):
            bank.transact(0, lambda update: update.add("a", 1), name=name)
        with bank.report(0, name="count") as report:
            report.read("a")
        names = [line.split()[1] for line in bank.script().splitlines() if line.startswith("begin ")]
        self.assertEqual(names, ["transfer", "t2", "t3", "t4", "t5", "t6", "count"])
        self.assertIn("\nread transfer a\nwrite transfer a 1\ncommit transfer\n", bank.script())
        import csv
        import io

        rows = list(csv.reader(io.StringIO(bank.ledger())))
        self.assertEqual([row[1] for row in rows[1:]], ["transfer", 'late, "very"', "t1", "twice", "twice", "t6", "count"])
        self.assertEqual(repr(report), "<Query 7 'count' of limit 0, ended>")
        with mock.patch("esr._bank.NEARLY_FULL", 999_990):
            bank.transact(0, lambda update: update.add("a", 1))
        self.assertEqual((bank.renewals, bank.ledger().splitlines()[1][:5]), (1, "1,t1,"))

    def test_logs(self):
        bank = Bank({"a": 0})
        with self.assertLogs("esr", "INFO") as logs, mock.patch("esr._bank.NEARLY_FULL", 999_990):
            for _ in range(5):
                bank.transact(0, lambda update: update.add("a", 1))
        self.assertRegex(logs.output[0], r"^INFO:esr:renewed the history in \d+\.\d+ s$")


class Mapping(unittest.TestCase):
    def test_a_bank_is_a_mapping(self):
        bank = Bank({"a": 1, "b": 2})
        self.assertIsInstance(bank, collections.abc.Mapping)
        self.assertEqual((list(bank), len(bank), dict(bank)), (["a", "b"], 2, {"a": 1, "b": 2}))
        self.assertEqual((list(bank.items()), list(bank.values()), list(bank.keys())), ([("a", 1), ("b", 2)], [1, 2], ["a", "b"]))
        self.assertEqual((bank.get("a"), bank.get("c"), bank.get("c", 7), "a" in bank, "c" in bank, 0 in bank), (1, None, 7, True, False, False))
        self.assertEqual((bank == bank, bank == Bank({"a": 1, "b": 2}), len({bank, bank}), bool(Bank({}))), (True, False, 1, True))
        self.assertEqual(repr(bank), "<Bank of 2 items, 0 active, 0 renewals>")

    def test_a_bank_is_a_context_manager(self):
        with Bank({"a": 1}) as bank:
            self.assertEqual(bank["a"], 1)
        self.assertEqual(repr(bank), "<Bank of 1 items, closed>")

    def test_the_version_is_that_of_the_project(self):
        project = HERE.parent / "pyproject.toml"
        self.assertIn(f'\nversion = "{esr.__version__}"\n', project.read_text(encoding="utf-8"))

    def test_every_public_name_is_there_and_documented(self):
        for name in [*esr.__all__, "SQLiteStore"]:
            with self.subTest(name):
                self.assertTrue(getattr(esr, name).__doc__)
        with self.assertRaises(AttributeError):
            esr.nothing

    def test_the_package_needs_no_database(self):
        """It imports neither SQLite nor psycopg2 nor asyncio, and all its names are there without them."""
        program = "import sys; sys.modules.update(sqlite3=None, psycopg2=None); from esr import *; Bank({'a': 1}).close()"
        program += "; print('asyncio' in sys.modules)"
        done = subprocess.run([sys.executable, "-c", program], capture_output=True, text=True, check=False)
        self.assertEqual((done.stdout, done.stderr), ("False\n", ""))


class Optimistic(unittest.TestCase):
    def test_a_slow_function_is_not_run_64_times(self):
        """Another update overtakes each run. After 50 ms of that it runs step by step and holds its locks."""
        bank, runs = Bank({"a": 0}, patience=20), []

        def slow(update):
            runs.append(1)
            value = update.read("a")
            if update.number == 0:
                bank.transact(0, lambda other: other.add("a", 1))
            time.sleep(0.03)
            update.write("a", value + 100)

        bank.transact(0, slow)
        self.assertEqual((len(runs), bank["a"]), (3, 102))


if __name__ == "__main__":
    unittest.main()
