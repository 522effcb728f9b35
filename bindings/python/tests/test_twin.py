"""Audits in the background: a second engine finds what the bank's own engine finds, and otherwise the bank audits itself.

`ESR_SOAK_SECONDS` is the duration of the random load, 2 by default. On a slow machine it continues until each kind of event has
occurred.
"""

import collections
import contextlib
import gc
import os
import random
import subprocess
import sys
import threading
import time
import unittest
import weakref
from unittest import mock

import esr
from esr import Bank, BankClosed, Blocked, Deadlock, HandleExpired
from esr._twin import Feed, audited, entries_of

SECONDS = float(os.environ.get("ESR_SOAK_SECONDS", "2"))
# How long the random load continues at most after its duration, in seconds.
PATIENCE = 120
NAMES = [f"account{n}" for n in range(6)]
LARGE = 10**9
LIBRARY = esr._bank.c.library


def audit_threads():
    return [thread for thread in threading.enumerate() if thread.name == "esr audits"]


def wait_until(condition):
    """Waits until a condition holds, which fails after 20 seconds."""
    until = time.monotonic() + 20
    while not condition():
        assert time.monotonic() < until, "it does not become so"
        time.sleep(0.001)


def shown(finding):
    return finding.distance, finding.charged, finding.before


def under_lock(bank, report):
    """The audit by the bank's own engine, or None if the report's history is gone."""
    with bank._lock:
        if report._renewals != bank.renewals:
            return None
        status, audit = audited(bank._engine, report.number)
    assert status == 0
    return audit


def count(bank, updates, item="a"):
    for _ in range(updates):
        bank.transact(0, lambda update: update.add(item, 1))


def renew(bank, item="a"):
    """Has the bank renew its history, as if it were nearly full."""
    before = bank.renewals
    with mock.patch("esr._bank.NEARLY_FULL", 999_980):
        while bank.renewals == before:
            count(bank, 1, item)


def off_by_seven(bank, item="a"):
    """A report that reads work in progress and is off by 7."""
    with bank.update(100) as update:
        update.add(item, 7)
        with bank.report(100) as report:
            report.read(item)
        update.add(item, -7)
    return report


class Load:
    """Threads that move money in every way, with exceptions and deadlocks, next to reports."""

    def __init__(self, bank):
        self.bank, self.end = bank, time.monotonic() + SECONDS
        self.counts, self.errors = [], []

    def figures(self):
        """What has to occur at least once."""
        metrics, figures = self.bank.metrics(), collections.Counter(audits=0, exact=0, compared=0, off=0)
        for counts in self.counts:
            figures.update(counts)
        return {**figures, "updates": metrics.updates, "renewals": metrics.renewals, "carried": metrics.carried}

    def continues(self):
        """Whether the load continues: for its duration, and until each kind of event has occurred."""
        now = time.monotonic()
        return now < self.end or now < self.end + PATIENCE and not all(self.figures().values())

    def body(self, draw):
        source, target, kind = draw.choice(NAMES), draw.choice(NAMES), draw.randrange(8)

        def body(update):
            if kind == 0:
                update.read_all(NAMES[:3])
            update.add(source, -7)
            if kind < 4:
                time.sleep(0.0001)
            update.write(target, update.read(target) + 7)
            update.add(target, 0)
            if kind == 1:
                raise ZeroDivisionError

        return body

    def client(self, seed):
        draw = random.Random(seed)
        while self.continues():
            # (one that a report with a small limit blocks may lose its patience)
            with contextlib.suppress(ZeroDivisionError, Blocked, Deadlock):
                body, limit = self.body(draw), 5 if draw.randrange(20) == 0 else LARGE
                if draw.randrange(2):
                    self.bank.transact(limit, body)
                else:
                    with self.bank.update(limit) as update:
                        body(update)

    def clerk(self, seed):
        draw, counts = random.Random(seed), collections.Counter()
        self.counts.append(counts)
        while self.continues():
            try:
                with self.bank.report(draw.choice((50, 500, LARGE)), strict=draw.randrange(3) == 0) as report:
                    for _ in range(draw.randrange(1, 8)):
                        report.read(draw.choice(NAMES))
                        time.sleep(draw.choice((0, 0.0002)))
                    report.read_all(draw.choices(NAMES, k=draw.randrange(4)))
            except (Blocked, Deadlock):
                continue
            time.sleep(draw.choice((0, 0.01)))
            with contextlib.suppress(HandleExpired):
                found = report.finding
                audit = under_lock(self.bank, report) if found.is_exact else None
                if audit is not None:
                    assert shown(found) == audit, (shown(found), audit)
                counts.update(audits=1, exact=found.is_exact, compared=audit is not None, off=found.distance > 0)

    def slow(self):
        """A report and an update that are carried over renewals."""
        while self.continues():
            with contextlib.suppress(Blocked, Deadlock), self.bank.report(LARGE) as report:
                report.read(NAMES[0])
                with self.bank.update(LARGE) as update:
                    update.read_all(["x", "y"])
                    update.add("x", 1)
                    time.sleep(0.05)
                    update.write("x", update.read("x") + 1)
                report.read("x")

    def run(self, *bodies):
        def caught(body):
            try:
                body()
            except BaseException as why:
                self.errors.append(why)

        threads = [threading.Thread(target=caught, args=(body,)) for body in bodies]
        for thread in threads:
            thread.start()
        for thread in threads:
            thread.join()


class Findings(unittest.TestCase):
    def test_they_are_those_of_audits_under_the_lock(self):
        """On a random load with renewals, and with carried transactions."""
        for optimistic in (True, False):
            bank = Bank({**{name: 1_000 for name in NAMES}, "x": 0, "y": 0}, weights={NAMES[0]: 3}, patience=0.1, optimistic=optimistic)
            load = Load(bank)
            with mock.patch("esr._bank.NEARLY_FULL", 997_000):
                clients = [lambda seed=seed: load.client(seed) for seed in (1, 2, 3)]
                load.run(*clients, *[lambda seed=seed: load.clerk(seed) for seed in (4, 5)], load.slow)
            self.assertEqual(load.errors, [])
            figures, metrics = load.figures(), bank.metrics()
            print(", ".join(f"{number} {name}" for name, number in figures.items()))
            self.assertGreater(min(figures.values()), 0)
            # the second engine was never given up: findings that are not exact are bounds
            self.assertEqual((metrics.audits, metrics.background_audits), (figures["audits"], figures["exact"]))
            bank.close()

    def test_a_history_of_carried_transactions(self):
        """The second engine has what they have read and written, and the charges of the reports."""
        bank = Bank({"read": 0, "wrote": 0, "later": 0, "hits": 0})
        slow, long = bank.update(LARGE), bank.report(LARGE, strict=True)
        slow.__enter__().read("read")
        slow.write("wrote", 1)
        slow.add("wrote", 1)
        self.assertEqual(long.__enter__().read_all(["wrote", "later"]), [2, 0])
        renew(bank, "hits")
        self.assertEqual((bank.renewals, bank.metrics().carried_reports), (1, 1))
        with bank.report(LARGE) as report:
            later = report.read("later")
            slow.write("later", 1)
            slow.__exit__(None, None, None)
            bank.transact(LARGE, lambda update: update.write("read", 5))
            self.assertEqual((later, report.read("read"), report.read("wrote")), (0, 5, 2))
        # the update that wrote 5 comes after the carried one, which had read the item
        self.assertEqual((report.finding.distance, shown(report.finding)), (1, under_lock(bank, report)))
        self.assertEqual(len(report.finding.before), 2)
        self.assertEqual(bank.metrics().background_audits, 1)
        long.__exit__(None, None, None)
        self.assertEqual((long.finding.is_exact, bank.metrics().background_audits), (False, 1))

    def test_a_lock_that_is_taken_without_a_write(self):
        """An update that fails to add has the write lock all the same. So its placement is after an update that has read the item."""
        bank = Bank({"a": 0, "b": 0, "c": 0})
        with bank.report(100) as report:
            c = report.read("c")
            with bank.update(100) as reader:
                reader.write("c", 7 + reader.read("a"))
            with bank.update(100) as writer:
                for _ in range(2):
                    with self.assertRaises(esr.WriteOutOfRange):
                        writer.add("a", 10**12 + 1)
                writer.write("b", 5)
            self.assertEqual((c, report.read("b")), (0, 5))
        self.assertEqual((report.finding.distance, shown(report.finding)), (5, under_lock(bank, report)))
        self.assertEqual(bank.metrics().background_audits, 1)

    def test_entries_of_a_script(self):
        bank = Bank({"a b": 500, "c": 1}, weights={"c": 2})
        with bank.update(200) as update, bank.report(70, strict=True) as report, bank.report(5) as other:
            update.read("c")
            update.add("c", 4)
            report.read("c")
            other.read("a b")
            script = bank._text(LIBRARY.esr_history_script, b"", 0).decode()
        c = esr._bank.c
        entries = [(c.EVENT.unpack(event), c.REPLY.unpack(reply)) for event, reply in entries_of(script, [500, 1])]
        self.assertEqual(
            entries,
            [
                ((c.BEGIN_UPDATE, 0, 0, 200, 0), (c.BEGUN, 0, 1, 0)),
                ((c.BEGIN_STRICT_QUERY, 0, 0, 70, 0), (c.BEGUN, 0, 2, 0)),
                ((c.BEGIN_QUERY, 0, 0, 5, 0), (c.BEGUN, 0, 3, 0)),
                ((c.READ, 1, 1, 0, 0), (c.VALUE, 0, 0, 1)),
                ((c.WRITE, 1, 1, 0, 1), (c.WROTE, 0, 0, 0)),
                ((c.READ, 1, 1, 0, 0), (c.VALUE, 0, 0, 1)),
                ((c.WRITE, 1, 1, 0, 5), (c.WROTE, 0, 0, 0)),
                ((c.READ, 2, 1, 0, 0), (c.VALUE, 0, 0, 5)),
                ((c.READ, 3, 0, 0, 0), (c.VALUE, 0, 0, 500)),
            ],
        )


class Locks(unittest.TestCase):
    def test_updates_commit_during_an_audit(self):
        """Also a renewal, after which the finding is that of the report's own history."""
        bank, found, replays, may_replay = Bank({"a": 0}), [], threading.Event(), threading.Event()
        call = LIBRARY.esr_audit

        def slow_audit(*words):
            replays.set()
            self.assertTrue(may_replay.wait(20))
            return call(*words)

        report = off_by_seven(bank)
        with mock.patch.object(LIBRARY, "esr_audit", slow_audit):
            thread = threading.Thread(target=lambda: found.append(report.finding))
            thread.start()
            self.assertTrue(replays.wait(20))
            count(bank, 10)
            renew(bank)
            self.assertEqual((bank.renewals, bank["a"] > 10, found), (1, True, []))
            may_replay.set()
            thread.join()
        self.assertEqual([shown(finding) for finding in found], [(7, 7, ())])
        self.assertEqual(bank.metrics().background_audits, 1)

    def test_an_audit_before_a_renewal(self):
        """`before_renewal` has the lock, so its audits are not in the background."""
        seen = []
        bank = Bank({"a": 0}, before_renewal=lambda bank: seen.extend(report.finding.distance for report in bank.due()))
        off_by_seven(bank)
        renew(bank)
        self.assertEqual((seen, bank.renewals, bank.metrics().background_audits), ([7], 1, 0))

    def test_two_threads_ask_for_one_finding(self):
        bank, found = Bank({"a": 0}), []
        report = off_by_seven(bank)
        threads = [threading.Thread(target=lambda: found.append(report.finding)) for _ in range(4)]
        for thread in threads:
            thread.start()
        for thread in threads:
            thread.join()
        self.assertEqual([shown(finding) for finding in found], [(7, 7, ())] * 4)
        self.assertEqual((bank.metrics().audits, bank.metrics().background_audits, bank.due()), (1, 1, []))


class Logs(unittest.TestCase):
    def test_a_bank_without_reports_has_no_thread_and_a_short_log(self):
        before = len(audit_threads())
        with mock.patch("esr._twin.MAX_LOGGED", 200):
            bank = Bank({"a": 0})
            for _ in range(2):
                count(bank, 48)
                self.assertTrue(bank._feed.is_on)
                count(bank, 10)
                self.assertEqual((bank._feed.is_on, bank._feed._events, bank._feed._replies), (False, b"", b""))
                renew(bank)
        bank.snapshot(), bank.script(), bank.ledger()
        self.assertEqual(len(audit_threads()), before)

    def test_a_log_is_handed_over_in_parts(self):
        with mock.patch("esr._twin.PART", 50):
            bank = Bank({"a": 0})
            with bank.report(LARGE) as report:
                report.read("a")
                for _ in range(60):
                    bank.transact(LARGE, lambda update: update.add("a", 1))
                self.assertLess(len(bank._feed._events), 50 * 32)
                report.read("a")
            self.assertEqual((report.finding.distance, bank.metrics().background_audits), (60, 1))
            self.assertEqual(shown(report.finding), under_lock(bank, report))

    def test_the_first_report_renews_a_long_history(self):
        """Then its audit is in the background. Active transactions are carried over. Later histories are logged as a whole."""
        seen = []
        with mock.patch("esr._twin.MAX_LOGGED", 200):
            bank = Bank({"a": 0, "b": 0}, before_renewal=lambda bank: seen.append(bank.counts.transactions))
            with bank.update(100, name="slow") as slow:
                slow.add("b", 5)
                count(bank, 60)
                with bank.report(100) as report:
                    values = report.read_all(["a", "b"])
                count(bank, 60)
            self.assertEqual((values, shown(report.finding), seen, bank.renewals), ([60, 5], (5, 5, ()), [61], 1))
            renew(bank)
            count(bank, 60)
            self.assertEqual((off_by_seven(bank).finding.distance, bank.renewals), (7, 2))
        metrics = bank.metrics()
        self.assertEqual((metrics.audits, metrics.background_audits, metrics.carried), (2, 2, 1))

    def test_the_first_report_begins_if_a_renewal_fails(self):
        """Its audit holds the lock. Other reports of the history do not try to renew it."""
        calls = []
        with mock.patch("esr._twin.MAX_LOGGED", 200), mock.patch("esr._bank.RETRY", 0.0):
            bank = Bank({"a": 0}, before_renewal=lambda bank: calls.append(1) or (len(calls) == 1 and 1 // 0))
            count(bank, 60)
            with self.assertLogs("esr", "WARNING"):
                report = off_by_seven(bank)
            self.assertEqual((report.finding.distance, off_by_seven(bank).finding.distance), (7, 7))
            self.assertEqual((calls, bank.renewals, bank.metrics().background_audits), ([1], 0, 0))
            renew(bank)
            self.assertEqual((off_by_seven(bank).finding.distance, bank.metrics().background_audits), (7, 1))

    def test_a_history_with_many_repeated_entries_is_not_logged(self):
        bank = Bank({"a": 0, "b": 0})
        self.assertEqual(off_by_seven(bank).finding.distance, 7)
        with bank.report(0) as report, mock.patch("esr._bank.MAX_LOGGED", 200):
            report.read_all(["a"] * 200)
            renew(bank, "b")
            self.assertEqual((bank._feed.is_on, off_by_seven(bank, "b").finding.distance), (False, 7))
        renew(bank)
        self.assertEqual((off_by_seven(bank).finding.distance, bank.metrics().background_audits), (7, 2))

    def test_without_background_audits(self):
        before, bank = set(audit_threads()), Bank({"a": 0}, background_audits=False)
        count(bank, 100)
        self.assertEqual((off_by_seven(bank).finding.distance, bank._feed._events), (7, b""))
        renew(bank)
        self.assertEqual(off_by_seven(bank).finding.distance, 7)
        self.assertEqual((bank.metrics().audits, bank.metrics().background_audits), (2, 0))
        self.assertLessEqual(set(audit_threads()), before)  # those of other banks may have ended


class Differences(unittest.TestCase):
    def plant(self, change):
        """Changes each event that is pushed to the log, and returns the bank after a report that is audited under the lock."""
        bank, push, rest = Bank({"a": 0, "b": 0}), Feed.push, [change]

        def planted(feed, events, replies):
            c = esr._bank.c
            for event, reply in zip(c.EVENT.iter_unpack(bytes(events)), c.REPLY.iter_unpack(bytes(replies))):
                single = c.EVENT.pack(*event), c.REPLY.pack(*reply)
                for changed in change(*single) if rest else [single]:
                    push(feed, *changed)

        with self.assertLogs("esr", "ERROR") as logs:
            with mock.patch.object(Feed, "push", planted):
                report = off_by_seven(bank)
                rest.clear()
            self.assertEqual((shown(report.finding), under_lock(bank, report)), ((7, 7, ()), (7, 7, ())))
            other = off_by_seven(bank)
            self.assertEqual(shown(other.finding), under_lock(bank, other))
        self.assertIn("the second engine differs or has failed", logs.output[0])
        metrics = bank.metrics()
        self.assertEqual((len(logs.output), metrics.audits, metrics.background_audits), (1, 2, 0))
        renew(bank, "b")
        self.assertEqual((bank.renewals, off_by_seven(bank).finding.distance), (1, 7))
        self.assertEqual(bank.metrics().background_audits, 1)

    def planted(self, kind, event=None, reply=None):
        """Plants a change of the events of a kind: None drops them."""
        c = esr._bank.c

        def change(events, replies):
            if c.EVENT.unpack(events)[0] != kind:
                return [(events, replies)]
            if event is None and reply is None:
                return []
            found = list(c.EVENT.unpack(events)), list(c.REPLY.unpack(replies))
            for changes, numbers in zip((event, reply), found):
                for place, value in (changes or {}).items():
                    numbers[place] = value
            return [(c.EVENT.pack(*found[0]), c.REPLY.pack(*found[1]))]

        self.plant(change)

    def test_a_value_that_was_read(self):
        self.planted(esr._bank.c.READ, reply={3: 1})

    def test_a_value_that_was_written(self):
        self.planted(esr._bank.c.WRITE, event={4: 3})

    def test_a_number(self):
        self.planted(esr._bank.c.BEGIN_QUERY, reply={2: 3})

    def test_a_read_that_is_missing(self):
        self.planted(esr._bank.c.READ)

    def test_a_commit_that_is_missing(self):
        self.planted(esr._bank.c.COMMIT)

    def test_a_commit_that_is_an_abort(self):
        self.planted(esr._bank.c.COMMIT, event={0: esr._bank.c.ABORT})

    def test_an_event_that_is_unknown(self):
        self.planted(esr._bank.c.WRITE, event={0: 99})

    def test_an_interrupt_after_an_event(self):
        """It may have kept the event from the log. So the second engine is given up before it finds something else."""
        for optimistic in (True, False):
            bank, push = Bank({"a": 0, "b": 0}, optimistic=optimistic), Feed.push

            def interrupted(feed, events, replies):
                if esr._bank.c.READ in {event[0] for event in esr._bank.c.EVENT.iter_unpack(events)}:
                    raise KeyboardInterrupt
                push(feed, events, replies)

            with bank.report(100) as report:
                report.read("a")
                with mock.patch.object(Feed, "push", interrupted), self.assertRaises(KeyboardInterrupt):
                    bank.transact(100, lambda update: update.add("a", 7))
                self.assertFalse(bank._feed.is_on)
            self.assertEqual(shown(report.finding), under_lock(bank, report))
            self.assertEqual((bank.metrics().background_audits, bank.counts.active), (0, 0))

    def test_an_interrupt_after_a_commit(self):
        bank, push = Bank({"a": 0}), Feed.push

        def interrupted(feed, events, replies):
            if esr._bank.c.EVENT.unpack(events[: esr._bank.c.EVENT.size])[0] == esr._bank.c.COMMIT:
                raise KeyboardInterrupt
            push(feed, events, replies)

        with bank.report(100) as report:
            report.read("a")
            with mock.patch.object(Feed, "push", interrupted), self.assertRaises(KeyboardInterrupt):
                bank.transact(100, lambda update: update.add("a", 7))
            self.assertEqual((bank._feed.is_on, bank["a"], report.read("a")), (False, 7, 7))
        self.assertEqual(shown(report.finding), under_lock(bank, report))

    def test_a_full_history_in_the_middle_of_reads(self):
        """Those before it were executed. The log is given up, or restarted by the renewal."""
        bank, call = Bank({"a": 0, "b": 0}), LIBRARY.esr_do_packed

        def full(*words):
            call(*words)
            return esr._bank.c.FULL

        with bank.report(100) as report:
            report.read("a")
            with mock.patch.object(LIBRARY, "esr_do_packed", full), self.assertRaises(esr.HistoryFull):
                report.read_all(["a", "b"])
        self.assertEqual((shown(report.finding), bank.metrics().background_audits), (under_lock(bank, report), 0))


class Threads(unittest.TestCase):
    def setUp(self):
        self.before = set(audit_threads())

    def mine(self):
        return set(audit_threads()) - self.before


    def test_it_begins_with_a_report_and_ends_with_the_bank(self):
        bank = Bank({"a": 0})
        count(bank, 10)
        with bank.update(0):
            pass
        self.assertEqual(self.mine(), set())
        with bank.report(0):
            (thread,) = self.mine()
        self.assertTrue(thread.daemon)
        with mock.patch("esr._bank.NEARLY_FULL", 999_990):
            for _ in range(20):
                off_by_seven(bank)
        self.assertEqual((self.mine(), bank.renewals > 1), ({thread}, True))
        bank.close()
        self.assertEqual(self.mine(), set())
        bank.close()

    def test_it_ends_if_the_bank_is_discarded(self):
        bank = Bank({"a": 0})
        self.assertEqual(off_by_seven(bank).finding.distance, 7)
        gone = weakref.ref(bank)
        del bank
        gc.collect()
        self.assertIsNone(gone())
        wait_until(lambda: not self.mine())

    def test_an_exception_ends_it_and_the_bank_audits(self):
        """Also the questions that are in the queue. After a renewal there is another thread."""
        bank, found = Bank({"a": 0, "b": 0}), []
        reports, begun, may_fail = [off_by_seven(bank) for _ in range(3)], threading.Event(), threading.Event()

        def fail(auditor, query, state):
            begun.set()
            may_fail.wait(20)
            raise ArithmeticError("planted")

        threads = [threading.Thread(target=lambda report=report: found.append(report.finding)) for report in reports]
        with mock.patch("esr._twin.Auditor._audit", fail), self.assertLogs("esr", "ERROR") as logs:
            threads[0].start()
            self.assertTrue(begun.wait(20))
            for thread in threads[1:]:
                thread.start()
            wait_until(lambda: bank._feed._twin._auditor.parts.qsize() == 2)
            may_fail.set()
            for thread in threads:
                thread.join()
        self.assertIn("the thread of background audits has failed", logs.output[0])
        self.assertEqual([finding.distance for finding in found], [7, 7, 7])
        wait_until(lambda: not self.mine())
        self.assertEqual((off_by_seven(bank).finding.distance, bank.metrics().background_audits), (7, 0))
        renew(bank, "b")
        self.assertEqual((off_by_seven(bank).finding.distance, bank.metrics().background_audits), (7, 1))
        self.assertEqual(len(self.mine()), 1)
        bank.close()

    def test_an_exception_without_questions(self):
        """Nothing more is kept for the thread."""
        bank = Bank({"a": 0})
        with bank.report(LARGE) as report:
            report.read("a")
            with mock.patch("esr._twin.Auditor._replay", side_effect=ArithmeticError), self.assertLogs("esr", "ERROR"):
                while bank._feed._twin.is_running():
                    bank.transact(LARGE, lambda update: update.add("a", 1))
                for _ in range(1_100):
                    bank.transact(LARGE, lambda update: update.add("a", 1))
            self.assertEqual((bank._feed.is_on, bank._feed._twin._auditor.parts.qsize() < 3), (False, True))
        self.assertEqual(shown(report.finding), under_lock(bank, report))

    def test_a_thread_that_does_not_start(self):
        bank = Bank({"a": 0})
        with mock.patch("threading.Thread.start", side_effect=RuntimeError("can't start new thread")):
            with self.assertLogs("esr", "WARNING"):
                report = off_by_seven(bank)
        self.assertEqual((report.finding.distance, bank.metrics().background_audits), (7, 0))

    def test_a_close_during_an_audit(self):
        """The call that waits for the audit gets its finding; another one that waits is refused. The thread ends."""
        bank, found, audits, may_audit = Bank({"a": 0}), collections.deque(), threading.Event(), threading.Event()
        call = LIBRARY.esr_audit

        def slow_audit(*words):
            audits.set()
            self.assertTrue(may_audit.wait(20))
            return call(*words)

        def ask(report):
            try:
                found.append(shown(report.finding))
            except BankClosed as why:
                found.append(type(why))

        reports = [off_by_seven(bank) for _ in range(2)]
        with mock.patch.object(LIBRARY, "esr_audit", slow_audit):
            threads = [threading.Thread(target=ask, args=(report,)) for report in reports]
            threads[0].start()
            self.assertTrue(audits.wait(20))
            threads[1].start()
            wait_until(lambda: not bank._feed._twin._auditor.parts.empty())
            auditor = bank._feed._twin._auditor
            threads.append(threading.Thread(target=bank.close))
            threads[2].start()
            wait_until(lambda: auditor.is_ending)
            may_audit.set()
            for thread in threads:
                thread.join(60)
        self.assertEqual(set(found), {(7, 7, ()), BankClosed})
        wait_until(lambda: not self.mine())

    @unittest.skipUnless(hasattr(os, "fork"), "no fork")
    def test_a_fork(self):
        """The child does not have the thread. It audits under its lock, and after a renewal on a thread that it starts."""
        bank = Bank({"a": 0, "b": 0})
        report, due = off_by_seven(bank), off_by_seven(bank)
        self.assertEqual(report.finding.distance, 7)
        child = os.fork()
        if child == 0:
            status = 1
            try:
                found = [due.finding.distance, off_by_seven(bank).finding.distance, bank.metrics().background_audits]
                renew(bank, "b")
                found += [off_by_seven(bank).finding.distance, bank.metrics().background_audits]
                bank.close()
                status = 0 if found == [7, 7, 1, 7, 2] else 2
            finally:
                os._exit(status)
        ends = []
        try:
            wait_until(lambda: ends.append(os.waitpid(child, os.WNOHANG)) or ends[-1] != (0, 0))
        finally:
            if ends[-1] == (0, 0):
                os.kill(child, 9)
                os.waitpid(child, 0)
        self.assertEqual(ends[-1], (child, 0))
        self.assertEqual((due.finding.distance, bank.metrics().background_audits), (7, 2))

    def test_an_interpreter_that_exits(self):
        """It does not wait for the thread: idle, in the middle of an audit, or with a call that waits for it."""
        program = """
import sys, threading, time
from esr import Bank, _bank
bank = Bank({"a": 0})
with bank.report(0) as report:
    report.read("a")
if sys.argv[1] == "idle":
    report.finding
else:
    begun = threading.Event()
    _bank.c.library.esr_audit = lambda *words: begun.set() or time.sleep(1000)
    threading.Thread(target=lambda: report.finding, daemon=True).start()
    begun.wait()
"""
        for word in ("idle", "busy"):
            command = [sys.executable, "-c", program, word]
            done = subprocess.run(command, capture_output=True, text=True, check=False, timeout=600)
            self.assertEqual((done.returncode, done.stdout, done.stderr), (0, "", ""), word)


if __name__ == "__main__":
    unittest.main()
