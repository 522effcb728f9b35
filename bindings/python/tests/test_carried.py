"""Reports and updates that outlive their history: a renewal carries them over, and nothing waits for them.

`ESR_SOAK_SECONDS` is the duration of the soak test, 2 by default.
"""

import collections
import os
import threading
import time
import unittest
from unittest import mock

import esr
from esr import Bank, Blocked, HandleExpired, HistoryFull, ReportCarried
from esr._waiting import WaitGraph

LARGE = 10**9


def renew(bank, renewals):
    """Runs small updates until the bank has this number of renewals, of short histories."""
    with mock.patch("esr._bank.NEARLY_FULL", 999_900):
        while bank.renewals < renewals:
            bank.transact(0, lambda update: update.add("hits", 1))


class Carried(unittest.TestCase):
    def test_a_report_outlives_three_histories(self):
        """It is off by at most its finding from one of the states that the updates have left."""
        bank, states = Bank({"a": 1_000, "b": 0}), [(1_000, 0)]
        with bank.report(LARGE) as report:
            a = report.read("a")
            while bank.renewals < 3:
                state = states[-1][0] - 1, states[-1][1] + 2
                bank.transact(LARGE, lambda update: (update.write("a", state[0]), update.write("b", state[1])))
                states.append(state)
            (active,) = bank.active()
            self.assertEqual((active.limit, active.charged), (LARGE, report.charged))
            b = report.read("b")
        finding = report.finding
        least = min(abs(a - state[0]) + abs(b - state[1]) for state in states)
        self.assertTrue(0 < least <= finding.distance)
        # each update has changed the item that it has read by 1
        self.assertEqual((finding.charged, finding.distance, finding.renewals), (len(states) - 1, len(states) - 1, 3))
        self.assertEqual((finding.is_exact, finding.before), (False, ()))
        self.assertEqual(repr(finding), f"Finding(distance<={len(states) - 1}, charged={len(states) - 1}, renewals=3)")
        self.assertEqual((bank.metrics().carried, bank.metrics().carried_reports), (0, 3))
        with bank.report(0) as late:
            late.read("b")
        self.assertEqual((late.finding.is_exact, late.finding.distance), (True, 0))

    def test_a_limit_is_over_all_histories(self):
        bank = Bank({"a": 10, "hits": 0}, patience=0.01)
        with bank.report(3, name="sum") as report:
            report.read("a")
            bank.transact(9, lambda update: update.add("a", 2))
            for renewals in (1, 2):
                renew(bank, renewals)
                with self.assertRaisesRegex(Blocked, "sum"):
                    bank.transact(9, lambda update: update.add("a", 2))
                self.assertEqual(report.charged, 2)
            bank.transact(9, lambda update: update.add("a", 1))
        self.assertEqual((report.finding.charged, report.finding.renewals), (3, 2))

    def test_an_update_holds_its_locks_over_two_renewals(self):
        bank = Bank({"a": 1, "b": 2, "hits": 0}, patience=0.01)
        with bank.update(LARGE, name="slow") as slow:
            slow.read("a")
            slow.write("b", 20)
            for renewals in (1, 2):
                renew(bank, renewals)
                for item in ("a", "b"):
                    with self.assertRaisesRegex(Blocked, "slow"):
                        bank.transact(0, lambda update: update.write(item, 0))
                self.assertEqual((slow.read_all(["a", "b"]), bank["b"]), ([1, 20], 2))
            slow.write("a", 10)
        self.assertEqual((bank["a"], bank["b"], bank.metrics().carried), (10, 20, 2))

    def test_a_carried_report_is_due_once(self):
        """Before a renewal, an active report is not due. It is due in its last history, with its bound."""
        seen = []

        def audit(bank):
            seen.append([(report.finding.distance, report.finding.renewals) for report in bank.due()])

        bank = Bank({"a": 0, "hits": 0}, before_renewal=audit)
        with bank.report(9) as report:
            report.read("a")
            with bank.report(9) as early:
                early.read("a")
            bank.transact(9, lambda update: update.add("a", 4))
            renew(bank, 1)
        self.assertRaises(ReportCarried, report.bundle)
        self.assertRaises(ReportCarried, report.picture)
        self.assertIsNone(report.finding._repr_svg_())
        self.assertTrue(report.explain().startswith("distance at most 4 import 4 renewals 1\n"))
        bank._due.append(report)
        renew(bank, 2)
        self.assertEqual(seen, [[(0, 0)], [(4, 1)]])
        self.assertRaises(HandleExpired, report.explain)

    def test_a_waiting_update_is_carried(self):
        """It waits for an update that is carried too, and commits once that has ended."""
        bank = Bank({"a": 0, "b": 0, "hits": 0}, optimistic=False)
        with bank.update(0) as slow:
            slow.write("a", 1)
            thread = threading.Thread(target=lambda: bank.transact(0, lambda update: update.add("a", 1)))
            thread.start()
            until = time.monotonic() + 60
            while not any(one.waits_for for one in bank.active()) and time.monotonic() < until:
                time.sleep(0.001)
            renew(bank, 1)
            numbers = {one.number for one in bank.active()}
            self.assertTrue(all(one.waits_for in numbers for one in bank.active() if one.waits_for))
        thread.join()
        self.assertEqual((bank["a"], bank.counts.active), (2, 0))

    def test_waits_have_new_numbers(self):
        waits = WaitGraph()
        for txn, blocker in ((5, 3), (9, 7), (7, 9), (6, 4)):
            waits.begin(txn, txn, blocker)
        self.assertEqual(waits.given_up, {9: 7})
        waits.renumber({3: 1, 5: 2, 6: 3, 7: 4, 9: 5})
        self.assertEqual((waits.blockers, waits.given_up), ({2: 1, 4: 5}, {5: 4}))
        self.assertEqual(waits.ages, {2: 5, 3: 6, 4: 7, 5: 9})

    def test_a_history_full_of_one_update(self):
        """If a renewal frees nothing, others continue while there is capacity, and then wait for the update's end."""
        bank = Bank({"a": 0, "hits": 0}, patience=0.05)
        with mock.patch("esr._bank.NEARLY_FULL", 999_900), bank.update(0) as slow:
            for _ in range(400):
                slow.read("a")
            with mock.patch.object(Bank, "_has_capacity", return_value=False), self.assertRaises(HistoryFull):
                bank.transact(0, lambda update: update.add("hits", 1))
            renewals = bank.renewals
            bank.transact(0, lambda update: update.add("hits", 1))
            self.assertLessEqual(bank.renewals, renewals + 1)
        self.assertEqual(bank["hits"], 1)

    def test_histories_with_carried_transactions_are_short(self):
        """They grow by their entries at the opening and a number. Once the transaction has ended, a history is as long as
        before."""
        bank = Bank({"a": 0, "hits": 0})

        def length(renewals):
            while bank.renewals < renewals:
                entries = bank.counts.entries
                bank.transact(0, lambda update: update.add("hits", 1))
            return entries

        with mock.patch("esr._bank.NEARLY_FULL", 990_000), mock.patch("esr._bank.SHORT", 1_000):
            with bank.report(0) as report:
                report.read_all(["a"] * 500)
                self.assertIn(length(1), range(9_990, 10_010))
                for renewals in (2, 3):
                    self.assertEqual(bank.counts.entries, 501 + 4)
                    self.assertIn(length(renewals), range(2 * 501 + 1_000, 2 * 501 + 1_010))
            self.assertIn(length(4), range(9_990, 10_010))
            self.assertIn(length(5), range(9_990, 10_010))

    def test_only_a_renewal_with_active_transactions_searches_the_history(self):
        bank, calls = Bank({"a": 0, "hits": 0}), []
        library = esr._bank.c.library
        for name in ("esr_renew", "esr_renew_carrying"):
            call = getattr(library, name)
            setattr(library, name, lambda *words, call=call, name=name: calls.append(name) or call(*words))
            self.addCleanup(setattr, library, name, call)
        renew(bank, 1)
        with bank.update(0) as update:
            update.add("a", 1)
            renew(bank, 2)
        with bank.report(0) as report:
            report.read("a")
        renew(bank, 3)
        self.assertEqual(calls, ["esr_renew", "esr_renew_carrying", "esr_renew"])
        self.assertEqual((bank["a"], bank.ledger().splitlines()[1][:5]), (1, "1,t1,"))

    def test_a_soak_next_to_long_transactions(self):
        """Threads move money, next to reports and updates that outlive many histories: each sum is off by at most its
        finding, and nothing is lost."""
        names = [f"account{n}" for n in range(8)]
        bank = Bank({**{name: 1_000 for name in names}, "x": 0, "y": 0})
        seconds = float(os.environ.get("ESR_SOAK_SECONDS", "2"))
        end, change, counts = time.monotonic() + seconds, collections.Counter(), collections.Counter()

        def client(seed):
            mine = collections.Counter()
            while time.monotonic() < end:
                seed = seed * 1_103_515_245 + 12_345 & 0x7FFFFFFF
                source, target = names[seed >> 8 & 7], names[seed >> 16 & 7]
                bank.transact(LARGE, lambda update: (update.add(source, -1), update.add(target, 1)))
                mine[source] -= 1
                mine[target] += 1
            with bank._lock:
                change.update(mine)

        def clerk():
            while time.monotonic() < end:
                pause, total = (end - time.monotonic()) / 16, 0
                with bank.report(10 * LARGE) as report:
                    for name in names:
                        total += report.read(name)
                        time.sleep(max(pause, 0))
                self.assertLessEqual(abs(total - 8_000), report.finding.distance)
                self.assertLessEqual(report.finding.distance, report.finding.charged)
                counts["renewals"] = max(counts["renewals"], report.finding.renewals)

        def slow():
            while time.monotonic() < end:
                with bank.update(0) as update:
                    update.add("x", 1)
                    y = update.add("y", 1)
                    time.sleep(0.4)
                    self.assertEqual(update.read("y"), y)
                counts["slow"] += 1

        errors = []

        def caught(body):
            try:
                body()
            except BaseException as why:
                errors.append(why)

        # the clients come last: next to them it may take a second to start a thread on one processor
        bodies = [clerk, slow, *[lambda seed=seed: client(seed) for seed in (1, 2, 3)]]
        # short histories, so that a short run has many renewals
        with mock.patch("esr._bank.NEARLY_FULL", 999_000):
            threads = [threading.Thread(target=caught, args=(body,)) for body in bodies]
            for thread in threads:
                thread.start()
            for thread in threads:
                thread.join()
        self.assertEqual(errors, [])
        self.assertEqual({name: bank[name] for name in names}, {name: 1_000 + change[name] for name in names})
        self.assertEqual((bank["x"], bank["y"], bank.counts.active), (counts["slow"], counts["slow"], 0))
        self.assertGreater(counts["renewals"], 0)
        print(f"{counts['renewals']} renewals of one report, {bank.renewals} in all")


if __name__ == "__main__":
    unittest.main()
