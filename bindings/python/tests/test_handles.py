"""Handles that are kept for too long, renewals that fail, event loops: an exception that names the reason, and no effect."""

import asyncio
import builtins
import logging
import threading
import time
import unittest
from unittest import mock

import esr
from esr import Bank, BankClosed, Blocked, EsrError, HandleExpired, Misuse, Refused, RenewalFailed

UPDATE_CALLS = {
    "read": lambda update: update.read("a"),
    "read_all": lambda update: update.read_all(["a"]),
    "read_all of nothing": lambda update: update.read_all([]),
    "write": lambda update: update.write("a", 99),
    "add": lambda update: update.add("a", 99),
    "with": lambda update: update.__enter__(),
}
REPORT_CALLS = {
    "read": lambda report: report.read("a"),
    "read_all": lambda report: report.read_all(["a"]),
    "read_all of nothing": lambda report: report.read_all([]),
    "with": lambda report: report.__enter__(),
}
AUDIT_CALLS = {
    "charged": lambda handle: handle.charged,
    "finding": lambda report: report.finding,
    "bundle": lambda report: report.bundle(),
    "explain": lambda report: report.explain(),
    "picture": lambda report: report.picture(),
}


def renew(bank):
    """Has the bank renew its history, as if it were nearly full."""
    before = bank.renewals
    with mock.patch("esr._bank.NEARLY_FULL", 999_999):
        while bank.renewals == before:
            with bank.update(0) as update:
                update.read("a")


def kept_handles(bank):
    """An update and a report that have ended, a handle that never began, and one of an optimistic update."""
    with bank.update(0) as update:
        update.write("a", 1)
    with bank.report(0) as report:
        report.read("a")
    drafts = []
    bank.transact(0, drafts.append)
    return update, report, drafts[0]


class Handles(unittest.TestCase):
    def refuse(self, error, handles_and_calls):
        for handle, calls in handles_and_calls:
            for name, call in calls.items():
                with self.subTest(handle=type(handle).__name__, call=name), self.assertRaises(error) as caught:
                    call(handle)
                self.assertTrue(str(caught.exception))

    def test_past_its_end(self):
        for optimistic in (True, False):
            bank = Bank({"a": 0}, optimistic=optimistic)
            update, report, draft = kept_handles(bank)
            with bank.update(0) as failed:
                failed.write("a", 7)
            with self.assertRaises(ZeroDivisionError), bank.update(0) as aborted:
                aborted.write("a", 1 // 0)
            self.refuse(
                (HandleExpired, Misuse),
                [(update, UPDATE_CALLS), (aborted, UPDATE_CALLS), (draft, UPDATE_CALLS), (report, REPORT_CALLS)],
            )
            self.assertEqual((update.charged, report.charged, report.finding.distance), (0, 0, 0))
            self.assertEqual((bank["a"], bank.counts.active), (7, 0))

    def test_past_a_renewal_it_does_not_act_as_another_transaction(self):
        bank = Bank({"a": 0, "b": 0})
        update, report, draft = kept_handles(bank)
        renew(bank)
        with bank.update(5) as other, bank.report(5) as late:
            other.write("b", 1)
            late.read("b")
            self.assertEqual((other.number, late.charged), (update.number + 1, 1))
            self.refuse(
                (HandleExpired, Misuse),
                [
                    (update, {**UPDATE_CALLS, "charged": AUDIT_CALLS["charged"]}),
                    (draft, UPDATE_CALLS),
                    (report, {**REPORT_CALLS, **AUDIT_CALLS}),
                ],
            )
        self.assertEqual(bank.snapshot(), {"a": 1, "b": 1})
        with self.assertRaisesRegex(HandleExpired, "the history of report 2 was renewed"):
            report.finding
        self.assertIsNone(report._repr_svg_())

    def test_a_finding_that_was_made_outlives_the_renewal(self):
        bank = Bank({"a": 0})
        _, report, _ = kept_handles(bank)
        found = report.finding
        renew(bank)
        self.assertEqual((report.finding, found.before), (found, (1,)))
        with self.assertRaises(HandleExpired):
            found.explain()

    def test_past_a_close(self):
        bank = Bank({"a": 0})
        kept = kept_handles(bank)
        active = bank.update(0)
        active.__enter__()
        bank.close()
        bank.close()
        handles = [(handle, UPDATE_CALLS) for handle in (kept[0], active)]
        self.refuse((BankClosed, Misuse), [*handles, (kept[2], UPDATE_CALLS), (kept[1], {**REPORT_CALLS, **AUDIT_CALLS})])
        with self.assertRaises(BankClosed):
            active.__exit__(None, None, None)
        calls = (
            lambda: bank["a"],
            bank.snapshot,
            bank.items,
            bank.values,
            bank.script,
            bank.ledger,
            bank.due,
            lambda: bank.imported,
            lambda: bank.counts,
            lambda: bank.update(0).__enter__(),
            lambda: bank.report(0).__enter__(),
            lambda: bank.transact(0, lambda update: update.read("a")),
            lambda: bank.transact(0, lambda update: None),
        )
        for call in calls:
            with self.assertRaises(BankClosed):
                call()
        self.assertEqual(repr(bank), "<Bank of 1 items, closed>")

    def test_a_close_wakes_a_transaction_that_waits(self):
        bank, errors, waits = Bank({"a": 0}, patience=30), [], threading.Event()

        def blocked():
            waits.set()
            try:
                bank.transact(0, lambda update: update.write("a", 2))
            except EsrError as why:
                errors.append(type(why))

        holder = bank.update(0)
        holder.__enter__().write("a", 1)
        thread = threading.Thread(target=blocked)
        thread.start()
        waits.wait()
        time.sleep(0.05)
        bank.close()
        thread.join(10)
        self.assertEqual(errors, [BankClosed])

    def test_a_close_wakes_a_begin_that_waits_for_capacity(self):
        bank, errors, begun = Bank({"a": 0}, patience=30), [], time.monotonic()

        def begin():
            try:
                bank.update(0).__enter__()
            except EsrError as why:
                errors.append(type(why))

        bank.update(0).__enter__().write("a", 1)
        is_full = mock.patch.object(Bank, "_has_capacity", return_value=False)
        with mock.patch("esr._bank.NEARLY_FULL", 999_999), is_full:
            thread = threading.Thread(target=begin)
            thread.start()
            time.sleep(0.1)
            self.assertEqual(errors, [])
            bank.close()
            thread.join()
        self.assertEqual((errors, time.monotonic() - begun < 20), ([BankClosed], True))

    def test_before_its_begin_and_twice(self):
        bank = Bank({"a": 0})
        self.refuse(
            Misuse,
            [
                (bank.update(0), {name: call for name, call in UPDATE_CALLS.items() if name != "with"}),
                (bank.report(0), {**AUDIT_CALLS, **{name: call for name, call in REPORT_CALLS.items() if name != "with"}}),
            ],
        )
        with bank.update(0) as update, self.assertRaisesRegex(Misuse, "update 1 began before"):
            with update:
                pass

    def test_a_report_that_has_not_committed_is_not_audited(self):
        bank = Bank({"a": 0})
        with self.assertRaises(ZeroDivisionError), bank.report(0) as aborted:
            1 // 0
        with bank.report(0) as active:
            for report in (active, aborted):
                for name in ("finding", "bundle", "explain", "picture"):
                    with self.assertRaisesRegex(EsrError, "only a report that has committed"):
                        AUDIT_CALLS[name](report)
            with self.assertRaisesRegex(EsrError, "report 2 is active until the end of its `with` statement"):
                active.finding
            with self.assertRaisesRegex(EsrError, "report 1 has aborted"):
                aborted.finding

    def test_the_text_of_a_finding_abbreviates_a_long_list_of_updates(self):
        bank = Bank({"a": 0})
        for updates, text in ((8, "(1, 2, 3, 4, 5, 6, 7, 8)"), (10, "(1, 2, 3, 4, 5, 6, ..., 11: 10 updates)")):
            while bank["a"] < updates:
                bank.transact(0, lambda update: update.add("a", 1))
            with bank.report(0, strict=True) as report:
                report.read("a")
            self.assertEqual(repr(report.finding), f"Finding(distance=0, charged=0, before={text})")
            self.assertEqual(len(report.finding.before), updates)

    def test_a_report_with_too_many_reads_refers_to_snapshot(self):
        bank = Bank({f"article_{n}": n for n in range(1001)})
        with self.assertRaisesRegex(Refused, "at most 1,000 in a report .`snapshot` returns all items., at item 'article_1000'"):
            with bank.report(0) as report:
                report.read_all(bank)


class Renewals(unittest.TestCase):
    def test_a_failure_leaves_the_bank_alive(self):
        """It continues in the old history up to its last transaction. Then it raises an exception with that cause. Once
        the function passes, the next begin renews."""
        broken, calls = [True], []

        def audit(bank):
            calls.append(bank.counts.transactions)
            [report.finding for report in bank.due()]
            if broken[0]:
                raise OSError("disk full")

        bank = Bank({"a": 0}, before_renewal=audit)
        with bank.report(0) as report:
            report.read("a")
        logging.getLogger("esr").setLevel(logging.ERROR)
        self.addCleanup(logging.getLogger("esr").setLevel, logging.NOTSET)
        for _ in range(65_534):
            bank.transact(0, lambda update: update.add("a", 1))
        self.assertEqual((bank.renewals, calls[0], bank.counts.transactions_left), (0, 64_535, 0))
        self.assertIsInstance(bank.renewal_failure, OSError)
        for begin in (bank.update, bank.report):
            with self.assertRaisesRegex(RenewalFailed, "before_renewal failed: disk full") as caught, begin(0):
                pass
            self.assertIsInstance(caught.exception.__cause__, OSError)
        with self.assertRaises(RenewalFailed):
            bank.transact(0, lambda update: update.add("a", 1))
        self.assertEqual((bank["a"], report.finding.distance), (65_534, 0))
        self.assertEqual(bank.metrics().renewals_put_off, len(calls))
        broken[0] = False
        bank.transact(0, lambda update: update.add("a", 1))
        self.assertEqual((bank["a"], bank.renewals, bank.renewal_failure), (65_535, 1, None))

    def test_it_is_called_again_after_a_while_and_not_at_each_begin(self):
        calls = []

        def audit(bank):
            calls.append(1)
            raise OSError("disk full")

        bank = Bank({"a": 0}, before_renewal=audit)
        with mock.patch("esr._bank.NEARLY_FULL", 999_999), self.assertLogs("esr", "WARNING") as logs:
            for _ in range(10):
                bank.transact(0, lambda update: update.add("a", 1))
            with mock.patch("esr._bank.RETRY", 0.0):
                bank._retry_at = 0.0
                bank.transact(0, lambda update: update.add("a", 1))
        self.assertEqual((len(calls), len(logs.output), bank["a"]), (2, 2, 11))
        self.assertIn("before_renewal failed, and the renewal is put off: OSError('disk full')", logs.output[0])

    def test_one_that_begins_a_transaction_gets_a_clear_error(self):
        for begin in (
            lambda bank: bank.update(0).__enter__(),
            lambda bank: bank.report(0).__enter__(),
            lambda bank: bank.transact(0, lambda update: update.add("a", 1)),
            lambda bank: bank.close(),
        ):
            errors = []

            def audit(bank, begin=begin, errors=errors):
                try:
                    begin(bank)
                except EsrError as why:
                    errors.append(why)

            bank = Bank({"a": 0}, before_renewal=audit)
            renew(bank)
            self.assertEqual([type(why) for why in errors], [Misuse])
            self.assertRegex(str(errors[0]), "before_renewal may not")
            self.assertEqual((bank.renewals, bank.counts.active), (1, 0))


class Memory(unittest.TestCase):
    def test_a_commit_without_memory_is_aborted(self):
        """So the transaction does not stay active."""
        library = esr._bank.c.library
        for optimistic in (True, False):
            bank = Bank({"a": 0}, optimistic=optimistic)
            with mock.patch.object(library, "esr_commit", return_value=esr._bank.c.NO_MEMORY):
                with self.assertRaises(MemoryError):
                    bank.transact(0, lambda update: update.add("a", 1))
                with self.assertRaises(MemoryError), bank.report(0) as report:
                    report.read("a")
            self.assertEqual((bank["a"], bank.counts.active, bank.active()), (0, 0, []))
            renew(bank)


class EventLoops(unittest.TestCase):
    def test_a_transaction_in_a_coroutine_is_refused(self):
        bank = Bank({"a": 0})

        async def main():
            for call in (
                lambda: bank.update(0).__enter__(),
                lambda: bank.report(0).__enter__(),
                lambda: bank.transact(0, lambda update: update.add("a", 1)),
            ):
                with self.assertRaisesRegex(Misuse, "threads, not for coroutines.*asyncio.to_thread"):
                    call()
            threads = [asyncio.to_thread(bank.transact, 0, lambda update: update.add("a", 1)) for _ in range(3)]
            return sorted(await asyncio.gather(*threads)), bank["a"], bank.snapshot()

        self.assertEqual(asyncio.run(main()), ([1, 2, 3], 3, {"a": 3}))
        self.assertEqual((bank.counts.transactions, bank.counts.active), (3, 0))

    def test_a_notebook_is_exempt(self):
        bank = Bank({"a": 0})

        async def cell():
            return bank.transact(0, lambda update: update.add("a", 1))

        with mock.patch.object(builtins, "get_ipython", create=True):
            self.assertEqual(asyncio.run(cell()), 1)

    def test_a_coroutine_function_is_refused(self):
        for optimistic in (True, False):
            bank = Bank({"a": 0}, optimistic=optimistic)

            async def body(update):
                update.write("a", 1)

            with self.assertRaisesRegex(Misuse, "coroutine function"):
                bank.transact(0, body)
            self.assertEqual((bank["a"], bank.counts.active), (0, 0))


class Messages(unittest.TestCase):
    def test_a_refusal_names_item_and_transaction(self):
        bank = Bank({"a": 0, "b": 0, "c": 0}, patience=0.01)
        with bank.update(10, name="late shift") as holder, bank.update(10) as other, bank.report(0) as report:
            holder.write("a", 5)
            for call in (lambda: other.read("a"), lambda: other.add("a", 1), lambda: other.read_all(["c", "a"])):
                with self.assertRaises(Blocked) as caught:
                    call()
                self.assertEqual(str(caught.exception), "refused 9: a lock of 1 'late shift', at item 'a'")
            self.assertEqual((caught.exception.item, caught.exception.other_name), ("a", "late shift"))
            with self.assertRaisesRegex(Blocked, "^refused 10: the import limit of 3, at item 'a'$"):
                report.read("a")
            report.read("b")
            with self.assertRaisesRegex(Blocked, "^refused 10: the import limit of 3, at item 'b'$"):
                holder.write("b", 1)

    def test_exceptions_survive_pickling(self):
        import pickle

        for error in (
            esr.Blocked(9, "a lock", 1, "a", "late"),
            esr.Deadlock(2, 1, None, "late"),
            esr.UnknownItem("a"),
            esr.StoreStopped("stopped", False),
            esr.NotWritten("no", True),
        ):
            again = pickle.loads(pickle.dumps(error))
            self.assertEqual((type(again), str(again)), (type(error), str(error)))

    def test_a_name_that_scripts_may_not_have_changes_itself_only(self):
        bank = Bank({"my savings": 1, "checking": 2, "i0": 3, "x" * 17: 4, "ä": 5, "": 6})
        self.assertEqual(
            bank.script(), "item i0_ 1\nitem checking 2\nitem i0 3\nitem i3 4\nitem i4 5\nitem i5 6\n"
        )
        with bank.report(0) as report:
            report.read("checking")
        self.assertTrue(report.explain().startswith("read checking 2 "))


if __name__ == "__main__":
    unittest.main()
