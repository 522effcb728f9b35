"""A bank with a store: SQLite files, stores that fail on command, and one whose writes wait for the test."""

import gc
import logging
import os
import signal
import sqlite3
import tempfile
import threading
import time
import unittest
from unittest import mock

from esr import (
    Bank,
    BankClosed,
    EsrError,
    NotWritten,
    OutOfRange,
    SQLiteStore,
    StoreInUse,
    StoreStopped,
    StoreUnfit,
    UnknownItem,
)
from esr._library import library

OPENING = {"checking": 500, "savings": 1500, "pocket": 0}


def transfer(bank, amount=100):
    with bank.update(10**6) as update:
        update.add("checking", -amount)
        update.add("savings", amount)


class HeldStore:
    """A store in memory whose writes wait while `is_open` is not set."""

    def __init__(self):
        self.values, self.numbers, self.groups = {}, [], []
        self.is_open, self.writes = threading.Event(), threading.Event()
        self.is_open.set()
        self.closes = 0

    def open(self, items):
        self.values = {**items, **self.values}
        return dict(self.values)

    def write(self, number, changes):
        self.writes.set()
        self.is_open.wait()
        for change in changes:
            assert self.values[change.name] == change.old, change
            self.values[change.name] = change.new
        self.numbers.append(number)
        self.groups.append(changes)

    def resolve(self, number):
        return number in self.numbers

    def close(self):
        self.closes += 1


class FailingStore(SQLiteStore):
    """Fails on command: `before` COMMIT, or at COMMIT with the write `kept` or `lost`; `resolve` fails `silent` times."""

    fault, silent = None, 0

    def write(self, number, changes):
        fault, self.fault = self.fault, None
        if fault == "before":
            raise NotWritten("out of order")
        if fault != "lost":
            super().write(number, changes)
        if fault:
            raise OSError("no reply")

    def resolve(self, number):
        if self.silent:
            self.silent -= 1
            raise OSError("no connection")
        return super().resolve(number)


class Case(unittest.TestCase):
    def setUp(self):
        folder = tempfile.TemporaryDirectory()
        self.addCleanup(folder.cleanup)
        self.path = os.path.join(folder.name, "bank.db")
        logging.getLogger("esr.store").setLevel(logging.CRITICAL)
        self.addCleanup(logging.getLogger("esr.store").setLevel, logging.NOTSET)

    def values(self):
        connection = sqlite3.connect(self.path)
        try:
            return dict(connection.execute("select name, value from esr_items"))
        finally:
            connection.close()

    def execute(self, statement):
        connection = sqlite3.connect(self.path)
        connection.execute(statement)
        connection.commit()
        connection.close()


class Values(Case):
    def test_are_those_of_the_store_after_reopening(self):
        with Bank(OPENING, store=SQLiteStore(self.path)) as bank:
            transfer(bank)
        with self.assertLogs("esr", "INFO") as logs:
            bank = Bank({"purse": 3, "checking": 7}, store=SQLiteStore(self.path), weights={"savings": 2})
        self.assertEqual(bank.snapshot(), {"purse": 3, "checking": 400, "savings": 1600, "pocket": 0})
        self.assertEqual((list(bank)[:2], bank["savings"], len(bank)), (["purse", "checking"], 1600, 4))
        self.assertEqual(logs.output, ["INFO:esr:the store replaces 1 opening values, and has 2 more items"])
        bank.close()
        with Bank(store=SQLiteStore(self.path)) as bank:
            self.assertEqual(bank.snapshot(), self.values())

    def test_are_written_before_the_call_returns(self):
        for optimistic in (True, False):
            with Bank(OPENING, store=SQLiteStore(self.path), optimistic=optimistic) as bank:
                before = bank["checking"]
                transfer(bank)
                self.assertEqual(self.values()["checking"], before - 100)

                def body(update):
                    update.write("checking", 1)
                    update.write("checking", 2)
                    return update.read("checking")

                self.assertEqual((bank.transact(0, body), self.values()["checking"]), (2, 2))
                bank.transact(0, lambda update: update.write("checking", before))

    def test_of_an_update_that_raised_are_not_written(self):
        with Bank(OPENING, store=SQLiteStore(self.path)) as bank:
            with self.assertRaises(ZeroDivisionError), bank.update(0) as update:
                update.write("checking", 1)
                raise ZeroDivisionError
            with self.assertRaises(OutOfRange), bank.update(0) as update:
                update.write("pocket", 1)
                update.write("checking", 10**13)
            with self.assertRaises(ZeroDivisionError):
                bank.transact(0, lambda update: update.write("checking", 1 // 0))
            self.assertEqual((bank.snapshot(), self.values()), (OPENING, OPENING))
            self.assertEqual(bank.metrics().store_writes, 0)

    def test_reports_write_nothing(self):
        with Bank(OPENING, store=SQLiteStore(self.path)) as bank:
            with bank.report(0) as report:
                self.assertEqual(report.read_all(["checking", "savings"]), [500, 1500])
            self.assertEqual((report.finding.distance, bank.metrics().store_writes), (0, 0))

    def test_a_renewal_keeps_them(self):
        with Bank({"hits": 0}, store=SQLiteStore(self.path, synchronous="NORMAL")) as bank:
            with mock.patch("esr._bank.NEARLY_FULL", 999_990):
                for _ in range(20):
                    bank.transact(0, lambda update: update.add("hits", 1))
            self.assertEqual((bank["hits"], self.values(), bank.renewals > 0), (20, {"hits": 20}, True))


class Opening(Case):
    def test_twice_is_refused(self):
        with Bank(OPENING, store=SQLiteStore(self.path)):
            with self.assertRaisesRegex(StoreInUse, "bank.db is open in another bank"):
                Bank(store=SQLiteStore(self.path))
        Bank(store=SQLiteStore(self.path)).close()

    def test_an_unfit_store_is_closed_and_named(self):
        Bank(OPENING, store=SQLiteStore(self.path)).close()
        for value, said in (("'much'", "'savings' has the value 'much'"), ("10000000000000", "'savings' of the store has the value 1000")):
            self.execute(f"update esr_items set value = {value} where name = 'savings'")
            with self.subTest(value), self.assertRaisesRegex(StoreUnfit, said):
                Bank(store=SQLiteStore(self.path))
        self.execute("update esr_items set value = 1 where name = 'savings'")
        with self.assertRaises(UnknownItem):
            Bank(store=SQLiteStore(self.path), weights={"purse": 2})
        self.assertEqual(Bank(store=SQLiteStore(self.path))["savings"], 1)

    def test_a_file_that_is_not_a_database_is_named(self):
        with open(self.path, "wb") as file:
            file.write(b"no database" * 1000)
        for path in (self.path, ":memory:", "", os.path.join(self.path, "below"), "/nowhere/bank.db"):
            with self.subTest(path), self.assertRaises(StoreUnfit):
                Bank(OPENING, store=SQLiteStore(path))

    def test_a_bank_that_is_discarded_releases_its_store(self):
        store = HeldStore()
        bank = Bank(OPENING, store=store)
        transfer(bank)
        del bank
        gc.collect()
        until = time.monotonic() + 5
        while not store.closes and time.monotonic() < until:
            time.sleep(0.001)
        self.assertEqual((store.closes, store.values["checking"]), (1, 400))


class Waiting(Case):
    """Nothing that a caller gets is ahead of the store."""

    def setUp(self):
        super().setUp()
        self.store = HeldStore()
        self.bank = Bank(OPENING, store=self.store)
        self.addCleanup(self.bank.close)
        self.store.is_open.clear()
        self.addCleanup(self.store.is_open.set)
        self.returned = []
        self.ahead = threading.Thread(target=self.run_call, args=("ahead", lambda: transfer(self.bank)))
        self.ahead.start()
        self.store.writes.wait()

    def run_call(self, name, call):
        try:
            result = call()
        except Exception as why:
            result = why
        self.returned.append((name, result))

    def waits(self, name, call):
        """The call does not return before the store has the transfer that it may have seen."""
        thread = threading.Thread(target=self.run_call, args=(name, call))
        thread.start()
        thread.join(0.1)
        self.assertEqual(self.returned, [], f"{name} returned before the store had what it saw")
        self.store.is_open.set()
        thread.join()
        self.ahead.join()
        return dict(self.returned)[name]

    def report(self):
        with self.bank.report(10**6) as report:
            return report.read("checking"), report

    def test_a_commit(self):
        self.waits("commit", lambda: transfer(self.bank))
        self.assertEqual(self.store.values["checking"], 300)

    def test_a_report(self):
        value, report = self.waits("report", self.report)
        self.assertEqual((value, report.finding.before, report.finding.distance), (400, (1,), 0))

    def test_an_update_that_only_reads(self):
        self.assertEqual(self.waits("reads", lambda: self.bank.transact(0, lambda update: update.read("checking"))), 400)

    def test_a_with_statement_that_only_reads(self):
        def read():
            with self.bank.update(0) as update:
                return update.read("checking")

        self.assertEqual(self.waits("reads", read), 400)

    def test_the_functions_own_exception(self):
        def body(update):
            raise ValueError(update.read("checking"))

        self.assertEqual(self.waits("raises", lambda: self.bank.transact(0, body)).args, (400,))

    def test_the_exception_of_a_with_statement(self):
        def abort():
            with self.bank.update(0) as update:
                raise ValueError(update.read("checking"))

        self.assertEqual(self.waits("raises", abort).args, (400,))

    def test_the_exception_of_a_report(self):
        def abort():
            with self.bank.report(0) as report:
                raise ValueError(report.read("checking"))

        self.assertEqual(self.waits("raises", abort).args, (400,))

    def test_a_script(self):
        self.assertIn("commit t1", self.waits("script", self.bank.script))

    def test_a_ledger(self):
        self.assertIn("committed", self.waits("ledger", self.bank.ledger))

    def test_the_work_before_a_renewal(self):
        self.bank._before_renewal = lambda bank: self.returned.append(("work", bank.due()))

        def begin():
            with mock.patch("esr._bank.NEARLY_FULL", 999_999), self.bank.update(0):
                pass

        self.waits("renewal", begin)
        self.assertEqual(self.bank.renewals, 1)

    def test_values_are_those_of_the_store_at_once(self):
        self.assertEqual((self.bank["checking"], self.bank.snapshot()), (500, OPENING))
        self.assertEqual((sum(self.bank.values()), dict(self.bank.items())), (2000, OPENING))
        self.store.is_open.set()
        self.ahead.join()
        self.assertEqual(self.bank["checking"], 400)

    def test_a_write_is_queued_before_its_value_is_shown(self):
        shown = []
        with Bank(OPENING, store=HeldStore()) as bank:
            enter = bank._queue.enter
            with mock.patch.object(bank._queue, "enter", lambda wrote: (shown.append(bank._mirror["pocket"][1]), enter(wrote))[1]):
                bank.transact(0, lambda update: update.write("pocket", 7))
            self.assertEqual((shown, bank["pocket"]), ([0], 7))

    def test_close_writes_the_queue_first(self):
        self.waits("close", self.bank.close)
        self.assertEqual((self.store.values["checking"], self.store.closes), (400, 1))
        self.assertEqual(sorted(name for name, _ in self.returned), ["ahead", "close"])

    def test_an_interrupt_of_a_caller_does_not_stop_the_write(self):
        handler = signal.signal(signal.SIGINT, signal.default_int_handler)  # it is ignored in the background of a shell
        self.addCleanup(signal.signal, signal.SIGINT, handler)
        threading.Timer(0.1, os.kill, (os.getpid(), signal.SIGINT)).start()
        with self.assertRaises(KeyboardInterrupt):
            transfer(self.bank)
        self.store.is_open.set()
        self.ahead.join()
        transfer(self.bank)
        self.assertEqual((self.bank["checking"], self.store.values["checking"]), (200, 200))


class Interrupts(Case):
    def test_one_between_the_commit_and_the_queue_loses_no_update(self):
        """Later updates read what the interrupted one wrote, so the store gets that too."""
        for optimistic in (True, False):
            for name in ("_publish", "_end"):
                store = HeldStore()
                with Bank(OPENING, store=store, optimistic=optimistic) as bank:
                    call, interrupts = getattr(bank, name), [KeyboardInterrupt]

                    def interrupted(*arguments, call=call, interrupts=interrupts):
                        if arguments[0] is library.esr_commit:
                            call(*arguments)  # the interrupt arrives after the engine's commit
                        if interrupts and (arguments[0] is library.esr_commit or len(arguments) == 1):
                            raise interrupts.pop()
                        return call(*arguments)

                    with mock.patch.object(bank, name, interrupted):
                        with self.assertRaises(KeyboardInterrupt):
                            bank.transact(0, lambda update: (update.add("checking", -100), update.add("savings", 100)))
                    self.assertEqual(interrupts, [])
                    self.assertEqual(bank.transact(10**6, lambda update: update.add("checking", -1)), 399)
                    self.assertEqual((bank.counts.active, bank.active()), (0, []))
                self.assertEqual(store.values, {"checking": 399, "savings": 1600, "pocket": 0})


class Groups(Case):
    def test_updates_of_one_item_share_a_write(self):
        store = HeldStore()
        with Bank({"hits": 0}, store=store) as bank:
            store.is_open.clear()
            threads = [
                threading.Thread(target=bank.transact, args=(0, lambda update: update.add("hits", 1))) for _ in range(8)
            ]
            for thread in threads:
                thread.start()
            while bank.counts.transactions < 8 or bank.active():
                time.sleep(0.001)
            store.is_open.set()
            for thread in threads:
                thread.join()
            self.assertEqual((bank["hits"], store.values), (8, {"hits": 8}))
            metrics = bank.metrics()
            self.assertEqual((metrics.store_updates, metrics.updates), (8, 8))
            self.assertLessEqual(metrics.store_writes, 3)
            self.assertEqual(sum(change.new - change.old for group in store.groups for change in group), 8)

    def test_threads_lose_nothing(self):
        with Bank({f"i{k}": 0 for k in range(4)}, store=SQLiteStore(self.path)) as bank:

            def work(k):
                for _ in range(25):
                    bank.transact(0, lambda update: (update.add(f"i{k}", 1), update.add("i0", 1)))

            threads = [threading.Thread(target=work, args=(k,)) for k in range(4)]
            for thread in threads:
                thread.start()
            for thread in threads:
                thread.join()
            self.assertEqual(self.values(), {"i0": 125, "i1": 25, "i2": 25, "i3": 25})
            self.assertEqual(bank.snapshot(), self.values())


class Faults(Case):
    def bank(self, patience=10.0):
        self.store = FailingStore(self.path)
        bank = Bank(OPENING, patience=0.1, store=self.store, store_patience=patience)
        self.addCleanup(bank.close)
        return bank

    def test_a_write_that_is_not_there_is_tried_again_and_one_that_is_there_is_not(self):
        for fault in ("before", "lost", "kept"):
            with self.subTest(fault):
                bank = self.bank()
                transfer(bank)
                before = bank["checking"]
                self.store.fault, self.store.silent = fault, 2
                transfer(bank)
                self.assertEqual((self.values()["checking"], bank["checking"]), (before - 100, before - 100))
                bank.close()

    def test_a_stopped_bank_says_so_in_each_call(self):
        for fault, is_written in (("before", False), ("lost", False), ("kept", None), ("lost", None)):
            with self.subTest(fault=fault, is_written=is_written):
                bank = self.bank(0.0)
                with bank.report(0) as report:
                    report.read("pocket")
                before = self.values()["checking"]
                self.store.fault, self.store.silent = fault, 3 * (is_written is None)
                with self.assertRaisesRegex(StoreStopped, "the bank has stopped.*reopen it from the store") as caught:
                    transfer(bank)
                self.assertEqual(caught.exception.is_written, is_written)
                self.refuse_each_call(bank, report)
                self.assertEqual(repr(bank), "<Bank of 3 items, stopped>")
                self.assertEqual((bank.active(), "checking" in bank, len(bank)), ([], True, 3))
                bank.close()
                with self.assertRaises(BankClosed):
                    bank.snapshot()
                with Bank(store=SQLiteStore(self.path)) as again:
                    self.assertEqual(again["checking"], before - 100 * (fault == "kept"))

    def refuse_each_call(self, bank, report):
        def raise_value(update):
            raise ValueError(update.read("checking"))

        calls = [
            lambda: transfer(bank),
            lambda: bank.transact(0, lambda update: update.add("pocket", 1)),
            lambda: bank.transact(0, lambda update: update.read("checking")),
            lambda: bank.transact(0, raise_value),
            lambda: bank.report(0).__enter__(),
            lambda: bank["checking"],
            lambda: bank.get("checking"),
            bank.snapshot,
            bank.items,
            bank.values,
            bank.script,
            bank.ledger,
            bank.due,
            lambda: bank.imported,
            lambda: bank.counts,
            lambda: report.finding,
            lambda: report.charged,
            report.bundle,
            report.explain,
            report.picture,
        ]
        for number, call in enumerate(calls):
            with self.subTest(call=number), self.assertRaisesRegex(StoreStopped, "the bank has stopped"):
                call()

    def test_a_transaction_that_is_active_when_the_bank_stops(self):
        """It reads nothing more, it does not commit, and its function's exception is not what its caller gets."""
        bank = self.bank(0.0)
        self.store.fault = "before"
        with self.assertRaises(StoreStopped), bank.update(0) as update:
            with self.assertRaises(StoreStopped):
                transfer(bank)
            with self.assertRaises(StoreStopped):
                update.read("pocket")
        self.assertEqual((self.values(), bank.active()), (OPENING, []))
        bank = Bank(OPENING, store=HeldStore(), store_patience=0)
        with self.assertRaises(StoreStopped) as caught, bank.update(0) as update:
            value = update.read("pocket")
            bank._queue.store.write = mock.Mock(side_effect=NotWritten("disk full"))
            with self.assertRaises(StoreStopped):
                transfer(bank)
            raise ValueError(value)
        self.assertTrue(caught.exception.__suppress_context__)

    def test_a_constraint_of_the_store_stops_the_bank_at_once(self):
        bank = self.bank(60.0)
        self.execute("create trigger t before update on esr_items when new.value < 0 begin select raise(abort, 'no'); end")
        begun = time.monotonic()
        with self.assertRaisesRegex(StoreStopped, "no; reopen it"):
            transfer(bank, 501)
        self.assertLess(time.monotonic() - begun, 10)
        self.assertEqual(self.values()["checking"], 500)

    def test_another_programs_write_stops_the_bank(self):
        bank = self.bank()
        self.execute("update esr_items set value = 9 where name = 'savings'")
        with self.assertRaisesRegex(StoreStopped, "another program wrote to the store: savings is 9 and was 1500"):
            transfer(bank)
        self.assertEqual(self.values()["checking"], 500)

    def test_a_bank_that_another_one_replaced_stops(self):
        bank = self.bank()
        os.remove(self.path + ".lock")  # the early message fails
        with Bank(store=SQLiteStore(self.path)) as other:
            with self.assertRaisesRegex(StoreStopped, "opened by another bank"):
                transfer(bank)
            transfer(other)
            self.assertEqual(self.values()["checking"], 400)

    def test_a_store_that_fails_for_a_while_is_waited_for(self):
        """And the next bank finds everything."""
        bank, begun = self.bank(), time.monotonic()
        with mock.patch.object(self.store, "write", side_effect=NotWritten("disk full")) as write:
            thread = threading.Thread(target=transfer, args=(bank,))
            thread.start()
            time.sleep(0.2)
            self.assertTrue(thread.is_alive())
            self.assertGreater(write.call_count, 1)
        thread.join()
        self.assertGreaterEqual(time.monotonic() - begun, 0.2)
        self.assertEqual(self.values()["checking"], 400)

    def test_updates_that_wait_when_the_bank_stops_are_never_written(self):
        store, errors, calls = HeldStore(), [], []

        def write(number, changes):
            calls.append(number)
            store.writes.set()
            store.is_open.wait()
            raise NotWritten("a constraint", is_final=True)

        def run():
            try:
                transfer(bank)
            except StoreStopped as why:
                errors.append(why.is_written)

        store.write = write
        store.is_open.clear()
        bank = Bank(OPENING, store=store)
        threads = [threading.Thread(target=run) for _ in range(3)]
        threads[0].start()
        store.writes.wait()
        for thread in threads[1:]:
            thread.start()
        while bank.metrics().updates < 3:
            time.sleep(0.001)
        time.sleep(0.05)
        store.is_open.set()
        for thread in threads:
            thread.join()
        bank.close()
        self.assertEqual((errors, len(calls), store.values, store.closes), ([False] * 3, 1, OPENING, 1))

    def test_a_store_that_breaks_its_protocol_stops_the_bank(self):
        store = HeldStore()
        store.write = lambda number: None
        bank = Bank(OPENING, store=store, store_patience=0)
        with self.assertRaises(StoreStopped):
            transfer(bank)
        with self.assertRaises(EsrError):
            Bank(OPENING, store=object())


if __name__ == "__main__":
    unittest.main()
