"""Each argument of each public call: its exact effect, or an exception of the package with name, value and range."""

import decimal
import fractions
import inspect
import math
import os
import pathlib
import subprocess
import sys
import unittest

import esr
from esr import Bank, EsrError, OutOfRange, SQLiteStore, UnknownItem, WrongType

EDGES = [0, 1_000, 10**12, 10**18, 2**31, 2**32, 2**53, 2**63, 2**64, 2**65, 2**128, 10**5000]
NUMBERS = sorted({sign * (edge + near) for edge in EDGES for near in (-1, 0, 1, 100) for sign in (1, -1)})
OTHERS = [None, "1", b"1", "", 1.0, 0.5, math.nan, -math.inf, 1j, [], [1], (1,), {}, {1}, object(), int, fractions.Fraction(2)]
OTHERS += [decimal.Decimal(2), lambda: 1]


class Index:
    """An integer of another type, as those of numpy are."""

    def __init__(self, value):
        self.value = value

    def __index__(self):
        return self.value


def limit_in_ledger(bank):
    return int(bank.ledger().splitlines()[1].split(",")[3])


def update_limit(value):
    bank = Bank({"a": 0})
    with bank.update(value):
        return limit_in_ledger(bank)


def report_limit(value):
    bank = Bank({"a": 0})
    with bank.report(value):
        return limit_in_ledger(bank)


def transact_limit(value):
    found = []
    for optimistic in (True, False):
        bank = Bank({"a": 0}, optimistic=optimistic)
        bank.transact(value, lambda update: update.write("a", 1))
        found.append(limit_in_ledger(bank))
    return found[0] if found[0] == found[1] else found


def weight(value):
    """The charge of a difference of 1."""
    bank = Bank({"a": 0}, weights={"a": value})
    with bank.update(2_000) as update:
        update.write("a", 1)
        with bank.report(2_000) as report:
            report.read("a")
        return report.charged


def written(value):
    found = []
    for optimistic in (True, False):
        bank = Bank({"a": 0}, optimistic=optimistic)
        bank.transact(0, lambda update: update.write("a", value))
        found.append(bank["a"])
    return found[0] if found[0] == found[1] else found


def added(value):
    found = []
    for optimistic in (True, False):
        bank = Bank({"a": 0}, optimistic=optimistic)
        found.append(bank.transact(0, lambda update: update.add("a", value)))
        found.append(bank["a"])
    return found[0] if len(set(found)) == 1 else found


CALLS = {
    ("Bank", "items"): ("the opening value of 'a'", -(10**12), 10**12, lambda value: Bank({"a": value})["a"]),
    ("Bank", "weights"): ("the weight of 'a'", 1, 1_000, weight),
    ("Bank.update", "limit"): ("limit", 0, 10**18, update_limit),
    ("Bank.report", "limit"): ("limit", 0, 10**18, report_limit),
    ("Bank.transact", "limit"): ("limit", 0, 10**18, transact_limit),
    ("Update.write", "value"): ("the value of 'a'", -(10**12), 10**12, written),
    ("Update.add", "more"): ("the value of 'a'", -(10**12), 10**12, added),
}
"""The name in the message, the range, and a call whose result is the effect of the argument."""
SECONDS = {
    ("Bank", "patience"): lambda value: Bank({"a": 0}, patience=value)._patience,
    ("Bank", "store_patience"): lambda value: stored(value),
    ("SQLiteStore", "timeout"): lambda value: SQLiteStore("unused", timeout=value).timeout,
}


class MemoryStore:
    """The four calls of a store that keeps nothing."""

    def open(self, items):
        return dict(items)

    def write(self, number, changes):
        pass

    def resolve(self, number):
        return True

    def close(self):
        pass


def stored(value):
    with Bank({"a": 0}, store=MemoryStore(), store_patience=value) as bank:
        return bank._queue.patience


class Arguments(unittest.TestCase):
    def test_a_number_has_its_exact_effect_or_is_out_of_range(self):
        for (call, argument), (name, least, greatest, effect) in CALLS.items():
            for number in NUMBERS:
                for value in (number, Index(number)) if number in EDGES else (number,):
                    with self.subTest(call=call, argument=argument, bits=number.bit_length()):
                        if least <= number <= greatest:
                            self.assertEqual(effect(value), number)
                            continue
                        with self.assertRaises(OutOfRange) as caught:
                            effect(value)
                        said = str(caught.exception)
                        self.assertIn(f"{name} is ", said)
                        self.assertIn(f"must be {least:,} to {greatest:,}", said)
                        shown = str(number) if number.bit_length() < 512 else f"an integer of {number.bit_length()} bits"
                        self.assertIn(shown, said)

    def test_a_bool_is_the_integer_that_it_is(self):
        for (call, _), (_, _, _, effect) in CALLS.items():
            with self.subTest(call):
                self.assertEqual(effect(True), 1)

    def test_another_type_is_refused_by_name(self):
        for (call, argument), (_, _, _, effect) in CALLS.items():
            for value in OTHERS:
                with self.subTest(call=call, argument=argument, value=value):
                    with self.assertRaisesRegex(WrongType, "must be an integer"):
                        effect(value)

    def test_times_are_exact_or_refused(self):
        for (call, argument), effect in SECONDS.items():
            for value in (0, 0.5, 1, 10**300, math.inf, fractions.Fraction(1, 2), True):
                with self.subTest(call=call, argument=argument, value=value):
                    self.assertEqual(effect(value), float(value))
            for value in (-1, -0.1, math.nan, -math.inf, 10**400, -(10**400)):
                with self.subTest(call=call, argument=argument, value=str(value)[:9]):
                    with self.assertRaisesRegex(OutOfRange, f"{argument} is .* and must be 0 seconds or more"):
                        effect(value)
            for value in (None, "1", b"1", [], object()):
                with self.subTest(call=call, argument=argument, value=value):
                    with self.assertRaisesRegex(WrongType, argument):
                        effect(value)

    def test_no_numeric_argument_of_a_public_call_is_left_out(self):
        """By the annotations: a new argument needs a row above."""
        numeric = {"int", "float", "Mapping[str, int]"}
        found = set()
        for kind in (Bank, esr.Update, esr.Query, SQLiteStore):
            for method, function in inspect.getmembers(kind, inspect.isfunction):
                if method.startswith("_") and method != "__init__" or kind is SQLiteStore and method != "__init__":
                    continue
                for name, parameter in inspect.signature(function).parameters.items():
                    said = str(parameter.annotation).replace("typing.", "").replace("<class '", "").replace("'>", "")
                    if said in numeric:
                        found.add((kind.__name__ + ("" if method == "__init__" else f".{method}"), name))
        handles = {("Update", "limit"), ("Query", "limit")}  # made by Bank.update and Bank.report
        handles |= {("Update", "age")} & found
        self.assertEqual(found - handles, set(CALLS) | set(SECONDS))

    def test_the_number_of_items_is_checked(self):
        self.assertEqual(len(Bank({f"i{n}": 0 for n in range(4096)})), 4096)
        with self.assertRaisesRegex(OutOfRange, "the number of items is 4097, and must be 0 to 4,096"):
            Bank({f"i{n}": 0 for n in range(4097)})

    def test_a_total_out_of_range_leaves_the_update_active(self):
        """It names item and total, and the update continues without the refused call."""
        for optimistic in (True, False):
            bank = Bank({"a": 10**12, "b": 0}, optimistic=optimistic)

            def body(update):
                with self.assertRaisesRegex(OutOfRange, "'a' is 1000000000001, and must be"):
                    update.add("a", 1)
                update.add("b", 1)

            bank.transact(0, body)
            self.assertEqual(bank.snapshot(), {"a": 10**12, "b": 1})

    def test_a_name_of_any_type_is_an_error_of_the_package(self):
        bank = Bank({"a": 1, "b": 2})
        for name in (0, 1, None, "", "A", b"a", 1.5, [], {}, ["a"], object(), float("nan")):
            for call in (
                lambda: bank[name],
                lambda: Bank({"a": 1}, weights={"x": 1} if name is None else {"a": name}),
                lambda: bank.transact(0, lambda update: update.read(name)),
                lambda: bank.transact(0, lambda update: update.add(name, 1)),
            ):
                with self.subTest(name=name):
                    try:
                        call()
                    except EsrError as why:
                        self.assertTrue(str(why))
                    else:
                        self.assertEqual((name, call.__code__.co_firstlineno > 0), (1, True))  # a weight of 1
            with self.subTest(name=name), bank.report(0) as report:
                for call in (lambda: report.read(name), lambda: report.read_all([name])):
                    with self.assertRaises((UnknownItem, WrongType)):
                        call()
            self.assertNotIn(name, bank)
        for items in (None, 5, [1], "ab", {1: 2}, {None: 1}, {("a",): 1}):
            with self.subTest(items=items), self.assertRaises(WrongType):
                Bank(items)
        with self.assertRaises(WrongType), bank.report(0) as report:
            report.read_all("ab")
        with self.assertRaises(WrongType), bank.report(0) as report:
            report.read_all(5)

    def test_other_arguments_of_another_type(self):
        bank = Bank({"a": 1})
        for call in (
            lambda: bank.update(0, name=5),
            lambda: bank.report(0, name=b"x"),
            lambda: bank.transact(0, lambda update: None, name=5),
            lambda: bank.transact(0, None),
            lambda: Bank({"a": 1}, before_renewal=5),
            lambda: Bank({"a": 1}, store="bank.db"),
            lambda: bank["a", "b"],
        ):
            with self.assertRaises((WrongType, UnknownItem)):
                call()
        with self.assertRaisesRegex(OutOfRange, "synchronous is 'OFF', and must be"):
            SQLiteStore("unused", synchronous="OFF")

    def test_a_library_that_cannot_be_loaded(self):
        """The message names the variable, for a path without a file and for a file that is not a library."""
        package = str(pathlib.Path(esr.__file__).parent.parent)
        for path in ("/nowhere/libesr.so.0", __file__):
            environment = {**os.environ, "ESR_LIBRARY": path, "PYTHONPATH": package}
            ran = subprocess.run([sys.executable, "-c", "import esr"], env=environment, capture_output=True, text=True)
            self.assertEqual(ran.returncode, 1)
            self.assertIn(path, ran.stderr)
            self.assertIn("ESR_LIBRARY must be the path of libesr.so.0", ran.stderr.splitlines()[-1])


if __name__ == "__main__":
    unittest.main()
