"""Scripts: the plain program of the checks replies to each line as recorded, within every limit."""

import unittest
from unittest import mock

from esr_history import placement, windows
from esr_history.names import Names
from esr_history.order import history_of
from esr_history.placement import spread
from esr_history.record import Item
from esr_history.script import TooLarge, convert

from .generated import bank
from .written import answers, distances, read, record, transaction, write


def transfer(name, began, ended, version, *amounts):
    """A transfer that found the opening values: (item, value before, value after)."""
    reads = [read(item, before, "opening") for item, before, _ in amounts]
    return transaction(name, began, ended, *reads, *(write(item, after, version) for item, _, after in amounts))


def told(made):
    """The only script of a record; its answers are those of the plain program."""
    conversion = convert(history_of(made))
    (one,) = conversion.scripts
    assert answers(one) == one.answers, (answers(one), one.answers)
    return one


class Scripts(unittest.TestCase):
    def test_a_report_beside_a_transfer_reads_half_of_it(self):
        made = record(
            {"checking": 500, "savings": 1500},
            transfer("transfer", 10, 20, "7", ("checking", 500, 400), ("savings", 1500, 1600)),
            transaction("report", 5, 30, read("checking", 500, "opening"), read("savings", 1600, "7")),
            transaction("late", 25, 35, read("checking", 400, "7"), read("savings", 1600, "7")),
        )
        one = told(made)
        self.assertEqual(
            one.lines,
            [
                "item checking 500",
                "item savings 1500",
                "begin report query 1000000000000000000",
                "read report checking",
                "begin transfer update 1000000000000000000",
                "read transfer checking",
                "read transfer savings",
                "write transfer checking 400",
                "write transfer savings 1600",
                "commit transfer",
                "begin late query 1000000000000000000",
                "read report savings",
                "read late checking",
                "read late savings",
                "commit report",
                "commit late",
            ],
        )
        self.assertEqual(distances(one), {"report": 100, "late": 0})

    def test_a_row_that_is_read_twice(self):
        one = told(
            record(
                {"x": 100},
                transaction("u", 0, 10, write("x", 130, "1")),
                transaction("report", 5, 30, read("x", 100, "opening"), read("x", 130, "1")),
            )
        )
        self.assertEqual(distances(one), {"report": 30})

    def test_what_a_report_reads_of_a_serial_order_that_is_not_the_commit_order(self):
        # `batch` read the old day and commits last; the report sees the new day, and no batch.
        made = record(
            {"day": 1, "receipts": 300},
            transaction("close", 0, 10, read("day", 1, "opening"), write("day", 2, "8")),
            transaction("batch", 0, 30, read("day", 1, "opening"), write("receipts", 700, "7")),
            transaction("report", 15, 20, read("day", 2, "8"), read("receipts", 300, "opening")),
        )
        self.assertEqual(distances(told(made)), {"report": 1})

    def test_a_snapshot_that_is_older_than_the_report_is_begun_where_it_stood(self):
        one = told(
            record(
                {"x": 1, "y": 1},
                transaction("u", 0, 10, write("x", 2, "1")),
                transaction("report", 15, 20, read("x", 1, "opening"), read("y", 1, "opening")),
            )
        )
        self.assertLess(one.lines.index("read report x"), one.lines.index("commit u"))
        self.assertEqual(distances(one), {"report": 0})

    def test_rows_that_are_not_there_count_nothing(self):
        one = told(
            record(
                {"new": None, "old": 50},
                transaction("insert", 0, 10, write("new", 7, "1")),
                transaction("delete", 0, 20, write("old", None, "deleted by 2")),
                transaction("early", 0, 15, read("new", None, None), read("old", 50, "opening")),
                transaction("mixed", 0, 25, read("new", None, None), read("old", None, None)),
            )
        )
        # (nothing keeps the deletion from being before the insertion in a serial order)
        self.assertEqual(distances(one), {"early": 0, "mixed": 0})

    def test_weights_count(self):
        made = record(
            {"phones": 10, "apples": 10},
            transfer("sale", 0, 10, "1", ("phones", 10, 8), ("apples", 10, 5)),
            transaction("count", 0, 20, read("phones", 10, "opening"), read("apples", 5, "1")),
        )
        made.items["phones"] = Item("phones", 10, "opening", 900)
        self.assertEqual(distances(told(made)), {"count": 5})

    def test_own_writes_are_read_back(self):
        told(
            record(
                {"x": 1},
                transaction(
                    "u", 0, 10, read("x", 1, "opening"), write("x", 2, "1"), read("x", 2, "1"), write("x", 3, "1")
                ),
                transaction("v", 0, 20, read("x", 3, "1"), write("x", 4, "2")),
            )
        )

    def test_banks_that_were_not_run(self):
        off = 0
        for seed in range(40):
            for span in (0, 6):
                one = told(bank(9, 4, 5, span, seed))
                found = distances(one)
                self.assertEqual(len(found), 4)
                if span == 0:
                    self.assertEqual(set(found.values()), {0})
                off += sum(1 for distance in found.values() if distance)
        self.assertGreater(off, 20)


class Limits(unittest.TestCase):
    def test_windows_tell_each_report_once_and_no_differently(self):
        made = bank(60, 12, 5, 6, 3)
        whole = told_large(made)
        for most in (dict(MAX_TRANSACTIONS=18), dict(MAX_ENTRIES=90)):
            with mock.patch.multiple(windows, **most):
                conversion = convert(history_of(made))
            self.assertGreater(len(conversion.scripts), 3)
            names = [each.report.name for one in conversion.scripts for each in one.window.reports]
            self.assertEqual(sorted(names), sorted(whole))
            for one in conversion.scripts:
                self.assertEqual(answers(one), one.answers)
                begun = sum(line.startswith("begin ") for line in one.lines)
                entries = sum(not line.startswith("item ") for line in one.lines)
                self.assertLessEqual(begun, most.get("MAX_TRANSACTIONS", begun))
                self.assertLessEqual(entries, most.get("MAX_ENTRIES", entries))

    def test_a_report_that_is_too_long_for_a_window_is_named(self):
        made = bank(60, 3, 5, 6, 3)
        made.transactions.append(transaction("endless", 0, 60, read("account/0", 1000, "opening")))
        with mock.patch.object(windows, "MAX_TRANSACTIONS", 30):
            conversion = convert(history_of(made))
        self.assertEqual([each.report.name for each in conversion.too_long], ["endless"])
        self.assertEqual(sum(len(one.window.reports) for one in conversion.scripts), 3)

    def test_a_sample_of_items(self):
        made = bank(9, 2, 8, 4, 5)
        with mock.patch.object(windows, "MAX_ITEMS", 3):
            conversion = convert(history_of(made))
        (one,) = conversion.scripts
        self.assertEqual((len(conversion.items), conversion.all_items), (3, 8))
        self.assertEqual(answers(one), one.answers)
        whole = distances(told(made))
        for name, distance in distances(one).items():
            self.assertLessEqual(distance, whole[name])

    def test_items_that_nobody_touched_are_not_told(self):
        made = bank(9, 2, 4, 4, 5)
        for number in range(5000):
            made.items[f"other/{number}"] = Item(f"other/{number}", 1, "opening")
        conversion = convert(history_of(made))
        (one,) = conversion.scripts
        self.assertEqual((len(conversion.items), conversion.all_items, one.answers[3]), (4, 4, "item account_3 1000"))

    def test_a_report_that_reads_none_of_the_sample(self):
        made = record(
            {"x": 0, "y": 0, "z": 0},
            transaction("a", 0, 1, read("x", 0, "opening"), read("y", 0, "opening")),
            transaction("b", 0, 1, read("y", 0, "opening")),
        )
        with mock.patch.object(windows, "MAX_ITEMS", 1):
            conversion = convert(history_of(made))
        self.assertEqual((conversion.items, conversion.all_items, conversion.unread), (["x"], 2, 1))

    def test_a_sample_of_reads(self):
        with mock.patch.object(placement, "MAX_READS", 4):
            conversion = convert(history_of(bank(9, 2, 8, 4, 5)))
        (one,) = conversion.scripts
        self.assertEqual([len(each.reads) for each in one.window.reports], [4, 4])
        self.assertEqual([each.left_out for each in conversion.sampled], [4, 4])

    def test_changes_beyond_every_limit_are_refused(self):
        reads = [read("x", 0, "opening")] * 1000
        updates = [transaction(f"u{n}", 0, n, write("x", (-1) ** n * 10**12, str(n))) for n in range(1, 400)]
        made = record({"x": 0}, transaction("report", 0, 1000, *reads), *updates)
        convert(history_of(made))
        for weight, others in ((2, []), (1, [transaction("other", 0, 1000, *reads)])):
            made.items["x"] = Item("x", 0, "opening", weight)
            made.transactions += others
            with self.assertRaises(TooLarge):
                convert(history_of(made))

    def test_spreads(self):
        self.assertEqual(spread(3, 5), [0, 1, 2])
        self.assertEqual(spread(10, 4), [0, 2, 5, 7])


def told_large(made):
    """The names of the reports of the only script of a record that the plain program cannot audit."""
    (one,) = convert(history_of(made)).scripts
    assert answers(one) == one.answers
    return [each.report.name for each in one.window.reports]


class NamesOfAScript(unittest.TestCase):
    def test_names_stay_or_become_like_names_or_are_numbered(self):
        names = Names("i")
        given = ["checking", "accounts/7", "accounts_7", "accounts-7", "i1", "i2", "Ä", "a_long_name_of_17", "", "9"]
        given += ["warehouse.accounts/12", "warehouse.accounts/7", "another_long_name/31", "another_long_name/Ä"]
        made = [names[label] for label in given]
        self.assertEqual(made[:3], ["checking", "accounts_7", "i_accounts_7"])
        self.assertEqual(made[-4:], ["accounts_12", "i_7", "i_31", "i4"])
        self.assertEqual(len(set(made)), len(given))
        for name in made:
            self.assertRegex(name, "^[a-z][a-z0-9_]{0,15}$")
        self.assertEqual([names[label] for label in given], made)
        self.assertEqual([names.labels[name] for name in made], given)
