"""The order of updates, the cycles reported if there is none, and the data reported as missing from a record."""

import unittest

from esr_history.cycles import NotSerializable
from esr_history.order import history_of, unrecorded_endings
from esr_history.record import Outcome
from esr_history.versions import IncompleteRecord

from .written import read, record, transaction, write


def names(history):
    return [history.updates[update].name for update in history.serial]


class Orders(unittest.TestCase):
    def test_commit_order_is_kept_where_nothing_speaks_against_it(self):
        history = history_of(
            record(
                {"x": 0, "y": 0},
                transaction("late", 0, 9, write("y", 1, "9")),
                transaction("early", 0, 3, write("x", 1, "3")),
                transaction("middle", 0, 5, read("x", 1, "3"), write("x", 2, "5")),
            )
        )
        self.assertEqual(names(history), ["early", "middle", "late"])
        self.assertTrue(history.keeps_commit_order)

    def test_a_reader_of_what_was_replaced_comes_first_though_it_committed_last(self):
        history = history_of(
            record(
                {"x": 0, "y": 0},
                transaction("writer", 0, 1, write("x", 1, "1")),
                transaction("reader", 0, 2, read("x", 0, "opening"), write("y", 1, "2")),
            )
        )
        self.assertEqual(names(history), ["reader", "writer"])
        self.assertFalse(history.keeps_commit_order)

    def test_at_one_time_the_first_in_the_record_is_first(self):
        history = history_of(
            record({"x": 0}, transaction("a", 0, 5, write("x", 1, "1")), transaction("b", 0, 5, write("x", 2, "2")))
        )
        self.assertEqual(names(history), ["a", "b"])

    def test_what_aborted_or_wrote_nothing_is_no_update(self):
        history = history_of(
            record(
                {"x": 0},
                transaction("gone", 0, 1, write("x", 1, "1"), outcome=Outcome.ABORTED),
                transaction("doubtful", 0, 1, write("x", 2, "2"), outcome=Outcome.UNKNOWN),
                transaction("report", 0, 2, read("x", 0, "opening")),
                transaction("silent", 0, 2),
            )
        )
        self.assertEqual((names(history), [report.name for report in history.reports]), ([], ["report"]))

    def test_versions_of_savepoints_are_their_transaction(self):
        history = history_of(
            record(
                {"x": 0},
                transaction("u", 0, 1, write("x", 1, "10"), write("x", 2, "11")),
                transaction("v", 0, 2, read("x", 2, "11"), write("x", 3, "12")),
            )
        )
        self.assertEqual(names(history), ["u", "v"])


class Cycles(unittest.TestCase):
    def cycle(self, made, kind, steps, count=2):
        with self.assertRaises(NotSerializable) as caught:
            history_of(made)
        error = caught.exception
        self.assertEqual((error.count, len(error.cycles)), (count, 1))
        self.assertEqual((error.cycles[0].kind, [str(step) for step in error.cycles[0].steps]), (kind, steps))

    def test_a_lost_update(self):
        self.cycle(
            record(
                {"x": 100},
                transaction("anna", 0, 1, read("x", 100, "opening"), write("x", 110, "1")),
                transaction("bert", 0, 2, read("x", 100, "opening"), write("x", 120, "2")),
            ),
            "lost update",
            ["bert read x as it was before anna wrote it", "anna wrote x before bert did"],
        )

    def test_write_skew(self):
        self.cycle(
            record(
                {"x": 1, "y": 1},
                transaction("anna", 0, 1, read("x", 1, "opening"), read("y", 1, "opening"), write("x", 0, "1")),
                transaction("bert", 0, 2, read("x", 1, "opening"), read("y", 1, "opening"), write("y", 0, "2")),
            ),
            "write skew",
            ["anna read y as it was before bert wrote it", "bert read x as it was before anna wrote it"],
        )

    def test_an_update_that_reads_twice_and_sees_another_between(self):
        self.cycle(
            record(
                {"x": 1, "y": 1},
                transaction("anna", 0, 1, write("x", 2, "1")),
                transaction("bert", 0, 2, read("x", 1, "opening"), read("x", 2, "1"), write("y", 0, "2")),
            ),
            "unrepeatable read",
            ["bert read x as it was before anna wrote it", "anna wrote x, and bert read that"],
        )

    def test_the_shortest_cycle_of_a_group_is_told_and_who_is_only_behind_it_is_not_counted(self):
        reads = [read(item, 0, "opening") for item in "wxyz"]
        self.cycle(
            record(
                {item: 0 for item in "wxyz"},
                transaction("a", 0, 1, reads[1], write("w", 1, "1")),
                transaction("b", 0, 2, reads[2], write("x", 1, "2")),
                transaction("c", 0, 3, reads[0], reads[1], write("y", 1, "3")),
                transaction("behind", 0, 4, read("y", 1, "3"), write("z", 1, "4")),
            ),
            "write skew",
            ["b read y as it was before c wrote it", "c read x as it was before b wrote it"],
            count=3,
        )

    def test_two_groups_have_two_cycles(self):
        made = record(
            {"x": 0, "y": 0},
            *[
                transaction(f"{item}{who}", 0, who, read(item, 0, "opening"), write(item, who, f"{item}{who}"))
                for item in "xy"
                for who in (1, 2)
            ],
        )
        with self.assertRaises(NotSerializable) as caught:
            history_of(made)
        self.assertEqual((caught.exception.count, len(caught.exception.cycles)), (4, 2))

    def test_a_long_cycle_is_walked_without_recursion(self):
        count = 5000
        made = record(
            {f"i{number}": 0 for number in range(count)},
            *[
                transaction(
                    f"t{number}",
                    0,
                    number,
                    read(f"i{(number + 1) % count}", 0, "opening"),
                    write(f"i{number}", 1, f"v{number}"),
                )
                for number in range(count)
            ],
        )
        with self.assertRaises(NotSerializable) as caught:
            history_of(made)
        self.assertEqual((caught.exception.count, len(caught.exception.cycles[0].steps)), (count, count))


class Lacks(unittest.TestCase):
    def said(self, made, *faults):
        with self.assertRaises(IncompleteRecord) as caught:
            history_of(made)
        self.assertEqual(caught.exception.faults, list(faults))

    def test_a_missing_writer(self):
        self.said(
            record({"x": 1}, transaction("report", 0, 1, read("x", 7, "99"))),
            "7 of x by 99, which report read, has no recorded writer",
        )

    def test_a_missing_write_of_a_writer_that_is_known(self):
        self.said(
            record(
                {"x": 1, "y": 1},
                transaction("u", 0, 1, write("y", 7, "99"), labels=("99",)),
                transaction("report", 0, 1, read("x", 7, "99")),
            ),
            "7 of x by 99, which report read, has no recorded writer: u has that label, and a write of x by it was not"
            " recorded",
        )

    def test_a_write_that_is_missing_between_two(self):
        self.said(
            record(
                {"x": 1}, transaction("u", 0, 1, write("x", 2, "5")), transaction("report", 0, 2, read("x", 3, "5"))
            ),
            "report read x by 5 as 3, and u left 2: a write of it was not recorded",
        )

    def test_an_own_write_that_is_missing(self):
        self.said(
            record({"x": 1}, transaction("u", 0, 1, write("x", 2, "5"), read("x", 3, "5"))),
            "u wrote 2 to x and then read 3 there: a write of it was not recorded",
        )
        self.said(
            record({"x": 1}, transaction("u", 0, 1, read("x", 2, "5"), write("x", 2, "5"))),
            "u read what it wrote to x, and a write of it was not recorded",
        )

    def test_reads_of_what_never_committed(self):
        for outcome, fault in (
            (Outcome.ABORTED, "u aborted, and an audit is of reads of what was committed"),
            (Outcome.UNKNOWN, "how u ended is unknown"),
        ):
            self.said(
                record(
                    {"x": 1},
                    transaction("u", 0, 1, write("x", 2, "5"), outcome=outcome),
                    transaction("report", 0, 2, read("x", 2, "5")),
                ),
                f"2 of x by 5, which report read, has no recorded writer that committed: {fault}",
            )

    def test_one_label_for_two_versions(self):
        self.said(
            record({"x": 1}, transaction("u", 0, 1, write("x", 2, "5")), transaction("v", 0, 2, write("x", 3, "5"))),
            "version 5 of x is by v and by u: two versions of an item need two labels",
        )

    def test_at_the_end(self):
        updates = transaction("u", 0, 1, write("x", 2, "5")), transaction("v", 0, 2, write("x", 3, "6"))
        history = history_of(record({"x": 1}, *updates, endings=[("x", 3, "6")]))
        self.assertEqual(unrecorded_endings(history), [])
        history = history_of(record({"x": 1}, *updates, endings=[("x", 4, "7")]))
        self.assertEqual(unrecorded_endings(history), ["x"])
        self.said(
            record({"x": 1}, *updates, endings=[("x", 2, "5")]),
            "at the end x is by u, but by the times of the commits v wrote it last: the clock was set back, or a label"
            " is not of the version",
        )


class Absences(unittest.TestCase):
    def test_a_row_that_was_not_there_yet_and_one_that_was_there_no_more(self):
        history = history_of(
            record(
                {"new": None, "old": 5},
                transaction("insert", 0, 1, write("new", 7, "1")),
                transaction("delete", 0, 2, write("old", None, "deleted by 2")),
                transaction("report", 0, 3, read("new", None, None), read("old", None, None)),
                endings=[("new", 7, "1"), ("old", None, None)],
            )
        )
        self.assertEqual([number for _, number in history.report_reads[0]], [0, 1])
        self.assertEqual(unrecorded_endings(history), [])

    def test_which_absence_was_seen_may_be_unknown(self):
        made = record(
            {"x": None},
            transaction("insert", 0, 1, write("x", 7, "1")),
            transaction("delete", 0, 2, write("x", None, "deleted by 2")),
            transaction("report", 0, 3, read("x", None, None)),
        )
        with self.assertRaises(IncompleteRecord) as caught:
            history_of(made)
        self.assertIn("was not there more than once", str(caught.exception))

    def test_a_row_that_nobody_deleted(self):
        with self.assertRaises(IncompleteRecord) as caught:
            history_of(record({"x": 5}, transaction("report", 0, 3, read("x", None, None))))
        self.assertEqual(str(caught.exception), "report did not find x, and no recorded transaction deleted it")
