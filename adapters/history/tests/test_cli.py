"""The command: from a record to the text and the files of a result, and each way in which it ends."""

import contextlib
import io
import os
import pathlib
import re
import sys
import tempfile
import unittest
from unittest import mock

from esr_history import cli, placement, windows
from esr_history.order import history_of
from esr_history.program import Program, ProgramError, off_reads
from esr_history.record import Outcome, save
from esr_history.script import convert

from .generated import bank
from .written import read, record, transaction, write

HERE = pathlib.Path(__file__).resolve().parent
PLAIN = str(HERE / "plain_esr")
README = HERE.parents[1] / "README.md"


def half_seen():
    return record(
        {"accounts/checking": 500, "accounts/savings": 1500},
        transaction(
            "teller_1",
            10,
            20,
            read("accounts/checking", 500, "opening"),
            write("accounts/checking", 400, "7"),
            write("accounts/savings", 1600, "7"),
            level="serializable",
        ),
        transaction("gone", 11, 12, write("accounts/savings", 0, "6"), outcome=Outcome.ABORTED),
        transaction(
            "report",
            5,
            30,
            read("accounts/checking", 500, "opening"),
            read("accounts/savings", 1600, "7"),
            level="read committed",
        ),
        transaction("late", 25, 35, read("accounts/checking", 400, "7"), read("accounts/savings", 1600, "7")),
        endings=[("accounts/checking", 400, "7"), ("accounts/savings", 1, "9")],
    )


class Commands(unittest.TestCase):
    def setUp(self):
        room = tempfile.TemporaryDirectory()
        self.addCleanup(room.cleanup)
        self.room = pathlib.Path(room.name)

    def run_of(self, *words):
        """The status, the output and the errors of a command."""
        out, err = io.StringIO(), io.StringIO()
        argv = ["esr-history", *map(str, words)]
        with contextlib.redirect_stdout(out), contextlib.redirect_stderr(err), mock.patch.object(sys, "argv", argv):
            try:
                status = cli.main()
            except SystemExit as end:
                status = end.code
        return status, out.getvalue(), err.getvalue()

    def audit(self, made, *words):
        path = self.room / "record.jsonl"
        save(made, str(path))
        return self.run_of("audit", path, "--out", self.room / "out", "--esr", PLAIN, *words)

    def test_an_audit(self):
        status, out, err = self.audit(half_seen())
        self.assertEqual((status, err), (0, ""))
        expected = f"""\
record     1 update at serializable; 2 reports at read committed; 2 items
           of a test
           1 transaction that aborted: left out
           written at the end by a transaction that was not recorded: accounts/savings
order      the updates are serializable; the serial order is the order of the commits
script     15 lines, each accepted; each read gave the value that was recorded
reports    1 without an error among the recorded updates, not known to be exact since the record has gaps; 1 off
distance   worst 100, mean 50.0
sum        worst error 100, mean 50.0
worst      report: off by 100, its sum by +100; {self.room}/out/worst/report.svg
           read 1600 of accounts/savings, which is 1500 at the nearest place: off by 100
"""
        self.assertEqual(out, expected)
        files = sorted(str(path.relative_to(self.room / "out")) for path in (self.room / "out").rglob("*.*"))
        self.assertEqual(
            files,
            [
                "audits.tsv",
                "legend.tsv",
                "result.txt",
                "script.esr",
                "worst/report.json",
                "worst/report.svg",
                "worst/report.txt",
            ],
        )
        self.assertEqual((self.room / "out" / "result.txt").read_text(), expected)
        legend = (self.room / "out" / "legend.tsv").read_text().splitlines()
        self.assertIn("script.esr\titem\taccounts_savings\taccounts/savings", legend)
        audits = (self.room / "out" / "audits.tsv").read_text().splitlines()
        self.assertEqual(audits[1], "report\tread committed\t2\t100\t100\t100\treport\tscript.esr")

    def test_what_was_left_out_is_told(self):
        with mock.patch.multiple(windows, MAX_ITEMS=3, MAX_TRANSACTIONS=6), mock.patch.object(
            placement, "MAX_READS", 4
        ):
            made = bank(9, 3, 5, 4, 3)
            made.transactions.append(transaction("endless", 0, 9, read("account/0", 1000, "opening")))
            status, out, _ = self.audit(made, "--worst", "0")
        self.assertEqual(status, 0)
        for text in (
            "sample     3 of 5 items: distances are at least those shown\n",
            "sample     4 reads of 3 reports that read more\n",
            "windows    2, since a script has at most ",
            "           endless is too long for a window: left out\n",
            " exact, as far as the sample goes; ",
        ):
            self.assertIn(text, out)

    def test_no_report(self):
        status, out, err = self.audit(record({"x": 1}, transaction("u", 0, 1, write("x", 2, "1"))))
        self.assertEqual((status, out.splitlines()[-1]), (3, "reports    none was audited"))
        self.assertEqual(err, "esr-history: nothing was audited: no report that committed was recorded\n")

    def test_an_empty_record(self):
        status, _, err = self.audit(record({}))
        self.assertEqual((status, err), (3, "esr-history: nothing was audited: no transaction was recorded\n"))

    def test_a_cycle(self):
        status, out, err = self.audit(
            record(
                {"x": 100},
                transaction("anna", 0, 1, read("x", 100, "opening"), write("x", 110, "1")),
                transaction("bert", 0, 2, read("x", 100, "opening"), write("x", 120, "2")),
            )
        )
        self.assertEqual((status, err), (1, ""))
        self.assertEqual(
            out,
            """\
order      the updates are not serializable: 2 of them are in a group where each comes before
           each other, so no report is audited: without a serial order there is no place for one
cycle      lost update: bert read x as it was before anna wrote it
           anna wrote x before bert did
""",
        )

    def test_a_missing_writer(self):
        status, out, err = self.audit(record({"x": 100}, transaction("report", 0, 1, read("x", 7, "99"))))
        self.assertEqual(
            (status, out, err),
            (1, "the record is incomplete:\n  7 of x by 99, which report read, has no recorded writer\n", ""),
        )

    def test_a_conversion(self):
        path = self.room / "record.jsonl"
        save(half_seen(), str(path))
        status, out, _ = self.run_of("convert", path, "--out", self.room / "out")
        self.assertEqual((status, out), (0, f"{self.room}/out/script.esr\n"))

    def test_records_that_are_none(self):
        path = self.room / "record.jsonl"
        path.write_text("{}\n")
        status, out, err = self.run_of("audit", path)
        self.assertEqual((status, out), (2, ""))
        self.assertEqual(
            err,
            f'esr-history: {path}: line 1: a record begins with {{"record": "esr", "format": 2, "system": ...}}\n',
        )
        self.assertEqual(self.run_of("audit", self.room / "none")[0], 2)
        path.write_bytes(b"\xff\n")
        self.assertEqual(self.run_of("audit", path)[0], 2)

    def test_a_program_that_is_not_there(self):
        path = self.room / "record.jsonl"
        save(half_seen(), str(path))
        status, _, err = self.run_of("audit", path, "--out", self.room / "out", "--esr", self.room / "esr")
        self.assertEqual(status, 2)
        self.assertIn("cannot be run: give the program esr by --esr or in the variable ESR", err)

    def test_a_program_that_ends_with_a_fault(self):
        false = self.room / "esr"
        false.write_text("#!/bin/sh\necho 'esr: out of memory' >&2\nexit 1\n")
        false.chmod(0o755)
        path = self.room / "record.jsonl"
        save(half_seen(), str(path))
        status, _, err = self.run_of("audit", path, "--out", self.room / "out", "--esr", false)
        self.assertEqual(status, 2)
        self.assertTrue(err.endswith("esr: out of memory\n"), err)

    def test_words_that_are_none(self):
        self.assertEqual(self.run_of()[0], 2)
        self.assertEqual(self.run_of("report")[0], 2)

    def test_help(self):
        for command in ("", "audit", "convert", "import"):
            status, out, _ = self.run_of(*command.split(), "--help")
            self.assertEqual(status, 0)
            self.assertIn("usage: esr-history", out)


class Answers(unittest.TestCase):
    def test_another_answer_than_the_record_says_is_an_error(self):
        (script,) = convert(history_of(half_seen())).scripts
        program = Program(PLAIN)
        with tempfile.TemporaryDirectory() as room:
            path = os.path.join(room, "script.esr")
            for old, new, said in (
                ("write teller_1 accounts_savings 1600", "write teller_1 accounts_savings 1601", "1601' and not"),
                ("commit late\n", "", "was answered 'None' and not 'committed late'"),
            ):
                pathlib.Path(path).write_text(script.text().replace(old, new))
                with self.assertRaises(ProgramError) as caught:
                    program.check_answers(script, path)
                self.assertIn(said, str(caught.exception))

    def test_reads_that_are_off(self):
        text = "read a 5 nearest 5 off 0\nread b -5 nearest 5 off 10\nread c 1 nearest 41 off 40\nbefore u\n"
        self.assertEqual([(each.item, each.off) for each in off_reads(text)], [("c", 40), ("b", 10)])


class Page(unittest.TestCase):
    def test_the_record_of_the_page_gives_the_script_and_the_result_of_the_page(self):
        blocks = re.findall(r"\n\n((?:    .*\n)+)", README.read_text(encoding="utf-8"))
        blocks = [re.sub(r"^    ", "", block, flags=re.M) for block in blocks]
        (made,) = [block for block in blocks if block.startswith('{"record"')]
        (script,) = [block for block in blocks if block.startswith("item ")]
        (result,) = [block for block in blocks if block.startswith("record     1 update")]
        with tempfile.TemporaryDirectory() as room:
            path = os.path.join(room, "record.jsonl")
            pathlib.Path(path).write_text(made, encoding="utf-8")
            out = io.StringIO()
            words = ["audit", path, "--out", os.path.join(room, "esr-audit"), "--esr", PLAIN]
            with contextlib.redirect_stdout(out):
                cli.execute(cli.parser(), words)
            self.assertEqual(pathlib.Path(room, "esr-audit", "script.esr").read_text(), script)
            self.assertEqual(out.getvalue().replace(room + "/", ""), result)
