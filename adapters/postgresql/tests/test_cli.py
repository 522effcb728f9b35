"""The command without a server: its help, and arguments that it refuses."""

import contextlib
import io
import sys
import unittest
from unittest import mock

from esr_postgresql import cli


def run_of(*words):
    """Returns the status, the output and the errors of a command."""
    out, err = io.StringIO(), io.StringIO()
    argv = ["esr-postgres", *map(str, words)]
    with contextlib.redirect_stdout(out), contextlib.redirect_stderr(err), mock.patch.object(sys, "argv", argv):
        try:
            status = cli.main()
        except SystemExit as end:
            status = end.code
    return status, out.getvalue(), err.getvalue()


class Commands(unittest.TestCase):
    def test_arguments_that_are_refused(self):
        self.assertEqual(run_of()[0], 2)
        self.assertEqual(run_of("report")[0], 2)
        self.assertEqual(run_of("bank", "--updates", "chaos")[0], 2)

    def test_help(self):
        for command in ("", "run", "bank", "record", "finish", "convert", "audit"):
            status, out, _ = run_of(*command.split(), "--help")
            self.assertEqual(status, 0)
            self.assertIn("usage: esr-postgres", out)
