"""The program `esr`: runs a script, audits it, explains and draws a report.

The idea: nothing of the engine or of the audit is done here. The program's reply to each line is compared with the one that
the record implies, so that a script that differs from the record is found, whatever the reason.

Rejected: taking the distances from a run without looking at its replies. A line that was blocked or refused would silently
be missing from the history that is audited.
"""

from __future__ import annotations

import os
import pathlib
import shutil
import subprocess
import sys
from dataclasses import dataclass
from itertools import zip_longest
from typing import Optional

from .script import Script

REPOSITORY = pathlib.Path(__file__).resolve().parents[3]


class ProgramError(Exception):
    """The program is missing, ended with a fault, or replied something else than the record implies."""


@dataclass(frozen=True)
class Finding:
    """The audit of a report: its least distance, the charge that the engine would have made, and the updates before the
    nearest placement by their names in the script (only for a report that is off)."""

    name: str
    distance: int
    charged: int
    before: frozenset[str] = frozenset()


@dataclass(frozen=True)
class OffRead:
    """A read that is not as in the nearest placement."""

    item: str
    value: int
    nearest: int
    off: int


def found(given: Optional[str] = None) -> str:
    """Returns the path of the program: the given one, or that of the variable ESR, the repository's, or the one on PATH."""
    for path in (given, os.environ.get("ESR")):
        if path:
            if not os.access(path, os.X_OK):
                raise ProgramError(f"{path} cannot be run: give the program esr by --esr or in the variable ESR")
            return os.path.abspath(path)
    own = REPOSITORY / "esr"
    path = str(own) if os.access(own, os.X_OK) else shutil.which("esr")
    if path is None:
        raise ProgramError("the program esr was not found: give it by --esr or in the variable ESR")
    return path


class Program:
    """The program `esr` at a path."""

    def __init__(self, path: str) -> None:
        self.path = path

    def output(self, words: list[str], script: str) -> str:
        """Returns its output for a script in a file."""
        with open(script, "rb") as file:
            done = subprocess.run([self.path, *words], stdin=file, capture_output=True, check=False)
        said = done.stderr.decode(errors="replace")
        if done.returncode:
            raise ProgramError(f"{self.path} {' '.join(words)} < {script}: {said.strip() or done.returncode}")
        sys.stderr.write(said)  # (if the program is not built, it runs without proof and prints so)
        return done.stdout.decode()

    def check_answers(self, script: Script, path: str) -> None:
        """Runs a script, and compares the reply to each line with the one that the record implies."""
        answers = self.output(["run"], path).splitlines()
        for line, expected, answer in zip_longest(script.lines, script.answers, answers):
            if answer != expected:
                raise ProgramError(f"{path}: the line '{line}' was answered '{answer}' and not '{expected}'")

    def audit(self, path: str, workers: int) -> list[Finding]:
        """Returns the audit of each report."""
        findings = []
        command = [self.path, "audit", "--workers", str(workers)]
        with open(path, "rb") as file, subprocess.Popen(
            command, stdin=file, stdout=subprocess.PIPE, stderr=subprocess.PIPE
        ) as done:
            assert done.stdout is not None and done.stderr is not None
            for line in done.stdout:
                words = line.split(b" ", 7)
                if words[0] == b"audit":
                    # (the list of updates may be long, and is not needed for an exact report)
                    before = frozenset(words[7].decode().strip().split(",") if words[3] != b"0" else ())
                    findings.append(Finding(words[1].decode(), int(words[3]), int(words[5]), before))
            said = done.stderr.read().decode(errors="replace").strip()
        if done.returncode:
            raise ProgramError(f"{' '.join(command)} < {path}: {said or done.returncode}")
        return findings

    def explanation(self, name: str, path: str) -> str:
        return self.output(["explain", name], path)

    def picture(self, name: str, path: str) -> str:
        return self.output(["picture", name], path)

    def bundle(self, name: str, path: str) -> str:
        return self.output(["certify", name], path)


def off_reads(explanation: str) -> list[OffRead]:
    """The reads of an explanation that are off, the worst first."""
    reads = []
    for line in explanation.splitlines():
        words = line[:200].split(" ")
        if words[0] == "read" and words[6] != "0":
            reads.append(OffRead(words[1], int(words[2]), int(words[4]), int(words[6])))
    return sorted(reads, key=lambda read: -read.off)
