"""The command `esr-postgres`."""

from __future__ import annotations

import argparse
import contextlib
import os
import runpy
import sys
import traceback
from typing import Iterator

from esr_history.cli import (
    CANNOT_BE_AUDITED,
    FAILED,
    NOTHING_AUDITED,
    STATUSES,
    Stop,
    add_audit_options,
    add_record_commands,
    commands,
    program_of,
    show,
    status_of,
)
from esr_history.record import Record, save

from .tables import RecordingError, Table

DESCRIPTION = """\
Audits the reports of a PostgreSQL database: how far each report was from every state
that the concurrent updates, one after another, left."""

EXAMPLES = f"""\
examples:
  a bank on a server, in its own schema, for four seconds:
    esr-postgres bank --dsn "host=/tmp dbname=test" --reports "read committed"
  a Python program whose statements return id, balance and xmin:
    esr-postgres run --dsn "dbname=shop" --table accounts:id:balance:2 shop.py
  a recording whose recorder was killed:
    esr-postgres finish --dsn "dbname=shop" esr-audit/record.jsonl.open
  a record of this or another recorder:
    esr-postgres audit record.jsonl

The server needs track_commit_timestamp = on. The folder of a result (esr-audit, or
that of --out) has result.txt, the script, a legend of its names, audits.tsv with the
distance of each report, and of the worst an explanation, a picture and a bundle.

{STATUSES} README.md next to this
program explains what a result means, and what it does not."""

LEVELS = ("read committed", "repeatable read", "serializable")
OPEN = ".open"


# ---- arguments


def _add_server(parser: argparse.ArgumentParser) -> None:
    parser.add_argument(
        "--dsn", default="", help='the database, as in "host=/tmp dbname=test" (libpq\'s PG.. variables)'
    )


def _add_tables(parser: argparse.ArgumentParser) -> None:
    parser.add_argument(
        "--table",
        metavar="TABLE:KEY:VALUE[:SCALE]",
        action="append",
        required=True,
        help="a table to record: its key columns, separated by commas, the column of its values, and the number of"
        " decimal digits of a value (0). May be given several times",
    )


def _add_program(parser: argparse.ArgumentParser) -> None:
    parser.add_argument("program", metavar="PROGRAM", help="a Python program that uses psycopg2")
    parser.add_argument("words", metavar="ARGUMENT", nargs=argparse.REMAINDER, help="arguments for the program")


def _add_bank(bank: argparse.ArgumentParser) -> None:
    for word, noun in (("--updates", "transfers"), ("--reports", "reports")):
        bank.add_argument(
            word,
            metavar="LEVEL",
            choices=LEVELS,
            default="read committed",
            help=f'isolation level of the {noun}, as in {word} "repeatable read" (read committed)',
        )
    bank.add_argument("--seconds", type=float, default=4.0, help="how long the bank is open (4)")
    bank.add_argument("--accounts", type=int, default=60, help="the number of accounts (60)")
    bank.add_argument("--tellers", type=int, default=6, help="the number of tellers, who transfer (6)")
    bank.add_argument("--reporters", type=int, default=2, help="the number of reporters (2)")
    bank.add_argument(
        "--without-locks",
        action="store_true",
        help="transfers at read committed do not read FOR UPDATE, and lose updates",
    )


def parser() -> argparse.ArgumentParser:
    top, command = commands("esr-postgres", DESCRIPTION, EXAMPLES)
    run = command("run", "record a program, convert the record, and audit it", _run)
    _add_server(run)
    _add_tables(run)
    _add_program(run)
    add_audit_options(run)
    bank = command("bank", "record a bank of tellers and reports, convert the record, and audit it", _bank)
    _add_server(bank)
    _add_bank(bank)
    add_audit_options(bank)
    record = command("record", "record a program", _record)
    _add_server(record)
    _add_tables(record)
    _add_program(record)
    record.add_argument(
        "--record", metavar="FILE", default="record.jsonl", help="the path of the record (record.jsonl)"
    )
    watch = command("watch", "audit reports among unchanged writers, whose writes are read from the log", _watch)
    _add_server(watch)
    _add_tables(watch)
    watch.add_argument("--reports", metavar="FILE", required=True, help="the file to which reports append their lines")
    watch.add_argument("--seconds", metavar="N", type=float, help="how long to watch (until SIGINT or SIGTERM)")
    watch.add_argument("--window", metavar="N", type=float, default=5.0, help="audit every N seconds (5)")
    add_audit_options(watch)
    reports = command("reports", "run a program whose reports return pg_current_snapshot(), for watch", _reports)
    _add_server(reports)
    _add_tables(reports)
    reports.add_argument("--to", metavar="FILE", required=True, help="the file to append the reports to")
    _add_program(reports)
    lint = command("lint", "name reports of a program whose statements do not share a snapshot", _lint)
    _add_server(lint)
    _add_tables(lint)
    _add_program(lint)
    finish = command("finish", "make the record of a recording whose recorder was killed", _finish)
    _add_server(finish)
    finish.add_argument("recording", metavar=f"FILE{OPEN}", help="the recording, as its recorder left it")
    add_record_commands(command)
    return top


# ---- commands


@contextlib.contextmanager
def _failures() -> Iterator[None]:
    """Ends the command if the database cannot be recorded or its server fails. (Only commands that record need
    psycopg2; `connections` reports how to install it.)"""
    from .connections import ServerError

    try:
        yield
    except (RecordingError, ServerError) as error:
        raise Stop(FAILED, str(error).strip()) from None


@contextlib.contextmanager
def _kept(path: str) -> Iterator[None]:
    """If the record cannot be finished, names the recording and keeps it; otherwise removes it."""
    try:
        with _failures():
            yield
    except Stop as stop:
        raise Stop(stop.status, f"{stop}; the recording is kept: esr-postgres finish {path}") from None
    os.unlink(path)


def _run_recorded(path: str, words: list[str]) -> None:
    """Runs a program as Python runs it. It is recorded, however it ends."""
    sys.argv = [path, *words]
    sys.path.insert(0, os.path.dirname(os.path.abspath(path)))
    try:
        runpy.run_path(path, run_name="__main__")
    except SystemExit as end:
        if end.code:
            print(f"esr-postgres: {path} ended with {end.code}; the record is up to there", file=sys.stderr)
    except Exception:  # (any that the program does not catch)
        traceback.print_exc()
        print(f"esr-postgres: {path} ended with this error; the record is up to there", file=sys.stderr)


def _recorded(words: argparse.Namespace, target: str) -> Record:
    """Records a program, and saves its record."""
    if not os.path.isfile(words.program):
        raise Stop(FAILED, f"there is no program {words.program}")
    with _failures():
        from .recorder import Recorder

        recorder = Recorder(words.dsn, [Table.parse(text) for text in words.table], target + OPEN)
    with recorder.in_place_of_psycopg2():
        _run_recorded(words.program, words.words)
    with _kept(target + OPEN):
        record = recorder.finish()
        save(record, target)
    if not record.transactions:
        raise Stop(
            NOTHING_AUDITED,
            "nothing was recorded, so nothing is audited: no statement had key, value and xmin of a recorded table in"
            " its result",
        )
    return record


def _target(words: argparse.Namespace) -> str:
    """Returns the path of the record of a result."""
    folder = os.path.abspath(words.out)
    os.makedirs(folder, exist_ok=True)
    return os.path.join(folder, "record.jsonl")


def _run(words: argparse.Namespace) -> None:
    program, target = program_of(words), _target(words)
    here = os.getcwd()
    record = _recorded(words, target)
    os.chdir(here)
    show(record, program, words)


def _bank(words: argparse.Namespace) -> None:
    program, target = program_of(words), _target(words)
    with _failures():
        from .bank import Bank

        bank = Bank(
            words.updates,
            words.reports,
            words.seconds,
            words.accounts,
            words.tellers,
            words.reporters,
            not words.without_locks,
        )
        record = bank.record(words.dsn)
    save(record, target)
    show(record, program, words)


def _record(words: argparse.Namespace) -> None:
    target = os.path.abspath(words.record)
    record = _recorded(words, target)
    print(f"{target}: {len(record.transactions):,} transactions, {len(record.items):,} items")


def _watch(words: argparse.Namespace) -> None:
    program = program_of(words)
    with _failures():
        from .watch import Watch, stop_at_signals

        tables = [Table.parse(text) for text in words.table]
        watch = Watch(words.dsn, tables, words.reports, words.out, program, words.window)
        stop_at_signals(watch)
        watch.run(words.seconds)
    print(watch.result(words.worst), end="", flush=True)
    if not watch.findings.reports:
        raise Stop(NOTHING_AUDITED, "nothing was audited: no report that committed was recorded")


def _reports(words: argparse.Namespace) -> None:
    if not os.path.isfile(words.program):
        raise Stop(FAILED, f"there is no program {words.program}")
    with _failures():
        from .reports import ReportRecorder

        recorder = ReportRecorder(words.dsn, [Table.parse(text) for text in words.table], words.to)
    with recorder.in_place_of_psycopg2():
        _run_recorded(words.program, words.words)
    if not recorder.count:
        raise Stop(NOTHING_AUDITED, "no report was recorded: no statement returned pg_current_snapshot()")


def _lint(words: argparse.Namespace) -> None:
    if not os.path.isfile(words.program):
        raise Stop(FAILED, f"there is no program {words.program}")
    with _failures():
        from .lint import Linter

        linter = Linter(words.dsn, [Table.parse(text) for text in words.table])
    with linter.in_place_of_psycopg2():
        _run_recorded(words.program, words.words)
    linter.finish()
    if not linter.reports:
        raise Stop(NOTHING_AUDITED, "no report was seen: no transaction only read a watched table")
    if linter.findings:
        raise Stop(CANNOT_BE_AUDITED, linter.text())
    print(linter.text())


def _finish(words: argparse.Namespace) -> None:
    with _failures():
        from .journal import load
        from .recorder import current_life, finished

        with open(words.recording, encoding="utf-8") as file:
            recording = load(file)
        target = words.recording[: -len(OPEN)] if words.recording.endswith(OPEN) else words.recording + ".jsonl"
        record = finished(words.dsn, recording, current_life(words.dsn, recording), was_killed=True)
    save(record, target)
    print(f"{target}: {len(record.transactions):,} transactions, {len(record.items):,} items")


def main() -> int:
    return status_of(parser())
