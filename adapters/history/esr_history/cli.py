"""The command `esr-history`, and the parts of a command line that other adapters share with it."""

from __future__ import annotations

import argparse
import pathlib
import sys
from typing import Callable, Optional, Sequence

from .audit import audited, write_scripts
from .cycles import NotSerializable
from .elle import Undetermined, load_registers
from .order import history_of
from .program import Program, ProgramError, found
from .record import Record, RecordError, load, save
from .result import Result, line
from .script import TooLarge, convert
from .versions import IncompleteRecord

DESCRIPTION = """\
Audits a recorded history of any database: how far each report was from every state
that the updates, one after another, left."""

STATUSES = """\
status: 0 audited, whatever was found; 1 the record cannot be audited: the updates
are not serializable, or the record lacks a writer; 2 anything else; 3 nothing was
audited, because no report was recorded."""

EXAMPLES = f"""\
examples:
  a record that a program wrote (adapters/README.md defines the format):
    esr-history audit record.jsonl
  a history of registers by Jepsen, checked there by Elle as rw-register:
    esr-history import history.edn record.jsonl

The folder of a result (esr-audit, or that of --out) has result.txt, the script, a
legend of its names, audits.tsv with the distance of each report, and of the worst
an explanation, a picture and a bundle.

{STATUSES}"""

MAX_CYCLES_SHOWN = 5
CANNOT_BE_AUDITED, FAILED, NOTHING_AUDITED = 1, 2, 3


class Stop(Exception):
    """The end of the command: a status and a text. A text of status 1 is a result, any other a message."""

    def __init__(self, status: int, text: str) -> None:
        super().__init__(text)
        self.status = status


# ---- arguments

Command = Callable[[str, str, Callable[[argparse.Namespace], None]], argparse.ArgumentParser]


def commands(name: str, description: str, epilog: str) -> tuple[argparse.ArgumentParser, Command]:
    """Returns a parser for a program with commands, and a function that adds a command to it."""
    top = argparse.ArgumentParser(
        prog=name, description=description, epilog=epilog, formatter_class=argparse.RawDescriptionHelpFormatter
    )
    listed = top.add_subparsers(metavar="COMMAND", required=True)

    def command(name: str, text: str, job: Callable[[argparse.Namespace], None]) -> argparse.ArgumentParser:
        added = listed.add_parser(name, help=text, description=text[0].upper() + text[1:] + ".")
        added.set_defaults(job=job)
        return added

    return top, command


def add_out(parser: argparse.ArgumentParser) -> None:
    parser.add_argument("--out", metavar="FOLDER", default="esr-audit", help="the folder of the result (esr-audit)")


def add_audit_options(parser: argparse.ArgumentParser) -> None:
    add_out(parser)
    parser.add_argument("--worst", metavar="N", type=int, default=3, help="explain and draw the N worst reports (3)")
    parser.add_argument(
        "--workers", metavar="W", type=int, help="audit with W workers, 1 to 64 (one for each processor)"
    )
    parser.add_argument(
        "--esr", metavar="PATH", help="the program esr (the variable ESR, or the one of this repository)"
    )


def add_record_commands(command: Command) -> None:
    """Adds the commands that only need a record."""
    converting = command("convert", "convert a record to a script of esr", _convert)
    converting.add_argument("record", metavar="RECORD", help="a record, JSON lines")
    add_out(converting)
    auditing = command("audit", "convert a record, and audit it", _audit)
    auditing.add_argument("record", metavar="RECORD", help="a record, JSON lines")
    add_audit_options(auditing)


def parser() -> argparse.ArgumentParser:
    top, command = commands("esr-history", DESCRIPTION, EXAMPLES)
    add_record_commands(command)
    importing = command("import", "convert a history of Jepsen's registers to a record", _import)
    importing.add_argument("history", metavar="HISTORY", help="operations of rw-register, EDN or JSON lines")
    importing.add_argument("record", metavar="RECORD", help="the path of the record, JSON lines")
    importing.add_argument(
        "--realtime",
        action="store_true",
        help="order two writes of a register by time if one ended before the other began (true only if each register"
        " is linearizable)",
    )
    return top


# ---- commands


def loaded(path: str) -> Record:
    try:
        with open(path, encoding="utf-8") as file:
            return load(file)
    except (RecordError, UnicodeDecodeError) as error:
        raise Stop(FAILED, f"{path}: {error}") from None


def program_of(words: argparse.Namespace) -> Program:
    """Finds the program esr."""
    return Program(found(words.esr))


def show(record: Record, program: Program, words: argparse.Namespace) -> None:
    """Audits a record and prints the result."""
    result = audited(record, words.out, program, words.worst, words.workers)
    print(result.text(), end="", flush=True)
    if not result.reports:
        raise Stop(NOTHING_AUDITED, _why_nothing(result))


def _why_nothing(result: Result) -> str:
    record = result.record
    if not record.transactions:
        return "nothing was audited: no transaction was recorded"
    if not result.history.reports:
        return "nothing was audited: no report that committed was recorded"
    return "nothing was audited: every report was left out"


def _convert(words: argparse.Namespace) -> None:
    conversion = convert(history_of(loaded(words.record)))
    for path in write_scripts(conversion, pathlib.Path(words.out)):
        print(path)


def _audit(words: argparse.Namespace) -> None:
    show(loaded(words.record), program_of(words), words)


def _import(words: argparse.Namespace) -> None:
    try:
        with open(words.history, encoding="utf-8") as file:
            record = load_registers(file, words.realtime)
    except (RecordError, UnicodeDecodeError) as error:
        raise Stop(FAILED, f"{words.history}: {error}") from None
    save(record, words.record)
    print(f"{words.record}: {len(record.transactions):,} transactions, {len(record.items):,} items")


# ---- the program


def _not_serializable(error: NotSerializable) -> str:
    groups = "a group" if len(error.cycles) == 1 else f"{len(error.cycles):,} groups"
    lines = [
        line(
            "order",
            f"the updates are not serializable: {error.count:,} of them are in {groups} where each comes before",
        ),
        line("", "each other, so no report is audited: without a serial order there is no place for one"),
    ]
    for cycle in error.cycles[:MAX_CYCLES_SHOWN]:
        lines.append(line("cycle", f"{cycle.kind}: {cycle.steps[0]}"))
        lines += [line("", str(step)) for step in cycle.steps[1:]]
    if len(error.cycles) > MAX_CYCLES_SHOWN:
        lines.append(line("", f"and a cycle of each of {len(error.cycles) - MAX_CYCLES_SHOWN:,} more groups"))
    return "\n".join(lines)


def cannot_be_audited(error: Exception) -> Optional[str]:
    """Returns the text for a record that cannot be audited, or None if the error is another one."""
    if isinstance(error, NotSerializable):
        return _not_serializable(error)
    if isinstance(error, IncompleteRecord):
        return "the record is incomplete:\n" + "\n".join(f"  {line}" for line in str(error).splitlines())
    return str(error) if isinstance(error, (TooLarge, Undetermined)) else None


def execute(top: argparse.ArgumentParser, arguments: Optional[Sequence[str]] = None) -> None:
    """Executes the command of some arguments.

    # Errors
    Stop if it does not end with status 0."""
    words = top.parse_args(arguments)
    try:
        words.job(words)
    except (NotSerializable, IncompleteRecord, TooLarge, Undetermined) as error:
        raise Stop(CANNOT_BE_AUDITED, cannot_be_audited(error) or "") from None
    except OSError as error:
        raise Stop(FAILED, f"{error.filename}: {error.strerror}" if error.filename else str(error)) from None
    except (ProgramError, ImportError) as error:
        raise Stop(FAILED, str(error)) from None


def status_of(top: argparse.ArgumentParser, arguments: Optional[Sequence[str]] = None) -> int:
    """Executes the command of some arguments, prints how it ended, and returns its status."""
    try:
        execute(top, arguments)
    except Stop as stop:
        is_result = stop.status == CANNOT_BE_AUDITED
        print(stop if is_result else f"{top.prog}: {stop}", file=sys.stdout if is_result else sys.stderr)
        return stop.status
    except KeyboardInterrupt:
        return 130
    return 0


def main() -> int:
    return status_of(parser())
