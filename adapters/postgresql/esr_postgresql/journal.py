"""The journal of a recording: a file to which a recorder appends each transaction as it ends.

The idea: a transaction is appended just before its commit, with its number, and its outcome just after. If the recorder is
killed, `load` reads the journal up to there, and the server reports how the transactions ended (`esr-postgres finish`).

The invariant: `load` of a journal returns the `Recording` that its recorder had, except for lines that were not written.
A last line that is not whole is ignored.

Rejected: appending to the record itself. Its lines need the time of the commit, which costs a round trip for each
transaction.
"""

from __future__ import annotations

import json
import threading
from dataclasses import dataclass, field
from typing import IO, Any, Optional, Union

from esr_history.record import Action, Operation, Outcome, json_line

from .connections import Ended, Rest, Row
from .tables import RecordingError, Rows, Table

FORMAT = 1
NOT_A_JOURNAL = "not a recording of esr-postgres"


@dataclass
class Recording:
    """All that a recorder noted. `lives` has the start times of the server and its checkpointer for each life."""

    system: str
    tables: list[Table]
    opening: Rows
    ended: list[Ended] = field(default_factory=list)
    lives: list[tuple[str, Optional[str]]] = field(default_factory=list)
    unversioned: int = 0


class Journal:
    """Appends to a journal. Lines are complete when a method returns, also for a reader after SIGKILL."""

    def __init__(self, path: str, recording: Recording) -> None:
        self._lock = threading.Lock()
        self._file = open(path, "w", encoding="utf-8")
        tables = [[each.name, list(each.key), each.value, each.scale, each.weight] for each in recording.tables]
        self._numbers = {id(table): number for number, table in enumerate(recording.tables)}
        head = {"recording": "esr-postgres", "format": FORMAT, "system": recording.system, "tables": tables}
        opening = (
            json_line({"item": item, "table": self._numbers[id(table)], "value": value, "version": version})
            for item, (table, value, version) in recording.opening.items()
        )
        self._file.writelines([json_line(head), *opening])
        self._file.flush()

    def _append(self, content: dict[str, Any]) -> None:
        with self._lock:
            self._file.write(json_line(content))
            self._file.flush()

    def life(self, server: tuple[str, Optional[str]]) -> None:
        self._append({"life": list(server)})

    def unversioned(self) -> None:
        self._append({"unversioned": 1})

    def transaction(self, each: Ended) -> None:
        noted = [self._noted(one) for one in each.noted]
        content: dict[str, Any] = {"transaction": each.name, "xid": each.xid, "level": each.level, "began": each.began}
        content.update(ended=each.ended, life=each.life, lasts=each.lasts, faults=list(each.faults), noted=noted)
        self._append(content)

    def _noted(self, noted: Union[Row, Rest]) -> list[Any]:
        number = self._numbers[id(noted.table)]
        if isinstance(noted, Rest):
            return ["rest", number, sorted(noted.present), None if noted.keys is None else sorted(noted.keys)]
        action, item, value, version = noted.operation
        return [action.value, number, item, value, version]

    def outcome(self, each: Ended) -> None:
        self._append({"outcome": each.outcome.value, "of": each.name})

    def close(self) -> None:
        self._file.close()


def _noted(content: list[Any], tables: list[Table]) -> Union[Row, Rest]:
    word, number, *rest = content
    if word == "rest":
        present, keys = rest
        return Rest(tables[number], frozenset(present), None if keys is None else frozenset(keys))
    item, value, version = rest
    return Row(tables[number], Operation(Action(word), item, value, version))


def _take(content: dict[str, Any], recording: Recording, ended: dict[str, Ended]) -> None:
    """Adds a line after the first to a recording."""
    tables = recording.tables
    if "item" in content:
        recording.opening[content["item"]] = (tables[content["table"]], content["value"], content["version"])
    elif "life" in content and "transaction" not in content:
        started, checkpointer = content["life"]
        recording.lives.append((started, checkpointer))
    elif "unversioned" in content:
        recording.unversioned += 1
    elif "outcome" in content:
        if content["of"] in ended:
            each = ended[content["of"]]
            ended[each.name] = each._replace(outcome=Outcome(content["outcome"]))
    else:
        noted = tuple(_noted(one, tables) for one in content["noted"])
        keys = ("xid", "level", "began", "ended", "life", "lasts")
        values = {key: content[key] for key in keys}
        each = Ended(content["transaction"], noted, faults=tuple(content["faults"]), **values)
        ended[each.name] = each


def load(file: IO[str]) -> Recording:
    """Reads a journal.

    # Errors
    RecordingError if it is not one."""
    try:
        head = json.loads(file.readline())
        if head["recording"] != "esr-postgres" or head["format"] != FORMAT:
            raise RecordingError(NOT_A_JOURNAL)
        tables = [Table(name, tuple(key), value, scale, weight) for name, key, value, scale, weight in head["tables"]]
        recording = Recording(head["system"], tables, {})
    except (ValueError, KeyError, TypeError):
        raise RecordingError(NOT_A_JOURNAL) from None
    ended: dict[str, Ended] = {}
    for number, line in enumerate(file, 2):
        if not line.endswith("\n"):
            break  # (the recorder was killed while it wrote this line)
        try:
            _take(json.loads(line), recording, ended)
        except (ValueError, KeyError, TypeError, IndexError) as error:
            raise RecordingError(f"line {number} of the recording is damaged: {error!r}") from None
    recording.ended = list(ended.values())
    return recording
