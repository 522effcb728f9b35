"""A record: the reads and writes of each transaction and the time of its end, as JSON lines.

The idea: an audit needs three facts about a database: the version that each read saw, the version that each write left,
and the order in which the writers committed. A record has these and nothing else, so any system whose versions can be
distinguished can write one. `adapters/README.md` defines the format, and `record.schema.json` describes each line.

The invariant: `load` returns a well-formed record (each line has its keys, each value is an integer within the range of
the program, each name is used once, each operation is of a declared item). `order` decides whether the record is also
*complete*.

Rejected: statements instead of versions, because they would have to be run again to find out what they read; and one
list of the events of all transactions, because a lock around the database would be needed to record it.
"""

from __future__ import annotations

import json
import os
from dataclasses import dataclass, field
from enum import Enum
from typing import IO, Any, Iterable, Iterator, NamedTuple, Optional

MAX_VALUE = 10**12
MAX_WEIGHT = 1_000
FORMAT = 2
KNOWN_FORMATS = (1, 2)


class RecordError(Exception):
    """A record that is not well formed. The message says the line and what is wrong with it."""


class Outcome(Enum):
    """How a transaction ended."""

    COMMITTED = "committed"
    ABORTED = "aborted"
    UNKNOWN = "unknown"
    LEFT_OUT = "left out"  # it committed, but an operation of it cannot be recorded: `reason` names it


class Action(Enum):
    """What an operation does."""

    READ = "read"
    WRITE = "write"


class Operation(NamedTuple):
    """A read of a version, or a write that left one. A `value` of None says that the row was not there."""

    action: Action
    item: str
    value: Optional[int]
    version: Optional[str]


@dataclass(frozen=True)
class Item:
    """An item with its opening version. A difference of 1 counts `weight`. `scale` is the number of decimal digits of a
    value, used only for display."""

    name: str
    value: Optional[int]
    version: Optional[str]
    weight: int = 1
    scale: int = 0


@dataclass(frozen=True)
class Transaction:
    """A transaction that has ended. `began` and `ended` are times of one clock in any unit; for an update that
    committed, `ended` is its position in the commit order. `labels` are version labels that belong to this transaction
    on every item, such as its number in the database: a version that has one of them was written by it."""

    name: str
    outcome: Outcome
    began: int
    ended: int
    operations: tuple[Operation, ...]
    level: str = ""
    labels: tuple[str, ...] = ()
    reason: str = ""

    @property
    def is_committed(self) -> bool:
        return self.outcome is Outcome.COMMITTED

    @property
    def writes(self) -> bool:
        """Whether it is an update: one that wrote an item. The others are reports."""
        return any(operation.action is Action.WRITE for operation in self.operations)

    @property
    def may_write(self) -> bool:
        """Whether it wrote an item, or has a label under which it may have."""
        return self.writes or bool(self.labels)


class Ending(NamedTuple):
    """The version that an item had when the recording ended."""

    item: str
    value: Optional[int]
    version: Optional[str]


class Note(NamedTuple):
    """A sentence about the recording, which the result repeats. With `is_gap` it names a gap: operations are missing,
    and a report that shows no error is not called exact."""

    text: str
    is_gap: bool = False


@dataclass
class Record:
    """A whole recording. Of two updates that ended at the same time, the one that appears first committed first. Without
    `has_update_reads` only the writes of updates are recorded, and whether they are serializable is unknown."""

    system: str
    items: dict[str, Item] = field(default_factory=dict)
    transactions: list[Transaction] = field(default_factory=list)
    endings: list[Ending] = field(default_factory=list)
    notes: list[Note] = field(default_factory=list)
    has_update_reads: bool = True


# ---- writing


def json_line(content: dict[str, Any]) -> str:
    """Returns an object as one line with its line feed."""
    return json.dumps(content, ensure_ascii=False, separators=(",", ":")) + "\n"


def head_line(record: Record) -> str:
    content: dict[str, Any] = {"record": "esr", "format": FORMAT, "system": record.system}
    if not record.has_update_reads:
        content["update_reads"] = False
    return json_line(content)


def item_line(item: Item) -> str:
    content: dict[str, Any] = {"item": item.name, "value": item.value, "version": item.version}
    if item.weight != 1:
        content["weight"] = item.weight
    if item.scale:
        content["scale"] = item.scale
    return json_line(content)


def transaction_line(transaction: Transaction) -> str:
    content: dict[str, Any] = {"transaction": transaction.name, "outcome": transaction.outcome.value}
    if transaction.reason:
        content["reason"] = transaction.reason
    if transaction.level:
        content["level"] = transaction.level
    content["began"], content["ended"] = transaction.began, transaction.ended
    if transaction.labels:
        content["labels"] = list(transaction.labels)
    content["operations"] = [
        [action.value, item, value, version] for action, item, value, version in transaction.operations
    ]
    return json_line(content)


def note_line(note: Note) -> str:
    return json_line({"note": note.text, "gap": True} if note.is_gap else {"note": note.text})


def lines(record: Record) -> Iterator[str]:
    """Yields the lines of a record, each with its line feed."""
    yield head_line(record)
    yield from map(item_line, record.items.values())
    yield from map(transaction_line, record.transactions)
    for ending in record.endings:
        yield json_line({"end": ending.item, "value": ending.value, "version": ending.version})
    yield from map(note_line, record.notes)


def save(record: Record, path: str) -> None:
    """Writes a record to a file, which has its old content until the new one is complete."""
    with open(f"{path}.new", "w", encoding="utf-8") as file:
        file.writelines(lines(record))
    os.replace(f"{path}.new", path)


# ---- reading


class _Line:
    """The object of one line, and checks of its keys."""

    def __init__(self, number: int, content: dict[str, Any]) -> None:
        self.number, self.content = number, content

    def error(self, text: str) -> RecordError:
        return RecordError(f"line {self.number}: {text}")

    def only(self, *keys: str) -> None:
        for key in self.content:
            if key not in keys:
                raise self.error(f"the key {key!r} is not one of {', '.join(keys)}")

    def text(self, key: str, default: Optional[str] = None) -> str:
        value = self.content.get(key, default)
        if not isinstance(value, str):
            raise self.error(f"{key!r} has to be a text")
        return value

    def number_of(self, key: str, default: Optional[int] = None) -> int:
        value = self.content.get(key, default)
        if not isinstance(value, int) or isinstance(value, bool):
            raise self.error(f"{key!r} has to be a whole number")
        return value

    def version(self, item: str, value: Any, version: Any) -> tuple[Optional[int], Optional[str]]:
        """Checks a value and the label of its version: both are null if the row does not exist."""
        if value is None:
            if version is not None and not isinstance(version, str):
                raise self.error(f"the version of {item} has to be a text or null")
            return None, version
        if not isinstance(value, int) or isinstance(value, bool):
            raise self.error(f"the value of {item} is {value!r}, and has to be a whole number (scale it) or null")
        if abs(value) > MAX_VALUE:
            raise self.error(
                f"the value of {item} is {value}, and has to be within {MAX_VALUE} (use a smaller scale)"
            )
        if not isinstance(version, str):
            raise self.error(f"the version of {item} has to be a text")
        return value, version


def _item(line: _Line) -> Item:
    line.only("item", "value", "version", "weight", "scale")
    name = line.text("item")
    value, version = line.version(name, line.content.get("value"), line.content.get("version"))
    weight, scale = line.number_of("weight", 1), line.number_of("scale", 0)
    if not 1 <= weight <= MAX_WEIGHT:
        raise line.error(f"the weight of {name} has to be from 1 to {MAX_WEIGHT}")
    return Item(name, value, version, weight, scale)


def _operation(line: _Line, record: Record, content: Any) -> Operation:
    if not isinstance(content, list) or len(content) != 4:
        raise line.error('an operation is a list ["read" or "write", item, value, version]')
    word, item, value, version = content
    if word not in ("read", "write"):
        raise line.error(f"an operation is 'read' or 'write', not {word!r}")
    if not isinstance(item, str) or item not in record.items:
        raise line.error(f"the item {item!r} has no line of its own before this one")
    value, version = line.version(item, value, version)
    if word == "write" and version is None:
        raise line.error(f"the write of {item} has no version")
    return Operation(Action(word), item, value, version)


def _transaction(line: _Line, record: Record) -> Transaction:
    line.only("transaction", "outcome", "reason", "level", "began", "ended", "labels", "operations")
    outcome = line.text("outcome")
    if outcome not in [each.value for each in Outcome]:
        raise line.error(f"the outcome is {outcome!r}, and has to be committed, aborted, unknown or left out")
    labels = line.content.get("labels", [])
    if not isinstance(labels, list) or not all(isinstance(label, str) for label in labels):
        raise line.error("'labels' has to be a list of texts")
    operations = line.content.get("operations")
    if not isinstance(operations, list):
        raise line.error("'operations' has to be a list")
    began, ended = line.number_of("began"), line.number_of("ended")
    if began > ended:
        raise line.error("'began' is after 'ended'")
    return Transaction(
        line.text("transaction"),
        Outcome(outcome),
        began,
        ended,
        tuple(_operation(line, record, content) for content in operations),
        line.text("level", ""),
        tuple(labels),
        line.text("reason", ""),
    )


def _add(line: _Line, record: Record, names: dict[str, int]) -> None:
    """Adds a line after the first to a record."""
    if "item" in line.content:
        item = _item(line)
        if item.name in record.items:
            raise line.error(f"the item {item.name} is declared twice")
        record.items[item.name] = item
    elif "transaction" in line.content:
        transaction = _transaction(line, record)
        first = names.setdefault(transaction.name, line.number)
        if first != line.number:
            raise line.error(f"the transaction {transaction.name} is on line {first} already")
        record.transactions.append(transaction)
    elif "end" in line.content:
        line.only("end", "value", "version")
        name = line.text("end")
        if name not in record.items:
            raise line.error(f"the item {name!r} has no line of its own before this one")
        record.endings.append(
            Ending(name, *line.version(name, line.content.get("value"), line.content.get("version")))
        )
    elif "note" in line.content:
        line.only("note", "gap")
        is_gap = line.content.get("gap", False)
        if not isinstance(is_gap, bool):
            raise line.error("'gap' has to be true or false")
        record.notes.append(Note(line.text("note"), is_gap))
    else:
        raise line.error("a line has one of the keys item, transaction, end and note")


def _objects(texts: Iterable[str]) -> Iterator[_Line]:
    for number, text in enumerate(texts, 1):
        if not text.strip():
            continue
        try:
            content = json.loads(text)
        except ValueError as error:
            raise RecordError(f"line {number}: not JSON: {error}") from None
        if not isinstance(content, dict):
            raise RecordError(f"line {number}: not an object")
        yield _Line(number, content)


def load(file: IO[str]) -> Record:
    """Reads a record.

    # Errors
    RecordError if it is not well formed."""
    objects = _objects(file)
    head = next(objects, None)
    if head is None or head.content.get("record") != "esr":
        raise RecordError('line 1: a record begins with {"record": "esr", "format": 2, "system": ...}')
    if head.number_of("format") not in KNOWN_FORMATS:
        known = " and ".join(map(str, KNOWN_FORMATS))
        raise head.error(f"the format is {head.content['format']}, and this program reads {known}")
    head.only("record", "format", "system", "update_reads")
    record = Record(head.text("system", ""), has_update_reads=head.content.get("update_reads", True))
    if not isinstance(record.has_update_reads, bool):
        raise head.error("'update_reads' has to be true or false")
    names: dict[str, int] = {}
    for line in objects:
        _add(line, record, names)
    return record
