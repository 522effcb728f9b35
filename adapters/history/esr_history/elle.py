"""Imports histories of registers as Jepsen records them and Elle checks them (`rw-register`).

An operation of such a history is `{:type :ok, :f :txn, :process 3, :time 17, :value [[:r 1 nil] [:w 2 5]]}`: a transaction
with its reads and writes of registers, in which each value is written to a register at most once. So a value identifies a
version, but nothing states the order of the versions, and an audit needs it.

The idea: the order is inferred, never guessed. The absence of a value (nil) is before every write; a transaction that
reads a value of a register and then writes the register comes after the writer of that value; with `realtime` a write
that ended before another began comes first, which is true only if each register is linearizable. If these leave two
writes of one register unordered, the import fails and names them.

The invariant: the writes of each register are in the only order that these rules allow, and the updates of the record are
in one order that agrees with all registers.

Rejected: the order of the completions. A write may complete late though its value was replaced long before.
"""

from __future__ import annotations

import heapq
import json
from dataclasses import dataclass, field
from typing import IO, Any, Iterator, Optional

from . import edn
from .record import MAX_VALUE, Action, Item, Operation, Outcome, Record, RecordError, Transaction

OUTCOMES = {"ok": Outcome.COMMITTED, "fail": Outcome.ABORTED, "info": Outcome.UNKNOWN}


class Undetermined(Exception):
    """A history whose writes have no order, or more than one. The message names two of them."""


@dataclass
class _Txn:
    """A transaction of a history. `ended` is None if its completion is unknown."""

    name: str
    outcome: Outcome
    began: int
    ended: Optional[int]
    operations: list[tuple[str, str, Optional[int]]]
    sees: dict[str, Optional[int]] = field(default_factory=dict)

    def __post_init__(self) -> None:
        """Notes for each register that it writes the value that it read there first."""
        read: dict[str, Optional[int]] = {}
        for word, register, value in self.operations:
            if word == "r" and self.outcome is Outcome.COMMITTED:
                read.setdefault(register, value)
            elif word == "w" and register in read:
                self.sees.setdefault(register, read[register])

    def writes(self) -> Iterator[tuple[str, int]]:
        for word, register, value in self.operations:
            if word == "w" and value is not None:
                yield register, value


# ---- reading


def _objects(file: IO[str]) -> Iterator[dict[str, Any]]:
    text = file.read()
    try:
        if text.lstrip().startswith(("{:", "[", "#", "(", ";")):
            found = list(edn.values(text))
            found = found[0] if len(found) == 1 and isinstance(found[0], list) else found
        else:
            found = [json.loads(line) for line in text.splitlines() if line.strip()]
    except ValueError as error:
        raise RecordError(f"neither EDN nor JSON lines: {error}") from None
    for each in found:
        if not isinstance(each, dict):
            raise RecordError(f"an operation is a map, not {each!r}")
        yield each


def _operations(content: Any) -> list[tuple[str, str, Optional[int]]]:
    found = []
    for each in content if isinstance(content, list) else [None]:
        if not isinstance(each, list) or len(each) != 3 or each[0] not in ("r", "w"):
            raise RecordError(f"a transaction of rw-register is a list of [:r KEY VALUE] and [:w KEY VALUE], not {each!r}")
        word, register, value = each
        is_number = isinstance(value, int) and not isinstance(value, bool) and abs(value) <= MAX_VALUE
        if not is_number and (value is not None or word == "w"):
            raise RecordError(f"the value {value!r} of register {register} is not an integer within {MAX_VALUE}")
        found.append((word, str(register), value))
    return found


def _txns(file: IO[str]) -> list[_Txn]:
    """Reads the transactions of a history, in the order of their completions."""
    begun: dict[Any, tuple[int, Any]] = {}
    found: list[_Txn] = []
    for number, each in enumerate(_objects(file)):
        process, word, time = each.get("process"), each.get("type"), each.get("time", number)
        if each.get("f") not in ("txn", None) or not isinstance(process, int):
            continue  # (an operation of the nemesis)
        if word == "invoke":
            begun[process] = (time, each.get("value"))
        elif word in OUTCOMES:
            began, asked = begun.pop(process, (time, each.get("value")))
            content = each.get("value") if word == "ok" else asked
            outcome, ended = OUTCOMES[word], None if word == "info" else time
            found.append(_Txn(f"t{len(found) + 1}", outcome, began, ended, _operations(content)))
        else:
            raise RecordError(f"the type {word!r} is not invoke, ok, fail or info")
    for began, asked in begun.values():
        found.append(_Txn(f"t{len(found) + 1}", Outcome.UNKNOWN, began, None, _operations(asked)))
    return found


def _resolve_unknown(txns: list[_Txn]) -> dict[tuple[str, int], _Txn]:
    """Marks transactions of unknown outcome as committed if a committed one read a write of them. Returns the writer of
    each value."""
    writers: dict[tuple[str, int], _Txn] = {}
    for txn in txns:
        for key in txn.writes():
            other = writers.setdefault(key, txn)
            if other is not txn:
                raise RecordError(f"{other.name} and {txn.name} both write {key[1]} to register {key[0]}")
    for txn in txns:
        if txn.outcome is Outcome.COMMITTED:
            for word, register, value in txn.operations:
                writer = writers.get((register, value)) if word == "r" and value is not None else None
                if writer is not None and writer.outcome is Outcome.UNKNOWN:
                    writer.outcome = Outcome.COMMITTED
                    writer.operations = [each for each in writer.operations if each[0] == "w"]
    return writers


# ---- the order of writes


def _is_before(one: _Txn, other: _Txn, register: str, writers: dict[tuple[str, int], _Txn], realtime: bool) -> bool:
    """Whether a rule places a write of a register before another one."""
    seen = other.sees.get(register)
    if seen is not None and writers.get((register, seen)) is one:
        return True
    return realtime and one.ended is not None and one.ended < other.began


def _chain(register: str, txns: list[_Txn], writers: dict[tuple[str, int], _Txn], realtime: bool) -> list[_Txn]:
    """Returns the writers of a register in their only order."""
    rest, chain = list(txns), []
    while rest:
        first = []
        for one in rest:
            others = (other for other in rest if other is not one)
            if not any(_is_before(other, one, register, writers, realtime) for other in others):
                first.append(one)
        if len(first) != 1:
            one, other = (first or rest)[:2]
            why = "nothing orders them" if first else "each comes before the other"
            raise Undetermined(
                f"the order of the writes of register {register} is not determined: {one.name} and {other.name} wrote it,"
                f" and {why}; an audit needs the order of all writes"
            )
        chain.append(first[0])
        rest.remove(first[0])
    return chain


def _ordered(updates: list[_Txn], chains: list[list[_Txn]]) -> list[_Txn]:
    """Returns the updates in one order that agrees with the order of each register, the earliest completion first."""
    following: dict[str, list[_Txn]] = {each.name: [] for each in updates}
    held = {each.name: 0 for each in updates}
    for chain in chains:
        for one, other in zip(chain, chain[1:]):
            following[one.name].append(other)
            held[other.name] += 1
    place = {each.name: number for number, each in enumerate(updates)}
    free = [(place[each.name], each.name) for each in updates if not held[each.name]]
    heapq.heapify(free)
    order = []
    while free:
        order.append(updates[heapq.heappop(free)[0]])
        for other in following[order[-1].name]:
            held[other.name] -= 1
            if not held[other.name]:
                heapq.heappush(free, (place[other.name], other.name))
    if len(order) < len(updates):
        names = ", ".join(name for name, count in held.items() if count)
        raise Undetermined(f"the registers disagree about the order of the writes of {names}: there is a cycle of writes")
    return order


# ---- the record


def _transaction(txn: _Txn, ended: int) -> Transaction:
    operations = []
    for word, register, value in txn.operations:
        version = None if value is None else str(value)
        operations.append(Operation(Action.READ if word == "r" else Action.WRITE, register, value, version))
    return Transaction(txn.name, txn.outcome, txn.began, max(ended, txn.began), tuple(operations))


def load_registers(file: IO[str], realtime: bool = False) -> Record:
    """Reads a history of rw-register.

    # Errors
    RecordError if it is not one, Undetermined if the rules leave the order of two writes of a register open."""
    txns = _txns(file)
    writers = _resolve_unknown(txns)
    updates = [txn for txn in txns if txn.outcome is Outcome.COMMITTED and any(txn.writes())]
    of_register: dict[str, list[_Txn]] = {}
    for txn in updates:
        for register in dict.fromkeys(register for register, _ in txn.writes()):
            of_register.setdefault(register, []).append(txn)
    chains = [_chain(register, those, writers, realtime) for register, those in of_register.items()]
    record = Record("registers" + (", ordered in real time" if realtime else ""))
    for register in dict.fromkeys(register for txn in txns for _, register, _ in txn.operations):
        record.items[register] = Item(register, None, None)
    time = 0
    for txn in _ordered(updates, chains):
        time = max(time, txn.began if txn.ended is None else txn.ended)
        record.transactions.append(_transaction(txn, time))
    are_updates = {txn.name for txn in updates}
    others = [txn for txn in txns if txn.name not in are_updates]
    record.transactions += [_transaction(txn, txn.began if txn.ended is None else txn.ended) for txn in others]
    return record
