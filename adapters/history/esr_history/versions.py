"""The versions of items, and the version that each read saw.

The idea: the versions of an item are in the order in which their writers committed, since a writer keeps its lock on the
row to its end. A read has the label of the version that it saw.

The invariant: after `Resolver` each read of another transaction's version has the number of that version in the item's
chain, and has its value; or `faults` names the reason. Nothing is guessed: a missing writer is reported.

Rejected: finding versions by their values. Values recur.
"""

from __future__ import annotations

from typing import NamedTuple, Optional

from .record import Action, Operation, Outcome, Record, Transaction

MAX_FAULTS_SHOWN = 10


class IncompleteRecord(Exception):
    """A record that lacks a writer, or contradicts itself. `faults` names each."""

    def __init__(self, faults: list[str]) -> None:
        self.faults = faults
        more = len(faults) - MAX_FAULTS_SHOWN
        shown = faults[:MAX_FAULTS_SHOWN] + ([f"and {more} more"] if more > 0 else [])
        super().__init__("\n".join(shown))


class Chain:
    """The versions of an item: number 0 is the opening one, number k is that of the k-th of `writers`."""

    def __init__(self, value: Optional[int], label: Optional[str]) -> None:
        self.writers: list[int] = []
        self.values = [value]
        self.numbers: dict[str, int] = {} if label is None else {label: 0}

    def write(self, update: int, operation: Operation) -> Optional[int]:
        """Takes a write of an update. Returns the number of an earlier version by another update with the same label."""
        if not self.writers or self.writers[-1] != update:
            self.writers.append(update)
            self.values.append(None)
        self.values[-1] = operation.value
        assert operation.version is not None
        number = self.numbers.setdefault(operation.version, len(self.writers))
        return None if number == len(self.writers) else number

    def absences(self) -> list[int]:
        """Returns the numbers of the versions in which the row does not exist."""
        return [number for number, value in enumerate(self.values) if value is None]

    def writer(self, number: int) -> Optional[int]:
        """Returns the writer of a version, None for the opening one."""
        return self.writers[number - 1] if number else None

    def replacer(self, number: int) -> Optional[int]:
        """Returns the writer of the next version, if there is one."""
        return self.writers[number] if number < len(self.writers) else None


class Read(NamedTuple):
    """A read of another's version: the number of the version in the chain of the item."""

    item: str
    number: int


class Resolver:
    """Finds the versions that reads saw, and gathers what the record lacks."""

    def __init__(self, record: Record, updates: list[Transaction]) -> None:
        self.updates = updates
        self.faults: list[str] = []
        self.chains = {item.name: Chain(item.value, item.version) for item in record.items.values()}
        self.others = {
            (operation.item, operation.version): other
            for other in record.transactions
            if not other.is_committed
            for operation in other.operations
            if operation.action is Action.WRITE
        }
        self.labels = {label: each.name for each in record.transactions for label in each.labels}
        for place, update in enumerate(updates):
            for operation in update.operations:
                if operation.action is Action.WRITE:
                    self.write(place, operation)

    def name(self, item: str, number: int) -> str:
        writer = self.chains[item].writer(number)
        return "the opening version" if writer is None else self.updates[writer].name

    def write(self, place: int, operation: Operation) -> None:
        same = self.chains[operation.item].write(place, operation)
        if same is not None:
            self.faults.append(
                f"version {operation.version} of {operation.item} is by {self.updates[place].name}"
                f" and by {self.name(operation.item, same)}: two versions of an item need two labels"
            )

    def missing(self, reader: str, read: Operation) -> str:
        """Describes a version that has no committed writer in the record."""
        text = f"{read.value} of {read.item} by {read.version}, which {reader} read, has no recorded writer"
        other = self.others.get((read.item, read.version))
        if other is not None:
            if other.outcome is Outcome.ABORTED:
                return f"{text} that committed: {other.name} aborted, and an audit is of reads of what was committed"
            if other.outcome is Outcome.LEFT_OUT:
                return f"{text}: {other.name} was left out, {other.reason}"
            return f"{text} that committed: how {other.name} ended is unknown"
        if read.version in self.labels:
            writer = self.labels[read.version]
            return f"{text}: {writer} has that label, and a write of {read.item} by it was not recorded"
        return text

    def absence(self, reader: str, item: str) -> Optional[int]:
        """Returns the version that a read of an absent row saw."""
        absences = self.chains[item].absences()
        if len(absences) == 1:
            return absences[0]
        if absences:
            times = "was not there more than once (before it was inserted, and since it was deleted)"
            self.faults.append(f"{item} {times}, and a read by {reader} does not say which of these it saw")
        else:
            self.faults.append(f"{reader} did not find {item}, and no recorded transaction deleted it")
        return None

    def version(self, reader: str, read: Operation) -> Optional[int]:
        """Returns the number of the version that a read of another transaction's version saw, or notes a fault."""
        chain = self.chains[read.item]
        if read.value is None and read.version is None:
            return self.absence(reader, read.item)
        number = chain.numbers.get(read.version or "")
        if number is None:
            self.faults.append(self.missing(reader, read))
        elif chain.values[number] != read.value:
            self.faults.append(
                f"{reader} read {read.item} by {read.version} as {read.value}, and {self.name(read.item, number)}"
                f" left {chain.values[number]}: a write of it was not recorded"
            )
        return number

    def reads(self, transaction: Transaction, place: Optional[int] = None) -> list[Read]:
        """Returns the reads of other transactions' versions by a transaction, which is the update of a place or a report.
        Compares its reads of its own versions with its writes."""
        found = []
        own: dict[str, Operation] = {}
        for operation in transaction.operations:
            if operation.action is Action.WRITE:
                own[operation.item] = operation
            elif operation.item in own:
                if own[operation.item].value != operation.value:
                    self.faults.append(
                        f"{transaction.name} wrote {own[operation.item].value} to {operation.item} and then read"
                        f" {operation.value} there: a write of it was not recorded"
                    )
            else:
                number = self.version(transaction.name, operation)
                if number and self.chains[operation.item].writer(number) == place:
                    self.faults.append(
                        f"{transaction.name} read what it wrote to {operation.item}, and a write of it was not recorded"
                    )
                elif number is not None:
                    found.append(Read(operation.item, number))
        return found

    def check_endings(self, record: Record) -> None:
        """Checks that each item ends with the version of its last writer, or with one that has no recorded writer."""
        for ending in record.endings:
            chain = self.chains[ending.item]
            number = chain.numbers.get(ending.version or "")
            writer = self.labels.get(ending.version or "")
            if number is None and writer is not None and (ending.item, ending.version) not in self.others:
                self.faults.append(
                    f"at the end {ending.item} is {ending.value} by {ending.version}, which is {writer}: a write of it"
                    " by this transaction was not recorded"
                )
            if number is not None and number != len(chain.writers):
                self.faults.append(
                    f"at the end {ending.item} is by {self.name(ending.item, number)}, but by the times of the commits"
                    f" {self.name(ending.item, len(chain.writers))} wrote it last: the clock was set back, or a label"
                    " is not of the version"
                )
