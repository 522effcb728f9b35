"""Records written by hand, and scripts run by the plain program of the repository's checks."""

import pathlib
import sys

from esr_history.record import Action, Ending, Item, Operation, Outcome, Record, Transaction

CHECKS = pathlib.Path(__file__).resolve().parents[3] / "checks"
sys.path.insert(0, str(CHECKS))

import reference  # noqa: E402


def read(item, value, version):
    return Operation(Action.READ, item, value, version)


def write(item, value, version):
    return Operation(Action.WRITE, item, value, version)


def transaction(name, began, ended, *operations, outcome=Outcome.COMMITTED, level="", labels=(), reason=""):
    return Transaction(name, outcome, began, ended, operations, level, labels, reason)


def record(items, *transactions, endings=()):
    """A record of items with opening values, whose version is `opening`. A value of None is a row that is not
    there."""
    return Record(
        "a test",
        {name: Item(name, value, None if value is None else "opening") for name, value in items.items()},
        list(transactions),
        [Ending(*each) for each in endings],
    )


def answers(script):
    """The answers of the plain program to a script."""
    output, fault, _ = reference.run(script.text().encode())
    assert fault is None
    return output


def distances(script):
    """The distances that the plain program finds of the reports of a script, by their names in the record."""
    lines, fault = reference.audit(script.text().encode())
    assert fault is None
    words = [line.split(" ") for line in lines if line.startswith("audit ")]
    return {script.transactions.labels[name]: int(distance) for _, name, _, distance, *_ in words}
