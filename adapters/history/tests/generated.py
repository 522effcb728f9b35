"""Records of a bank that was not run: of any size, from a fixed seed.

usage: generated.py UPDATES REPORTS [ACCOUNTS] [SPAN] > RECORD    (a report reads all accounts while SPAN updates
commit)
"""

import pathlib
import random
import sys

if __name__ == "__main__":
    sys.path.insert(0, str(pathlib.Path(__file__).resolve().parents[1]))

from esr_history.record import Action, Ending, Item, Operation, Outcome, Record, Transaction, lines


def bank(updates, reports, accounts=60, span=300, seed=1):
    """Transfers one after another, and reports that read all accounts, one by one, while `span` transfers commit: a
    span of 0 is a snapshot. Times are counts of transfers."""
    chosen = random.Random(seed)
    names = [f"account/{number}" for number in range(accounts)]
    now = {name: (1000, "opening") for name in names}
    reads = {}
    spans = {}
    for report in range(reports):
        begun = chosen.randrange(max(updates - span, 0) + 1)
        spans[report] = begun, begun + span
        for place, name in enumerate(names):
            reads.setdefault(begun + place * span // accounts, []).append((report, name))
    record = Record("a bank that was not run", {name: Item(name, 1000, "opening") for name in names})
    seen = {report: [] for report in range(reports)}
    for time in range(updates + 1):
        for report, name in reads.get(time, []):
            seen[report].append(Operation(Action.READ, name, *now[name]))
        if time == updates:
            break
        pair, amount = chosen.sample(names, 2), chosen.randrange(1, 100)
        operations = [Operation(Action.READ, name, *now[name]) for name in pair]
        for name, change in zip(pair, (-amount, amount)):
            now[name] = (now[name][0] + change, str(time))
            operations.append(Operation(Action.WRITE, name, *now[name]))
        record.transactions.append(
            Transaction(f"teller_{time}", Outcome.COMMITTED, time, time + 1, tuple(operations), "made")
        )
    for report, operations in seen.items():
        record.transactions.append(
            Transaction(f"report_{report}", Outcome.COMMITTED, *spans[report], tuple(operations), "made")
        )
    record.endings = [Ending(name, *now[name]) for name in names]
    return record


if __name__ == "__main__":
    sys.stdout.writelines(lines(bank(*map(int, sys.argv[1:]))))
