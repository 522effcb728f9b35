"""The order of versions and of updates, as far as a record determines it.

The idea: the versions of an item are in the order in which their writers committed, since a writer keeps its lock on the
row to its end. The dependencies of the committed updates follow: the writer of a version comes before its readers and
before the writer of the next version, and a reader of a version comes before the writer of the next one. An order of the
updates that keeps all dependencies is a serial order. Of all serial orders the one nearest to the commit order is taken:
always the update that committed first of those whose predecessors have all been taken.

The invariant: `History.serial` contains each committed update once, after all updates that it depends on. So from the
writer of a version to the writer of the next one, an item has exactly that version.

Rejected: the commit order itself. At serializable, PostgreSQL lets an update that read an old version commit after the
update that replaced it; the commit order is then not a serial order, and another one is. Rejected too: reports as nodes. A
report may be anywhere, which is the question of the audit, and a report at read committed would form a cycle with the
updates that it saw half of.
"""

from __future__ import annotations

import heapq
from dataclasses import dataclass
from typing import Optional

from .cycles import Edges, NotSerializable, Reason, cycle_of, groups
from .record import Outcome, Record, Transaction
from .versions import Chain, IncompleteRecord, Read, Resolver


@dataclass
class History:
    """The history of a record: the committed updates in commit order, and a serial order of them, by their places there;
    the committed reports; the versions; and the reads of other transactions' versions by each."""

    record: Record
    updates: list[Transaction]
    reports: list[Transaction]
    chains: dict[str, Chain]
    update_reads: list[list[Read]]
    report_reads: list[list[Read]]
    serial: list[int]

    @property
    def keeps_commit_order(self) -> bool:
        return self.serial == list(range(len(self.updates)))


def dependencies(chains: dict[str, Chain], reads: list[list[Read]]) -> Edges:
    """Returns for each update the updates that come after it, with the first reason found."""
    edges: Edges = [{} for _ in reads]

    def edge(before: Optional[int], after: Optional[int], reason: Reason, item: str) -> None:
        if before is not None and after is not None and before != after:
            edges[before].setdefault(after, (reason, item))

    for item, chain in chains.items():
        for before, after in zip(chain.writers, chain.writers[1:]):
            edge(before, after, Reason.WRITE_WRITE, item)
    for update, found in enumerate(reads):
        for item, number in found:
            edge(chains[item].writer(number), update, Reason.WRITE_READ, item)
            edge(update, chains[item].replacer(number), Reason.READ_WRITE, item)
    return edges


def serial_order(edges: Edges) -> list[int]:
    """Returns the updates, each after its predecessors: always the smallest number whose predecessors have all been taken.
    Updates of a cycle, and those after one, are left out."""
    held = [0] * len(edges)
    for following in edges:
        for update in following:
            held[update] += 1
    free = [update for update, count in enumerate(held) if not count]  # (ascending, so it is a heap)
    order = []
    while free:
        order.append(heapq.heappop(free))
        for update in edges[order[-1]]:
            held[update] -= 1
            if not held[update]:
                heapq.heappush(free, update)
    return order


def history_of(record: Record) -> History:
    """Returns the history of a record.

    # Errors
    IncompleteRecord if it lacks a writer, NotSerializable if the updates have no serial order."""
    committed = [each for each in record.transactions if each.is_committed and each.operations]
    updates = sorted((each for each in committed if each.writes), key=lambda update: update.ended)
    reports = [each for each in committed if not each.writes]
    resolver = Resolver(record, updates)
    update_reads = [resolver.reads(update, place) for place, update in enumerate(updates)]
    report_reads = [resolver.reads(report) for report in reports]
    resolver.check_endings(record)
    if resolver.faults:
        raise IncompleteRecord(resolver.faults)
    edges = dependencies(resolver.chains, update_reads)
    serial = serial_order(edges)
    if len(serial) < len(updates):
        held = sorted(set(range(len(updates))).difference(serial))
        found = list(groups(edges, held))
        cycles = [cycle_of(edges, group, updates) for group in found]
        raise NotSerializable(sorted(cycles, key=lambda cycle: len(cycle.steps)), sum(len(group) for group in found))
    return History(record, updates, reports, resolver.chains, update_reads, report_reads, serial)


def gaps(history: History) -> list[str]:
    """Returns why the record does not have every operation: a sentence for each reason. If there is one, an update may
    be missing, and a report that shows no error is not known to be exact."""
    found = [note.text for note in history.record.notes if note.is_gap]
    for outcome, text in ((Outcome.UNKNOWN, "updates that ended unknown"), (Outcome.LEFT_OUT, "updates left out")):
        names = [each.name for each in history.record.transactions if each.outcome is outcome and each.may_write]
        if names:
            found.append(f"{text}: {', '.join(names)}")
    if unrecorded_endings(history):
        found.append("values at the end without a recorded writer")
    return found


def unrecorded_endings(history: History) -> list[str]:
    """Returns the items whose version at the end has no recorded writer. No recorded transaction has read it."""
    found = []
    for ending in history.record.endings:
        chain = history.chains[ending.item]
        is_known = ending.version in chain.numbers if ending.version is not None else chain.values[-1] is None
        if not is_known:
            found.append(ending.item)
    return found
