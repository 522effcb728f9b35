"""Cycles of updates that have no serial order, with their usual names.

The idea: updates that all come before one another are a strongly connected component of the dependencies. Of each component
a shortest cycle through one of its first updates is shown, since a person can check that.

Rejected: all cycles, of which there may be exponentially many; and the components alone, which do not show the reason.
"""

from __future__ import annotations

from enum import Enum
from typing import Iterable, Iterator, NamedTuple, Optional

from .record import Transaction

CYCLE_STARTS = 50


class Reason(Enum):
    """Why an update comes before another."""

    WRITE_READ = "wrote what the other read"
    WRITE_WRITE = "wrote before the other"
    READ_WRITE = "read what the other replaced"


class Step(NamedTuple):
    """A dependency: `before` comes before `after`, by what both did with an item."""

    before: str
    after: str
    reason: Reason
    item: str

    def __str__(self) -> str:
        if self.reason is Reason.WRITE_READ:
            return f"{self.before} wrote {self.item}, and {self.after} read that"
        if self.reason is Reason.WRITE_WRITE:
            return f"{self.before} wrote {self.item} before {self.after} did"
        return f"{self.before} read {self.item} as it was before {self.after} wrote it"


class Cycle(NamedTuple):
    """Updates each of which comes before the next, and the last before the first."""

    steps: tuple[Step, ...]

    @property
    def kind(self) -> str:
        """The usual name of such a cycle."""
        reasons = {step.reason for step in self.steps}
        is_of_one_item = len({step.item for step in self.steps}) == 1
        if len(self.steps) == 2 and is_of_one_item and reasons == {Reason.READ_WRITE, Reason.WRITE_WRITE}:
            return "lost update"
        if len(self.steps) == 2 and is_of_one_item and reasons == {Reason.READ_WRITE, Reason.WRITE_READ}:
            return "unrepeatable read"
        if reasons == {Reason.READ_WRITE}:
            return "write skew"
        return "cycle"

    def __str__(self) -> str:
        return f"{self.kind}: " + "; ".join(str(step) for step in self.steps)


class NotSerializable(Exception):
    """Updates that have no serial order: `cycles` has one cycle of each group of updates that are all before one
    another, `count` says how many updates these groups have."""

    def __init__(self, cycles: list[Cycle], count: int) -> None:
        self.cycles, self.count = cycles, count
        super().__init__("\n".join(str(cycle) for cycle in cycles))


# For each update, by its place in the commit order, the updates that come after it, and why.
Edges = list[dict[int, tuple[Reason, str]]]


def groups(edges: Edges, among: Iterable[int]) -> Iterator[list[int]]:
    """The largest groups of updates of which each comes before each other (Tarjan's strongly connected components,
    with an explicit stack instead of recursion), without those of one update."""
    number: dict[int, int] = {}
    low: dict[int, int] = {}
    stack: list[int] = []
    on_stack = set()
    for root in among:
        if root in number:
            continue
        walk = [(root, iter(edges[root]))]
        number[root] = low[root] = len(number)
        stack.append(root)
        on_stack.add(root)
        while walk:
            update, edges_left = walk[-1]
            following = next(edges_left, None)
            if following is None:
                walk.pop()
                if walk:
                    parent = walk[-1][0]
                    low[parent] = min(low[parent], low[update])
                if low[update] == number[update]:
                    group: list[int] = []
                    while not group or group[-1] != update:
                        group.append(stack.pop())
                    on_stack.difference_update(group)
                    if len(group) > 1:
                        yield sorted(group)
            elif following not in number:
                number[following] = low[following] = len(number)
                stack.append(following)
                on_stack.add(following)
                walk.append((following, iter(edges[following])))
            elif following in on_stack:
                low[update] = min(low[update], number[following])


def way_back(edges: Edges, start: int, among: set[int]) -> list[int]:
    """A shortest way from an update of a group along edges back to it: the updates on it, it first."""
    came: dict[int, int] = {}
    front = [start]
    while front:
        following = []
        for update in front:
            for after in edges[update]:
                if after == start:
                    way = [update]
                    while way[-1] != start:
                        way.append(came[way[-1]])
                    return way[::-1]
                if after in among and after not in came:
                    came[after] = update
                    following.append(after)
        front = following
    raise AssertionError("a group without a way back")


def cycle_of(edges: Edges, group: list[int], updates: list[Transaction]) -> Cycle:
    """A short cycle of a group: the shortest through one of its first updates."""
    among = set(group)
    way: Optional[list[int]] = None
    for start in group[:CYCLE_STARTS]:
        found = way_back(edges, start, among)
        if way is None or len(found) < len(way):
            way = found
        if len(way) == 2:
            break
    assert way is not None
    steps = [
        Step(updates[before].name, updates[after].name, *edges[before][after])
        for before, after in zip(way, way[1:] + way[:1])
    ]
    # (starting with a read of a version that another replaced, if there is one)
    first = next((place for place, step in enumerate(steps) if step.reason is Reason.READ_WRITE), 0)
    return Cycle(tuple(steps[first:] + steps[:first]))
