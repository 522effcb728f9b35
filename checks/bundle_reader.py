#!/usr/bin/env python3
"""A second reader of bundles, written from `docs/FORMATS.md`: it judges from the file alone."""

import itertools
import json

MAX_COST = 2 * 10**18


class Bad(Exception):
    """The text is not a bundle: 1 not JSON, 2 the wrong shape, 3 a number out of range."""

    def __init__(self, number):
        super().__init__(number)
        self.number = number


# ---- reading


def require(holds, number=2):
    if not holds:
        raise Bad(number)


def fields(value, needed, optional=()):
    require(isinstance(value, dict))
    require(set(needed) <= set(value) <= set(needed) | set(optional))
    return value


def number(value):
    require(isinstance(value, int) and not isinstance(value, bool) and 0 <= value < 2**64)
    return value


def numbers(value):
    require(isinstance(value, list))
    return [number(each) for each in value]


def ascends(values):
    return all(a < b for a, b in zip(values, values[1:]))


def no_constant(word):
    """`NaN` and `Infinity`, which Python takes, are no JSON."""
    raise ValueError(word)


def whole(digits):
    """A number of digits alone; one with a sign is negative, `-0` too."""
    return -1 if digits.startswith("-") else int(digits)


def read_chain(value):
    chain = fields(value, ("costs", "item", "writers"))
    return {
        "costs": numbers(chain["costs"]),
        "item": number(chain["item"]),
        "writers": numbers(chain["writers"]),
    }


def read(text):
    """The problem and the certificate of a text."""
    try:
        tree = json.loads(text, parse_constant=no_constant, parse_int=whole)
    except ValueError:
        raise Bad(1) from None
    fields(tree, ("certificate", "problem"))
    certificate = fields(
        tree["certificate"],
        ("back_flow", "chain_flow", "set", "worth"),
        ("augmentations", "must_flow"),
    )
    problem = fields(tree["problem"], ("before", "chains", "updates"), ("must",))
    require(isinstance(certificate["chain_flow"], list))
    certificate = {
        "augmentations": number(certificate.get("augmentations", 0)),
        "back_flow": numbers(certificate["back_flow"]),
        "chain_flow": [numbers(row) for row in certificate["chain_flow"]],
        "must_flow": numbers(certificate.get("must_flow", [])),
        "set": numbers(certificate["set"]),
        "worth": number(certificate["worth"]),
    }
    require(isinstance(problem["before"], list) and isinstance(problem["chains"], list))
    problem = {
        "before": [tuple(numbers(pair)) for pair in problem["before"]],
        "chains": [read_chain(chain) for chain in problem["chains"]],
        "must": numbers(problem.get("must", [])),
        "updates": numbers(problem["updates"]),
    }
    require(all(len(pair) == 2 for pair in problem["before"]))
    check_shape(problem)
    check_range(problem, certificate)
    return problem, certificate


def check_shape(problem):
    before = set(problem["before"])
    require(len(set(problem["updates"])) == len(problem["updates"]))
    require(ascends(problem["before"]) and all(u < v for u, v in problem["before"]))
    require(ascends(problem["must"]))
    require(ascends([chain["item"] for chain in problem["chains"]]))
    for chain in problem["chains"]:
        writers = chain["writers"]
        require(len(chain["costs"]) == len(writers) + 1 and ascends(writers))
        require(all(pair in before for pair in zip(writers, writers[1:])))


def check_range(problem, certificate):
    count = len(problem["updates"])
    require(all(1 <= update <= 65_535 for update in problem["updates"]), 3)
    require(all(v < count for _, v in problem["before"]), 3)
    require(all(position < count for position in problem["must"]), 3)
    for chain in problem["chains"]:
        require(chain["item"] <= 4_095, 3)
        require(all(writer < count for writer in chain["writers"]), 3)
    require(sum(max(chain["costs"]) for chain in problem["chains"]) <= MAX_COST, 3)
    require(all(position < 2**32 for position in certificate["set"]), 3)


# ---- judging


def is_closed(problem, chosen):
    return all(u in chosen for u, v in problem["before"] if v in chosen) and all(
        position in chosen for position in problem["must"]
    )


def cost(problem, chosen):
    """Each chain costs what it costs after the last of its writers that is in the set."""
    total = 0
    for chain in problem["chains"]:
        places = [place + 1 for place, writer in enumerate(chain["writers"]) if writer in chosen]
        total += chain["costs"][max(places, default=0)]
    return total


def fits(problem, certificate):
    """Each amount has its arc, and those on arcs of chains are within their capacities."""
    rows = certificate["chain_flow"]
    return (
        len(certificate["back_flow"]) == len(problem["before"])
        and len(certificate["must_flow"]) == len(problem["must"])
        and [len(row) for row in rows] == [len(chain["costs"]) for chain in problem["chains"]]
        and all(
            amount <= capacity
            for row, chain in zip(rows, problem["chains"])
            for amount, capacity in zip(row, chain["costs"])
        )
    )


def is_conserved(problem, certificate):
    """As much flows into each update as out of it."""
    surplus = [0] * len(problem["updates"])
    for chain, row in zip(problem["chains"], certificate["chain_flow"]):
        for place, writer in enumerate(chain["writers"]):
            surplus[writer] += row[place] - row[place + 1]
    for (u, v), amount in zip(problem["before"], certificate["back_flow"]):
        surplus[v] -= amount
        surplus[u] += amount
    for update, amount in zip(problem["must"], certificate["must_flow"]):
        surplus[update] += amount
    return not any(surplus)


def fault(problem, certificate):
    """The first thing that is wrong with the certificate, or 0."""
    members = certificate["set"]
    chosen = set(members)
    value = sum(row[0] for row in certificate["chain_flow"] if row) + sum(certificate["must_flow"])
    arcs = (
        sum(len(chain["costs"]) for chain in problem["chains"])
        + len(problem["before"])
        + len(problem["must"])
    )
    if not ascends(members):
        return 1
    if any(position >= len(problem["updates"]) for position in members):
        return 2
    if not is_closed(problem, chosen):
        return 3
    if not fits(problem, certificate):
        return 4
    if not is_conserved(problem, certificate):
        return 5
    if not certificate["worth"] == value == cost(problem, chosen):
        return 6
    if certificate["augmentations"] > (len(problem["updates"]) + 2) * arcs:
        return 7
    return 0


def verdict(text):
    try:
        problem, certificate = read(text)
    except Bad as bad:
        return f"bad {bad.number}\n"
    found = fault(problem, certificate)
    return f"invalid {found}\n" if found else f"valid {certificate['worth']}\n"


def least_cost(problem):
    """By trying every closed set."""
    positions = range(len(problem["updates"]))
    return min(
        cost(problem, set(chosen))
        for size in range(len(positions) + 1)
        for chosen in itertools.combinations(positions, size)
        if is_closed(problem, set(chosen))
    )


if __name__ == "__main__":
    import sys

    if len(sys.argv) != 2:
        sys.exit("usage: bundle_reader.py FILE")
    with open(sys.argv[1], "rb") as bundle:
        print(verdict(bundle.read()), end="")
