#!/usr/bin/env python3
"""Compares what `esr explore` writes of generated drive files, byte for byte, with runs of the plain model.

    check_runs.py [--files N] [--seed N] [PROGRAM]

The files are those of `check_texts.py` and small ones, generated from a fixed seed. Of each, some interleavings are drawn;
of the small ones all are gone through, and the worst run by each measure is written as a script. No clause speaks of how
runs are drawn and summed up, or of which is the worst, and this looks at all of it: the draws, the rounds in which blocks
give what an interleaving leaves over, how often lines were blocked and given up, and each import and distance.
"""

import argparse
import math
import pathlib
import random
import subprocess
import sys

from check_texts import block, committed_queries, event, file_text, generated, item_line, machine_of, places_of
from model import TURNS

ROOT = pathlib.Path(__file__).resolve().parent.parent.parent
MAX_ORDERS = 300
DRAWN = 10
WORD = 2**64


def small(number, seed):
    """A drive file of two or three short blocks."""
    chance = random.Random(f"small {seed} {number}")
    items = [(f"i{x}", chance.randint(-50, 50), chance.choice([None, 1, 3])) for x in range(chance.randint(1, 2))]
    names = [item[0] for item in items]
    return items, [block(chance, k, names)[: chance.randint(2, 4)] for k in range(chance.randint(2, 3))]


# ---- interleavings


def count_of(counts):
    """How many interleavings there are."""
    return math.factorial(sum(counts)) // math.prod(math.factorial(count) for count in counts)


def all_of(counts):
    """All of them, in ascending order."""
    if not any(counts):
        yield []
    for k, count in enumerate(counts):
        if count:
            for rest in all_of([*counts[:k], count - 1, *counts[k + 1 :]]):
                yield [k, *rest]


def draws(state):
    """Numbers drawn one after another: splitmix64."""
    while True:
        state = (state + 0x9E3779B97F4A7C15) % WORD
        first = (state ^ (state >> 30)) * 0xBF58476D1CE4E5B9 % WORD
        second = (first ^ (first >> 27)) * 0x94D049BB133111EB % WORD
        yield second ^ (second >> 31)


def drawn(counts, seed):
    """The interleaving that a seed draws."""
    left, numbers = list(counts), draws(seed)
    while any(left):
        line = next(numbers) % sum(left)
        k = next(k for k in range(len(left)) if line < sum(left[: k + 1]))
        left[k] -= 1
        yield k


# ---- a run


class Run:
    """What the blocks did, a line at a turn."""

    def __init__(self, items, blocks, order):
        self.blocks, self.places, self.machine = blocks, places_of(items), machine_of(items)
        self.at, self.tries = [0] * len(blocks), [0] * len(blocks)
        self.numbers = [{} for _ in blocks]
        self.blocked, self.given_up = [0] * len(blocks), [0] * len(blocks)
        self.script = [item_line(name, value, None if weight == 1 else weight) for name, value, weight in items]
        for k in order:
            self.turn(k)
        self.finish()

    def finish(self):
        """Gives what is left in rounds."""
        k = 0
        while any(at < len(lines) for at, lines in zip(self.at, self.blocks)):
            if self.at[k] < len(self.blocks[k]):
                self.turn(k)
            k = (k + 1) % len(self.blocks)

    def turn(self, k):
        """The turn of a block."""
        if self.at[k] == len(self.blocks[k]):
            return
        line = self.blocks[k][self.at[k]]
        reply = self.machine.step(event(line, self.numbers[k], self.places))
        if reply[0] != "refused":
            self.script.append(" ".join(line))
        if reply[0] == "blocked":
            self.blocked[k] += 1
            self.tries[k] += 1
            if self.tries[k] < TURNS:
                return
            self.given_up[k] += 1
        if reply[0] == "begun":
            self.numbers[k][line[1]] = reply[1]
        self.at[k] += 1
        self.tries[k] = 0

    def told(self):
        """Import and distance of each query that committed, by its name."""
        found = {}
        for number in committed_queries(self.machine):
            distance, charged, _ = self.machine.audit(number)
            found[self.machine.of(number).name] = charged, distance
        return found


# ---- what is written of many


def spread(numbers):
    """The maximum and the median of some numbers."""
    numbers = sorted(numbers) or [0]
    return f"max {numbers[-1]} median {numbers[(len(numbers) - 1) // 2]}"


def summary(runs, blocks):
    lines = [f"interleavings {len(runs)} of {count_of([len(lines) for lines in blocks])}"]
    if int(lines[0].rsplit(" ", 1)[1]) > 10**18:
        lines = [f"interleavings {len(runs)} of more than {10**18}"]
    for k in range(len(blocks)):
        lost = sum(run.given_up[k] > 0 for run in runs)
        lines.append(f"session {k} blocked {spread(run.blocked[k] for run in runs)} gave up {lost}")
    told = [run.told() for run in runs]
    for name in (line[1] for lines_of in blocks for line in lines_of if line[0] == "begin" and line[2] == "query"):
        pairs = [found[name] for found in told if name in found]
        amounts, distances = ([pair[i] for pair in pairs] for i in (0, 1))
        lines.append(f"query {name} committed {len(pairs)} import {spread(amounts)} distance {spread(distances)}")
    return lines


def size(run, measure):
    """How bad a run is."""
    if measure == "blocked":
        return sum(run.blocked)
    return max((pair[measure == "distance"] for pair in run.told().values()), default=0)


# ---- the comparison


def compare(program, data, words, lines):
    done = subprocess.run([program, "explore", *words], input=data, capture_output=True, check=True)
    wanted = "".join(line + "\n" for line in lines).encode()
    if done.stdout != wanted:
        sys.stdout.buffer.write(data + b"----\n" + done.stdout + b"---- wanted\n" + wanted)
        sys.exit(f"not so: esr explore {' '.join(words)}")


def compare_file(program, items, blocks, goes_through_all):
    """How many runs were compared."""
    data, counts = file_text(items, blocks), [len(lines) for lines in blocks]
    runs = [Run(items, blocks, drawn(counts, seed)) for seed in range(DRAWN)]
    compare(program, data, ["--seeds", str(DRAWN)], summary(runs, blocks))
    if not goes_through_all or count_of(counts) > MAX_ORDERS:
        return len(runs)
    every = [Run(items, blocks, order) for order in all_of(counts)]
    compare(program, data, ["--all"], summary(every, blocks))
    for measure in ("import", "distance", "blocked"):
        compare(program, data, ["--all", "--worst", measure], max(every, key=lambda run: size(run, measure)).script)
    return len(runs) + len(every)


def main():
    parser = argparse.ArgumentParser(description=__doc__.split("\n")[0])
    parser.add_argument("--files", type=int, default=100)
    parser.add_argument("--seed", type=int, default=1)
    parser.add_argument("program", nargs="?", default=str(ROOT / "crates/esr/out/esr"))
    options = parser.parse_args()
    runs = sum(compare_file(options.program, *small(number, options.seed), True) for number in range(options.files))
    runs += sum(compare_file(options.program, *generated(number, options.seed), False) for number in range(options.files // 4))
    print(f"explore: {runs} runs of {options.files + options.files // 4} files are summed up as by the plain model")


if __name__ == "__main__":
    main()
