"""The load of the store's checks, from which every balance can be computed.

The n-th transfer of a thread follows from the thread and n, and sets the thread's counter to n along with the two accounts.
So the counters determine the balance of each account to the unit.
"""

import os
import pathlib
import random
import sys

TOP = pathlib.Path(__file__).resolve().parents[2]
sys.path[:0] = [str(TOP / "bindings/python"), str(TOP / "checks")]
os.environ.setdefault("ESR_LIBRARY", str(TOP / "bindings/lib/libesr.so.0"))
THREADS, OPENING = 8, 1000
ACCOUNTS = [f"a{k}" for k in range(24)]
COUNTERS = [f"done{k}" for k in range(THREADS)]
ITEMS = {**{name: OPENING for name in ACCOUNTS}, **{name: 0 for name in COUNTERS}}
TOTAL = len(ACCOUNTS) * OPENING


def demand(truth, text):
    if not truth:
        raise SystemExit(f"not so: {text}")


def store_of(kind, place):
    import esr

    return esr.SQLiteStore(place) if kind == "sqlite" else esr.PostgreSQLStore(place)


def transfer_of(thread, number):
    """The index of the giving and of the taking account, and the amount."""
    draw = random.Random(thread * 10**9 + number)
    giver, taker = draw.sample(range(len(ACCOUNTS)), 2)
    return giver, taker, draw.randrange(1, 100)


def transfer(bank, thread, number, stepwise=False):
    """Makes a transfer, and returns once the bank has answered it."""
    giver, taker, amount = transfer_of(thread, number)

    def body(update):
        for account in sorted((giver, taker)):
            update.add(ACCOUNTS[account], -amount if account == giver else amount)
        update.write(COUNTERS[thread], number)

    if stepwise:
        bank._run_stepwise(10**9, body, f"{thread} {number}", _waiting(bank))
    else:
        bank.transact(10**9, body, name=f"{thread} {number}")


def _waiting(bank):
    from esr._waiting import SHARE, Waiting

    return Waiting(bank._patience, SHARE)


def last_of(bank, updates):
    """The last transfer of each thread among the updates before a report."""
    last = [0] * THREADS
    for update in updates:
        thread, number = map(int, bank._txn_names[update].split())
        last[thread] = max(last[thread], number)
    return last


class Balances:
    """The balances up to the counters of a store, computed transfer by transfer."""

    def __init__(self, transfer_of=transfer_of):
        self.balances, self.done, self.transfer_of = [OPENING] * len(ACCOUNTS), [0] * THREADS, transfer_of

    def compare(self, values, what):
        """Demands that each account is what the transfers up to the counters make it."""
        kept = [values[name] for name in COUNTERS]
        for thread, number in enumerate(kept):
            demand(number >= self.done[thread], f"{what}: the counter of thread {thread} went back to {number}")
            for each in range(self.done[thread] + 1, number + 1):
                giver, taker, amount = self.transfer_of(thread, each)
                self.balances[giver] -= amount
                self.balances[taker] += amount
        self.done = kept
        found = [values[name] for name in ACCOUNTS]
        demand(sum(found) == TOTAL, f"{what}: the total is {sum(found)}, and was {TOTAL}")
        demand(found == self.balances, f"{what}: each account is what the transfers up to the counters make it")
        return kept
