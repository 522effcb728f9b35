"""How transactions wait for each other.

A blocked event is retried after a pause, for as long as the patience of its transaction lasts. Patience is a time, summed over
all attempts of a transaction. A number of retries would be used up at once on a busy machine, where the holder of the lock
does not run meanwhile.
"""

import math
import random
import threading
import time
from types import TracebackType
from typing import Dict, Optional, Type

YIELDS = 4
"""The number of first pauses that only yield the processor: an item that many updates change is free again at once."""
PAUSE = 20e-6
"""The pause after these, in seconds."""
DOUBLINGS = 8
"""How often the pause is doubled: up to 5 milliseconds."""
TAKEN = 0.0005
"""Seconds until a lock that is held is tried again."""
ROUND = 0.01
"""Within this many seconds every waiting transaction has retried."""
SHARE = 0.05
"""Seconds that the first attempt waits for one event. Each attempt waits twice as long as the one before."""


class Lock:
    """A lock that is polled.

    A thread that finds it held mostly has the interpreter from the holder, which resumes as soon as the other sleeps. With a
    lock that wakes a waiter at each release, the interpreter would change threads at each call.
    """

    def __init__(self) -> None:
        self.inner = threading.RLock()

    def __enter__(self) -> None:
        while not self.inner.acquire(False):
            time.sleep(TAKEN)

    def __exit__(self, kind: Optional[Type[BaseException]], error: object, trace: Optional[TracebackType]) -> None:
        self.inner.release()


class Waiting:
    """The remaining patience of a transaction, over all its attempts.

    A transaction that waits holds locks that others may wait for. So an attempt that can be restarted waits for an event only
    for its share, is aborted, and is restarted once the transactions that wait for it have had time to notice. The share
    doubles with each attempt: two transactions that wait for each other undetected part soon, and a slow transaction is
    waited for long enough by a later attempt.
    """

    def __init__(self, left: float, share: float = math.inf) -> None:
        self.left = left
        self.share = share

    def sleep(self, longest: float) -> float:
        """Sleeps for half to all of a time, and returns the seconds that passed."""
        begun = time.monotonic()
        time.sleep(max(0.0, min(longest * (0.5 + random.random() / 2), self.left)))
        waited = time.monotonic() - begun
        self.left -= waited
        return waited

    def pause(self, count: int) -> float:
        """Sleeps longer with each count, and returns the seconds that passed."""
        return self.sleep(0.0 if count < YIELDS else PAUSE * 2 ** min(count - YIELDS, DOUBLINGS))

    def pause_for_attempt(self) -> None:
        """Sleeps until other transactions have retried, before the next attempt."""
        self.sleep(min(self.share, ROUND))
        self.share *= 2


class WaitGraph:
    """Which transaction waits for which. Each waits for at most one, so a cycle is found from the one that begins to wait.

    The youngest transaction of a cycle is given up. A restarted one is as old as its first attempt, and waits for the end of
    the transaction that it had waited for: otherwise it might be given up for ever.
    """

    def __init__(self) -> None:
        self.blockers: Dict[int, int] = {}
        self.ages: Dict[int, int] = {}
        self.given_up: Dict[int, int] = {}

    def begin(self, txn: int, age: int, blocker: int) -> None:
        """Records that a transaction waits, and gives up the youngest of the cycle that this closes."""
        self.blockers[txn], self.ages[txn] = blocker, age
        cycle, at = [txn], blocker
        while at != txn:
            if at not in self.blockers or at in cycle:
                return
            cycle.append(at)
            at = self.blockers[at]
        youngest = max(cycle, key=self.ages.__getitem__)
        self.given_up[youngest] = self.blockers.pop(youngest)

    def end(self, txn: int) -> None:
        """Records that a transaction does not wait any more."""
        self.blockers.pop(txn, None)

    def renumber(self, new: Dict[int, int]) -> None:
        """Gives the transactions the numbers that they have after a renewal. Those that are not in `new` have ended."""
        self.blockers = {new[txn]: new[other] for txn, other in self.blockers.items() if txn in new and other in new}
        self.ages = {new[txn]: age for txn, age in self.ages.items() if txn in new}
        self.given_up = {new[txn]: new[other] for txn, other in self.given_up.items() if txn in new and other in new}

    def forget(self, txn: int) -> None:
        """Removes a transaction that has ended."""
        self.end(txn)
        self.given_up.pop(txn, None)
