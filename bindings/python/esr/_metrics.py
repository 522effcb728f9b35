"""Counters of a bank, as a dataclass and in the text format of Prometheus."""

from bisect import bisect_left
from dataclasses import dataclass, field
from typing import Any, Dict, List, Optional, Tuple

BOUNDS = (0, *(10**n for n in range(19)))
"""The upper bounds of the histogram of distances. An audit's distance is at most a limit, 10^18."""


@dataclass(frozen=True)
class Active:
    """A transaction that has not ended: see `Bank.active`."""

    number: int
    """Its number in the history."""
    name: Optional[str]
    """The name that its caller gave it, or None."""
    kind: str
    """`"update"` or `"report"`."""
    age: float
    """Seconds since it began."""
    limit: int
    """The maximum that it may be charged."""
    charged: int
    """What it has been charged so far."""
    waits_for: Optional[int]
    """The number of the transaction that it waits for now, or None. An event that waits because of its own transaction's
    limit has that transaction's number."""
    waits_at: Optional[str]
    """The item at which it waits, or None."""


@dataclass(frozen=True)
class Metrics:
    """Counters since the bank was opened, never reset by a renewal: see `Bank.metrics`. Times are in seconds.

    `to_prometheus` describes the counters. Of the updates, `whole` ran optimistically, that is, by `Bank.transact`.

    >>> from esr import Bank
    >>> Bank({"checking": 500}).metrics().updates
    0
    """

    updates: int
    """Updates that have committed."""
    whole: int
    """Those of them that ran optimistically."""
    reports: int
    """Reports that have committed."""
    aborts: int
    """Updates and reports that ended with an exception."""
    reruns: int
    """Runs of functions after the first."""
    deadlocks: int
    """Transactions that were given up as the youngest of a deadlock."""
    waits: int
    """Events that waited for other transactions."""
    waited: float
    """Seconds that they waited."""
    renewals: int
    """Renewals of the history."""
    renewing: float
    """Seconds that they took, including `before_renewal`."""
    longest_renewal: float
    """Seconds of the longest."""
    carried: int
    """Updates that were carried over a renewal, counted once for each renewal."""
    carried_reports: int
    """Reports that were carried over a renewal, counted once for each renewal."""
    renewals_put_off: int
    """Renewals that were put off because `before_renewal` failed."""
    audits: int
    """Audits of reports."""
    background_audits: int
    """Those of them that the second engine made."""
    auditing: float
    """Seconds that callers waited for them."""
    longest_audit: float
    """Seconds of the longest."""
    distances: Tuple[int, ...]
    """Audits with a distance of 0, of 1, of 2 to 10, of 11 to 100 and so on up to 10^18."""
    distance: int
    """The sum of the distances."""
    active: int
    """Transactions that have not ended."""
    oldest_active: float
    """Seconds since the oldest of them began, or 0."""
    store_writes: int
    """Transactions of the store."""
    store_updates: int
    """Updates in them."""

    def to_prometheus(self) -> str:
        """Returns the counters in the text format of Prometheus.

        >>> from esr import Bank
        >>> print(Bank({"checking": 500}).metrics().to_prometheus().splitlines()[2])
        esr_updates_total{way="whole"} 0
        """
        lines: List[str] = []

        def add(name: str, kind: str, description: str, *samples: Tuple[str, object]) -> None:
            lines.extend((f"# HELP {name} {description}", f"# TYPE {name} {kind}"))
            lines.extend(f"{name}{suffix} {value}" for suffix, value in samples)

        ways = ('{way="whole"}', self.whole), ('{way="stepwise"}', self.updates - self.whole)
        add("esr_updates_total", "counter", "Updates that have committed.", *ways)
        for name, description, value in self._counters():
            add(name, "counter", description, ("", value))
        gauges = ("esr_active", "Transactions that have not ended.", self.active), (
            "esr_oldest_active_seconds",
            "Time since the oldest of them began.",
            self.oldest_active,
        )
        for name, description, gauge in gauges:
            add(name, "gauge", description, ("", gauge))
        within, buckets = 0, []
        for bound, count in zip(BOUNDS, self.distances):
            within += count
            buckets.append((f'_bucket{{le="{bound}"}}', within))
        ends = ('_bucket{le="+Inf"}', self.audits), ("_sum", self.distance), ("_count", self.audits)
        add("esr_distance", "histogram", "Distances that audits found.", *buckets, *ends)
        return "\n".join(lines) + "\n"

    def _counters(self) -> List[Tuple[str, str, object]]:
        return [
            ("esr_reports_total", "Reports that have committed.", self.reports),
            ("esr_aborts_total", "Updates and reports that ended with an exception.", self.aborts),
            ("esr_reruns_total", "Runs of functions after the first.", self.reruns),
            ("esr_deadlocks_total", "Transactions given up as the youngest of a deadlock.", self.deadlocks),
            ("esr_waits_total", "Events that waited for other transactions.", self.waits),
            ("esr_wait_seconds_total", "Time that they waited.", self.waited),
            ("esr_renewals_total", "Renewals of the history.", self.renewals),
            ("esr_renewal_seconds_total", "Time that they took.", self.renewing),
            ("esr_carried_updates_total", "Updates carried over a renewal.", self.carried),
            ("esr_carried_reports_total", "Reports carried over a renewal.", self.carried_reports),
            ("esr_renewals_put_off_total", "Renewals put off because before_renewal failed.", self.renewals_put_off),
            ("esr_audits_total", "Audits of reports.", self.audits),
            ("esr_background_audits_total", "Audits on the second engine.", self.background_audits),
            ("esr_audit_seconds_total", "The time that callers waited for audits.", self.auditing),
            ("esr_store_writes_total", "Transactions of the store.", self.store_writes),
            ("esr_store_updates_total", "Updates in them.", self.store_updates),
        ]


@dataclass
class Counters:
    """The counters while they change, under the lock of the bank."""

    updates: int = 0
    whole: int = 0
    reports: int = 0
    aborts: int = 0
    reruns: int = 0
    deadlocks: int = 0
    waits: int = 0
    waited: float = 0.0
    renewals: int = 0
    renewing: float = 0.0
    longest_renewal: float = 0.0
    carried: int = 0
    carried_reports: int = 0
    renewals_put_off: int = 0
    audits: int = 0
    background_audits: int = 0
    auditing: float = 0.0
    longest_audit: float = 0.0
    distances: List[int] = field(default_factory=lambda: [0] * len(BOUNDS))
    distance: int = 0

    def count_audit(self, distance: int, seconds: float, is_background: bool) -> None:
        """Counts an audit under the first bound that its distance does not exceed."""
        self.audits += 1
        self.background_audits += is_background
        self.auditing += seconds
        self.longest_audit = max(self.longest_audit, seconds)
        self.distance += distance
        self.distances[min(bisect_left(BOUNDS, distance), len(BOUNDS) - 1)] += 1

    def count_renewal(self, seconds: float) -> None:
        """Counts a renewal."""
        self.renewals += 1
        self.renewing += seconds
        self.longest_renewal = max(self.longest_renewal, seconds)

    def metrics(self, active: int, oldest_active: float, store_writes: int, store_updates: int) -> Metrics:
        """Returns a copy, with the gauges and the counters of the store."""
        fields: Dict[str, Any] = {**vars(self), "distances": tuple(self.distances), "active": active}
        fields.update(oldest_active=oldest_active, store_writes=store_writes, store_updates=store_updates)
        return Metrics(**fields)
