"""Epsilon-serializable transactions over named integers in memory.

Updates are always serializable. A report reads the current values, committed or not, without blocking updates, and is off by
no more than its limit; its finding has the exact error. For the exact values of one moment take `Bank.snapshot`.

    >>> from esr import Bank
    >>> bank = Bank({"checking": 500, "savings": 1500})
    >>> with bank.update(200) as transfer:
    ...     transfer.add("checking", -100)
    ...     transfer.add("savings", 100)
    400
    1600
    >>> with bank.report(200) as report:
    ...     report.read("checking") + report.read("savings")
    2000
    >>> report.finding
    Finding(distance=0, charged=0, before=(1,))
    >>> sum(bank.values())
    2000

A bank is for threads, not for coroutines. The package logs to the logger `esr`.
"""

from typing import TYPE_CHECKING

from ._bank import Bank, Counts, Finding, Query, Update
from ._errors import (
    BankClosed,
    Blocked,
    Deadlock,
    EsrError,
    HandleExpired,
    HistoryFull,
    Misuse,
    NotWritten,
    OutOfRange,
    Overtaken,
    Refused,
    RenewalFailed,
    ReportCarried,
    StoreError,
    StoreInUse,
    StoreStopped,
    StoreUnfit,
    UnknownItem,
    WriteOutOfRange,
    WrongType,
)
from ._metrics import Active, Metrics
from ._store import Change, Store

if TYPE_CHECKING:
    from ._postgresql import PostgreSQLStore as PostgreSQLStore
    from ._sqlite import SQLiteStore as SQLiteStore

__version__ = "0.3.0"

__all__ = [
    "Active",
    "Bank",
    "BankClosed",
    "Blocked",
    "Change",
    "Counts",
    "Deadlock",
    "EsrError",
    "Finding",
    "HandleExpired",
    "HistoryFull",
    "Metrics",
    "Misuse",
    "NotWritten",
    "OutOfRange",
    "Overtaken",
    "Query",
    "Refused",
    "RenewalFailed",
    "ReportCarried",
    "Store",
    "StoreError",
    "StoreInUse",
    "StoreStopped",
    "StoreUnfit",
    "UnknownItem",
    "Update",
    "WriteOutOfRange",
    "WrongType",
    "__version__",
]


def __getattr__(name: str) -> type:
    """Imports a store when it is first used: a Python without SQLite or psycopg2 has the rest of the package. So neither is in
    `__all__`."""
    if name == "SQLiteStore":
        from ._sqlite import SQLiteStore

        return SQLiteStore
    if name == "PostgreSQLStore":
        from ._postgresql import PostgreSQLStore

        return PostgreSQLStore
    raise AttributeError(f"module 'esr' has no attribute {name!r}")
