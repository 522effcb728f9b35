"""The exceptions of the package. All derive from `EsrError`."""

from typing import Optional, Tuple

REASONS = {
    1: "no such transaction",
    2: "already ended",
    3: "no such item",
    4: "a query may not write",
    5: "value out of range",
    6: "limit out of range",
    7: "too many transactions",
    8: "too many reads, at most 1,000 in a report (`snapshot` returns all items)",
    9: "a lock",
    10: "the import limit",
    11: "the export limit",
}
"""The engine's refusals by their number."""


class EsrError(Exception):
    """The base class of all exceptions of the package.

    >>> from esr import Bank
    >>> bank = Bank({"checking": 500})
    >>> try:
    ...     bank["pocket"]
    ... except EsrError as why:
    ...     print(why)
    no item has the name 'pocket'
    """


class WrongType(EsrError, TypeError):
    """An argument does not have the type that the call needs.

    >>> from esr import Bank
    >>> Bank({"checking": 1.5})
    Traceback (most recent call last):
    esr._errors.WrongType: the opening value of 'checking' is 1.5, and must be an integer
    """


class OutOfRange(EsrError, ValueError):
    """An argument is outside its range. The message has its name, its value and the range.

    >>> from esr import Bank
    >>> Bank({"checking": 10**13})
    Traceback (most recent call last):
    esr._errors.OutOfRange: the opening value of 'checking' is 10000000000000, and must be -1,000,000,000,000 to 1,000,000,000,000
    """


class UnknownItem(EsrError, KeyError):
    """No item has that name.

    >>> from esr import Bank
    >>> Bank({"checking": 500})["pocket"]
    Traceback (most recent call last):
    esr._errors.UnknownItem: no item has the name 'pocket'
    """

    def __str__(self) -> str:
        return f"no item has the name {self.args[0]!r}"


class Misuse(EsrError, RuntimeError):
    """A call in a place that does not allow it: a transaction outside its `with` statement, one that `before_renewal`
    begins, or one in a thread that runs an event loop.

    >>> from esr import Bank
    >>> Bank({"checking": 500}).update(0).read("checking")
    Traceback (most recent call last):
    esr._errors.Misuse: an update begins with its `with` statement
    """


class ReportCarried(EsrError):
    """A report was carried over a renewal, so its finding is a bound, and it has neither bundle nor picture.

    >>> from esr import ReportCarried
    >>> issubclass(ReportCarried, EsrError)
    True
    """


class HandleExpired(EsrError):
    """A transaction has ended, or the history that it belongs to was renewed.

    >>> from esr import Bank
    >>> with Bank({"checking": 500}).update(0) as update:
    ...     pass
    >>> update.read("checking")
    Traceback (most recent call last):
    esr._errors.HandleExpired: update 1 has ended
    """


class BankClosed(EsrError):
    """The bank was closed.

    >>> from esr import Bank
    >>> with Bank({"checking": 500}) as bank:
    ...     pass
    >>> bank["checking"]
    Traceback (most recent call last):
    esr._errors.BankClosed: the bank is closed
    """


class HistoryFull(EsrError):
    """The history has no capacity left for the transaction. It was aborted, and the next one begins in a new history.

    >>> raise HistoryFull("the history has no capacity left")
    Traceback (most recent call last):
    esr._errors.HistoryFull: the history has no capacity left
    """


class RenewalFailed(EsrError):
    """The history is full, and `before_renewal` raises an exception, which is the cause of this one. The next begin calls it
    again.

    >>> raise RenewalFailed("the history is full, and before_renewal failed: disk full")
    Traceback (most recent call last):
    esr._errors.RenewalFailed: the history is full, and before_renewal failed: disk full
    """


class Refused(EsrError):
    """The engine refused an event, and nothing changed.

    >>> from esr import Bank
    >>> with Bank({"checking": 500}).report(0) as report:
    ...     for _ in range(1001):
    ...         value = report.read("checking")
    Traceback (most recent call last):
    esr._errors.Refused: refused 8: too many reads, at most 1,000 in a report (`snapshot` returns all items), at item 'checking'
    """

    def __init__(
        self, number: int, words: str, other: int, item: Optional[str] = None, other_name: Optional[str] = None
    ) -> None:
        super().__init__(number, words, other)
        self.number = number
        """The number of the refusal, 1 to 11."""
        self.words = words
        """The reason as text."""
        self.other = other
        """The number of the transaction that is in the way, or 0."""
        self.item = item
        """The name of the item, or None."""
        self.other_name = other_name
        """The name of that transaction, or None."""

    def __reduce__(self) -> Tuple[object, ...]:
        return type(self), (self.number, self.words, self.other, self.item, self.other_name)

    def __str__(self) -> str:
        other = f" of {named(self.other, self.other_name)}" if self.other else ""
        at = f", at item {self.item!r}" if self.item is not None else ""
        return f"refused {self.number}: {self.words}{other}{at}"


class WriteOutOfRange(Refused, OutOfRange):
    """The value of a write is outside -10^12 to 10^12. The engine has not seen the write.

    >>> from esr import Bank
    >>> with Bank({"checking": 500}).update(0) as update:
    ...     update.write("checking", 10**13)
    Traceback (most recent call last):
    esr._errors.WriteOutOfRange: refused 5: the value of 'checking' is 10000000000000, and must be -1,000,000,000,000 to 1,000,000,000,000
    """

    def __str__(self) -> str:
        return f"refused {self.number}: {self.words}"


class Blocked(Refused):
    """A transaction waited as long as its patience lasted, and is still blocked by another one.

    >>> from esr import Bank
    >>> bank = Bank({"checking": 500}, patience=0.01)
    >>> with bank.update(0, name="first") as first, bank.update(0) as second:
    ...     first.write("checking", 400)
    ...     second.write("checking", 300)
    Traceback (most recent call last):
    esr._errors.Blocked: refused 9: a lock of 1 'first', at item 'checking'
    """


class Overtaken(EsrError):
    """Other updates have changed what the function of an optimistic update had read. The bank runs the function again, so
    the caller of `transact` never sees this exception.

    >>> from esr import Overtaken
    >>> issubclass(Overtaken, EsrError)
    True
    """


class Deadlock(EsrError):
    """The transaction was the youngest of a cycle in which each waits for the next.

    >>> raise Deadlock(2, 1)
    Traceback (most recent call last):
    esr._errors.Deadlock: transaction 2 is the youngest of a deadlock, and waited for 1
    """

    def __init__(self, number: int, other: int, name: Optional[str] = None, other_name: Optional[str] = None) -> None:
        super().__init__(number, other)
        self.number = number
        """The number of the transaction that was given up."""
        self.other = other
        """The number of the transaction that it waited for."""
        self.name = name
        """Its name, or None."""
        self.other_name = other_name
        """The name of the transaction that it waited for, or None."""

    def __reduce__(self) -> Tuple[object, ...]:
        return type(self), (self.number, self.other, self.name, self.other_name)

    def __str__(self) -> str:
        mine, other = named(self.number, self.name), named(self.other, self.other_name)
        return f"transaction {mine} is the youngest of a deadlock, and waited for {other}"


class StoreError(EsrError):
    """The base class of the exceptions of stores.

    >>> raise StoreError("no store")
    Traceback (most recent call last):
    esr._errors.StoreError: no store
    """


class StoreUnfit(StoreError):
    """The store cannot be opened as a bank. The message names the row or setting.

    >>> raise StoreUnfit("shop.db: item 'pens' has the value 'many', and must have an integer")
    Traceback (most recent call last):
    esr._errors.StoreUnfit: shop.db: item 'pens' has the value 'many', and must have an integer
    """


class StoreInUse(StoreError):
    """Another bank has the store open.

    >>> raise StoreInUse("shop.db is open in another bank")
    Traceback (most recent call last):
    esr._errors.StoreInUse: shop.db is open in another bank
    """


class NotWritten(StoreError):
    """Raised by the `write` of a store: the changes are certainly not in the store. The bank writes them again as long as
    `store_patience` lasts, or stops at once if the error is final.

    >>> NotWritten("a constraint forbids -1", is_final=True).is_final
    True
    """

    def __init__(self, reason: str, is_final: bool = False) -> None:
        super().__init__(reason)
        self.is_final = is_final
        """Whether the same write would fail again for certain."""


class StoreStopped(StoreError):
    """The store failed for longer than `store_patience`, so the bank has stopped. Reopen it from the store.

    >>> raise StoreStopped("the bank has stopped: disk full", False)
    Traceback (most recent call last):
    esr._errors.StoreStopped: the bank has stopped: disk full
    """

    def __init__(self, reason: str, is_written: Optional[bool] = None) -> None:
        super().__init__(reason)
        self.is_written = is_written
        """Of an update that ends with this exception: False if the store certainly does not have it, None if that is
        unknown."""


def named(number: int, name: Optional[str]) -> str:
    """Returns the number of a transaction, followed by its name if it has one."""
    return str(number) if name is None else f"{number} {name!r}"
