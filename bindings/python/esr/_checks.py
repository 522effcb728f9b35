"""Checks of arguments, made before ctypes sees a number, since ctypes takes numbers modulo 2^64 without an error."""

import operator
import re
import sys
from typing import Iterable, List, Optional

from ._errors import Misuse, OutOfRange, WriteOutOfRange, WrongType

MAX_VALUE = 10**12
"""The largest value of an item to either side of 0."""
MAX_LIMIT = 10**18
MAX_WEIGHT = 1_000
MAX_ITEMS = 4_096


def integer(what: str, value: object) -> int:
    """Returns the integer that a value is.

    # Errors

    `WrongType` if it is not an integer: a float or a string, even one of a whole number.
    """
    try:
        return int(operator.index(value))  # type: ignore[arg-type]
    except TypeError:
        raise WrongType(f"{what} is {_shown(value)}, and must be an integer") from None


def integer_in(what: str, value: object, least: int, greatest: int) -> int:
    """Like `integer`, but raises `OutOfRange` outside the range."""
    number = integer(what, value)
    if not least <= number <= greatest:
        raise OutOfRange(_text(what, number, least, greatest))
    return number


def limit(value: object) -> int:
    """Checks the limit of a transaction."""
    if type(value) is int and 0 <= value <= MAX_LIMIT:
        return value
    return integer_in("limit", value, 0, MAX_LIMIT)


def written(item: str, value: object) -> int:
    """Checks a value that is written to an item."""
    if type(value) is int and -MAX_VALUE <= value <= MAX_VALUE:
        return value
    what = f"the value of {item!r}"
    number = integer(what, value)
    if not -MAX_VALUE <= number <= MAX_VALUE:
        raise WriteOutOfRange(5, _text(what, number, -MAX_VALUE, MAX_VALUE), 0, item)
    return number


def change(item: str, value: object) -> int:
    """Checks a change of an item, of which only the sum with the item's value has a range."""
    return value if type(value) is int else integer(f"the change of {item!r}", value)


def seconds(what: str, value: object) -> float:
    """Returns a time in seconds, from 0; infinity waits for ever."""
    if isinstance(value, (str, bytes, bytearray)):
        raise WrongType(f"{what} is {_shown(value)}, and must be a number of seconds")
    try:
        time = float(value)  # type: ignore[arg-type]
    except (TypeError, ValueError):
        raise WrongType(f"{what} is {_shown(value)}, and must be a number of seconds") from None
    except OverflowError:
        raise OutOfRange(f"{what} is {_shown(value)}, and must be 0 seconds or more, up to infinity") from None
    if not time >= 0:
        raise OutOfRange(f"{what} is {_shown(value)}, and must be 0 seconds or more, up to infinity")
    return time


def text(what: str, value: object) -> str:
    """Checks that a value is a string."""
    if not isinstance(value, str):
        raise WrongType(f"{what} is {_shown(value)}, and must be a string")
    return value


def optional_text(what: str, value: object) -> Optional[str]:
    """Checks that a value is a string or None."""
    return None if value is None else text(what, value)


def names(value: Iterable[str]) -> List[str]:
    """Returns a list of names. A single string would be taken for its letters, so it is refused."""
    if isinstance(value, (str, bytes)):
        raise WrongType(f"names is {_shown(value)}, and must be several strings")
    try:
        return list(value)
    except TypeError:
        raise WrongType(f"names is {_shown(value)}, and must be several strings") from None


def script_names(items: Iterable[str]) -> List[str]:
    """Returns the names of the items in texts: each name that a script may use, and `i0`, `i1` for the others.

    A script name is a letter and up to 15 letters, digits or underscores. If an item has the name that another one would
    get, underscores are appended to the latter.
    """
    names = list(items)
    taken = {name for name in names if is_script_name(name)}
    for number, name in enumerate(names):
        if not is_script_name(name):
            name = f"i{number}"
            while name in taken:
                name += "_"
            names[number] = name
            taken.add(name)
    return names


def is_script_name(name: str) -> bool:
    """Returns whether scripts may use the name."""
    return re.fullmatch("[A-Za-z][A-Za-z0-9_]{0,15}", name) is not None


def no_event_loop() -> None:
    """Raises `Misuse` if this thread runs an event loop, which a transaction that waits would stop.

    A notebook runs its cells under a loop that has nothing else to do meanwhile, so it is exempt.
    """
    asyncio = sys.modules.get("asyncio")
    if asyncio is None:
        return
    try:
        asyncio.get_running_loop()
    except RuntimeError:
        return
    if "get_ipython" not in vars(sys.modules["builtins"]):
        raise Misuse(
            "a bank is for threads, not for coroutines: a transaction that waits would stop the event loop of this thread;"
            " use `await asyncio.to_thread(bank.transact, limit, body)`"
        )


def _text(what: str, value: int, least: int, greatest: int) -> str:
    return f"{what} is {_shown(value)}, and must be {least:,} to {greatest:,}"


def _shown(value: object) -> str:
    """Returns a value as text. Python refuses to print integers of thousands of digits."""
    if isinstance(value, int) and value.bit_length() > 512:
        return f"an integer of {value.bit_length()} bits"
    shown = repr(value)
    return shown if len(shown) <= 200 else shown[:200] + ".."
