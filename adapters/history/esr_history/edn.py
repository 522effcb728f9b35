"""Reads EDN, the text form of histories of Jepsen: maps, vectors, lists, sets, keywords, numbers, strings, tags.

Keywords and symbols become texts without the colon, maps become dictionaries, other collections lists. Tags are ignored.
"""

from __future__ import annotations

import re
from typing import Any, Iterator

TOKEN = re.compile(r'[\s,]+|;[^\n]*|#_|#\{|[\[\](){}]|"(?:\\.|[^"\\])*"|\\\S+|#[^\s\[\](){}"]+|[^\s,\[\](){}";]+')
CLOSING = {"[": "]", "(": ")", "{": "}", "#{": "}"}
NAMES = {"nil": None, "true": True, "false": False}
ESCAPES = {"n": "\n", "t": "\t", "r": "\r"}


class EdnError(ValueError):
    """A text that is not EDN."""


def _tokens(text: str) -> Iterator[str]:
    place = 0
    while place < len(text):
        found = TOKEN.match(text, place)
        if found is None:
            raise EdnError(f"unexpected {text[place : place + 10]!r}")
        place = found.end()
        token = found.group()
        if not token[0].isspace() and token[0] not in ",;" and not (token[0] == "#" and token not in ("#{", "#_")):
            yield token


def _atom(token: str) -> Any:
    if token.startswith('"'):
        return re.sub(r"\\(.)", lambda found: ESCAPES.get(found[1], found[1]), token[1:-1], flags=re.S)
    if token in NAMES:
        return NAMES[token]
    if re.fullmatch(r"[+-]?\d+[NM]?", token):
        return int(token.rstrip("NM"))
    if re.fullmatch(r"[+-]?\d+(\.\d+)?([eE][+-]?\d+)?M?", token):
        return float(token.rstrip("M"))
    return token.lstrip(":\\")


def values(text: str) -> Iterator[Any]:
    """Yields the values of a text.

    # Errors
    EdnError if it is not EDN."""
    stack: list[tuple[str, list[Any]]] = [("", [])]
    for token in _tokens(text):
        if token in CLOSING:
            stack.append((token, []))
            continue
        if token in ("]", ")", "}"):
            opened, content = stack.pop()
            if CLOSING.get(opened) != token:
                raise EdnError(f"unexpected {token}")
            value: Any = content
            if opened == "{":
                value = dict(zip(map(_key, content[::2]), content[1::2]))
        elif token == "#_":
            raise EdnError("#_ is not supported")
        else:
            value = _atom(token)
        if len(stack) == 1:
            yield value
        else:
            stack[-1][1].append(value)
    if len(stack) > 1:
        raise EdnError(f"{stack[-1][0]} is not closed")


def _key(value: Any) -> Any:
    return tuple(value) if isinstance(value, list) else value
