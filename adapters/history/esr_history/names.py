"""Names of a script for names of a record.

The idea: a name of a script is a letter and up to 15 letters, digits and `_`. A label of this form keeps its name, and so
does one that gets this form when other characters become `_` (`accounts/7` becomes `accounts_7`). If that is too long or
taken, the part after the schema is tried (`bank.accounts/7`), then the key alone (`i_7`), and finally a number (`i1`).

The invariant: no two labels have one name. Rejected: numbers for all. People read pictures and explanations.
"""

from __future__ import annotations

import re
from typing import Iterator

FORM = re.compile(r"[a-z][a-z0-9_]{0,15}")


class Names:
    """A table of names. Those that are keys or numbers begin with `letter`."""

    def __init__(self, letter: str) -> None:
        self.letter = letter
        self.by_label: dict[str, str] = {}
        self.labels: dict[str, str] = {}
        self.count = 0

    def __getitem__(self, label: str) -> str:
        """Returns the name of a label, a new one if it has none yet."""
        name = self.by_label.get(label)
        if name is None:
            name = next(name for name in self._tried(label) if FORM.fullmatch(name) and name not in self.labels)
            self.by_label[label], self.labels[name] = name, label
        return name

    def _tried(self, label: str) -> Iterator[str]:
        """Yields candidates for the name of a label, the best first."""
        for text in (label, label.split(".", 1)[-1], f"{self.letter}_{label.rsplit('/', 1)[-1]}"):
            yield re.sub(r"[^a-z0-9]", "_", text.lower())
        while True:
            self.count += 1
            yield f"{self.letter}{self.count}"
