"""Tables whose rows are items, and the places of their rows in the result of a statement.

The idea: for each column of a result the server reports the table and the column that it comes from. This identifies the
key, the value and the version of a row, whatever else the statement returns.

Rejected: reading the statement. It would take a parser of SQL, and views, joins and functions would still hide tables.
"""

from __future__ import annotations

from dataclasses import dataclass
from decimal import Decimal
from typing import Any, NamedTuple, Optional, Sequence

from esr_history.record import MAX_VALUE

XID_TYPE = 28  # the number of the type xid
EXACT = ("smallint", "integer", "bigint", "numeric")


class RecordingError(Exception):
    """A recording that cannot be made. The message contains the remedy."""


@dataclass(frozen=True)
class Table:
    """A table whose rows are items: by the columns `key`, with the values of the column `value`, which has `scale` decimal
    digits. A difference of one unit counts `weight`."""

    name: str
    key: tuple[str, ...]
    value: str
    scale: int = 0
    weight: int = 1

    @staticmethod
    def parse(text: str) -> Table:
        """Reads NAME:KEY:VALUE or NAME:KEY:VALUE:SCALE; several columns of a key are separated by commas."""
        parts = text.split(":")
        if len(parts) not in (3, 4) or not all(parts) or (len(parts) == 4 and not parts[3].isdigit()):
            raise RecordingError(
                f"{text!r} is not TABLE:KEY:VALUE or TABLE:KEY:VALUE:SCALE, as in accounts:id:balance:2"
            )
        return Table(parts[0], tuple(parts[1].split(",")), parts[2], int(parts[3]) if len(parts) == 4 else 0)

    def item(self, key: Sequence[Any]) -> str:
        """Returns the item of a row."""
        return f"{self.name}/{','.join(str(part) for part in key)}"

    def whole(self, item: str, value: Any) -> int:
        """Returns a value as an integer number of units of the scale."""
        if value is None:
            raise RecordingError(f"{item}: {self.value} is null; a recorded column has a value in every row")
        if isinstance(value, bool) or not isinstance(value, (int, Decimal)) or not Decimal(value).is_finite():
            raise RecordingError(f"{item}: {self.value} is {value!r}, and not a number")
        scaled = Decimal(value).scaleb(self.scale)
        if scaled != scaled.to_integral_value():
            raise RecordingError(
                f"{item}: {self.value} is {value}: more than {self.scale} digits behind the point; give a larger scale"
            )
        if abs(scaled) > MAX_VALUE:
            raise RecordingError(
                f"{item}: {self.value} is {value}: beyond {MAX_VALUE} units of its scale; give a smaller one"
            )
        return int(scaled)


Rows = dict[str, tuple[Table, int, str]]  # (of each item its table, value and version)


class Place(NamedTuple):
    """The columns of a table's row in a result."""

    table: Table
    key: tuple[int, ...]
    value: int
    xmin: int


class KnownTable:
    """A table of the server, by its number there, and the numbers of its columns."""

    def __init__(self, table: Table, oid: int, columns: dict[str, int]) -> None:
        self.table, self.oid = table, oid
        self.key = [columns[name] for name in table.key]
        self.value = columns[table.value]

    def values_of(self, description: Sequence[Any]) -> list[tuple[tuple[int, ...], int]]:
        """Returns the columns of the key and the value for each time that a result has rows of the table."""
        mine = [(place, column) for place, column in enumerate(description) if column.table_oid == self.oid]
        keys = [[place for place, column in mine if column.table_column == number] for number in self.key]
        values = [place for place, column in mine if column.table_column == self.value]
        return list(zip(zip(*keys), values))

    def places(self, description: Sequence[Any]) -> tuple[list[Place], bool]:
        """Returns the columns of each row of the table in a result, and whether the result has more values of the table,
        without their keys or versions."""
        mine = [(place, column) for place, column in enumerate(description) if column.table_oid == self.oid]

        def numbered(number: int) -> list[int]:
            return [place for place, column in mine if column.table_column == number]

        # (psycopg2 has no number of a system column; object-relational mappers give it an alias such as accounts_xmin)
        xmins = [place for place, column in mine if column.name.endswith("xmin") and column.type_code == XID_TYPE]
        values = numbered(self.value)
        rows = zip(zip(*map(numbered, self.key)), values, xmins)
        found = [Place(self.table, key, value, xmin) for key, value, xmin in rows]
        return found, len(values) > len(found)


# ---- what the server has


def _quoted(name: str) -> str:
    return '"' + name.replace('"', '""') + '"'


def known_table(cursor: Any, table: Table) -> KnownTable:
    """Looks up a table on the server."""
    cursor.execute("select oid, relkind from pg_class where oid = to_regclass(%s)", (table.name,))
    row = cursor.fetchone()
    if row is None:
        raise RecordingError(f"there is no table {table.name}")
    if row[1] not in ("r", "p"):
        raise RecordingError(f"{table.name} is not a table: name the table that it shows")
    cursor.execute(
        "select attname, attnum, atttypid::regtype::text from pg_attribute"
        " where attrelid = %s and attnum > 0 and not attisdropped",
        (row[0],),
    )
    columns = {name: (number, kind) for name, number, kind in cursor.fetchall()}
    for name in (*table.key, table.value):
        if name not in columns:
            raise RecordingError(f"the table {table.name} has no column {name}")
    kind = columns[table.value][1]
    if kind not in EXACT:
        raise RecordingError(f"{table.name}.{table.value} is {kind}: recorded values are {', '.join(EXACT)}")
    return KnownTable(table, row[0], {name: number for name, (number, _) in columns.items()})


def rows_of(cursor: Any, tables: Sequence[Table], faults: Optional[dict[str, str]] = None) -> Rows:
    """Returns all rows of the tables: for each item its table, its value and its version. Adds rows that cannot be
    recorded to `faults`.

    # Errors
    RecordingError for such a row, without `faults`."""
    found = {}
    for table in tables:
        columns = ", ".join(_quoted(name) for name in (*table.key, table.value))
        cursor.execute(f"select {columns}, xmin from {table.name}")
        for *key, value, xmin in cursor:
            item = table.item(key)
            try:
                found[item] = (table, table.whole(item, value), str(xmin))
            except RecordingError as error:
                if faults is None:
                    raise
                faults[item] = str(error)
    return found
