"""Three schedules of PostgreSQL's own tests of isolation, `receipt-report`, `total-cash` and `read-only-anomaly`, and
two smaller ones: two or three sessions, in every order of their steps, recorded and audited.

The steps are rewritten here. The manual's definition of an isolation level decides, by the order of the steps alone,
in which orders a schedule goes wrong: at read committed a statement sees the commits before its start, and at
repeatable read a transaction sees the commits before the start of its first statement. The audit has to find just
these. At serializable no order may go wrong, so in each of them the server has to refuse a session.
"""

import dataclasses
import typing

import psycopg2
from psycopg2.errors import LockNotAvailable, SerializationFailure

from esr_history.cycles import NotSerializable
from esr_history.order import history_of
from esr_postgresql.recorder import Recorder
from esr_postgresql.tables import Table

LEVELS = ("read committed", "repeatable read", "serializable")
PATIENCE = "50ms"  # how long a lock is waited for: an order in which a session waits for another cannot be played


class Order(list):
    """The numbers of the sessions, from 1, whose steps are taken one after another."""

    def at(self, session, step):
        """When a session takes a step, counted from 0; -1 is its last, the commit."""
        return [place for place, other in enumerate(self) if other == session][step]

    def sees(self, session, step, other, level):
        """Whether a statement sees what another session has committed."""
        first = 0 if level != "read committed" else step
        return self.at(other, -1) < self.at(session, first)


@dataclasses.dataclass(frozen=True)
class Step:
    """Statements that are run one right after another, and the names of the rows of a table that the last looks for,
    whether they are there or not."""

    statements: typing.Tuple[str, ...]
    table: str
    names: typing.Tuple[str, ...] = ()


@dataclasses.dataclass(frozen=True)
class Schedule:
    """Tables with opening rows, and the steps of each session; a commit follows the last. `goes_wrong` says of an
    order whether it ends as no serial order would, at a level that does not see to it. Rows belong to an order, by
    the number `n`, so that one record may contain many orders."""

    name: str
    tables: typing.Tuple[str, ...]
    rows: str
    sessions: typing.Tuple[typing.Tuple[Step, ...], ...]
    goes_wrong: typing.Callable[[Order, str], bool]
    reporter: typing.Optional[int] = None

    def orders(self):
        return [Order(order) for order in _orders([len(session) + 1 for session in self.sessions])]


def _orders(counts):
    if not any(counts):
        yield []
    for session, count in enumerate(counts, 1):
        if count:
            rest = [other - (place == session) for place, other in enumerate(counts, 1)]
            for order in _orders(rest):
                yield [session] + order


RETURNING = "returning n, what, value, xmin"


def look(table, *names):
    listed = ", ".join(f"'{name}'" for name in names)
    return Step((f"select n, what, value, xmin from {table} where n = %(n)s and what in ({listed})",), table, names)


def put(table, name, value):
    return Step((f"update {table} set value = {value} where n = %(n)s and what = '{name}' {RETURNING}",), table)


def add(table, name, value):
    return Step((f"insert into {table} values (%(n)s, '{name}', {value}) {RETURNING}",), table)


def at_once(first, second):
    return Step(first.statements + second.statements, second.table, second.names)


def rows(table, **values):
    listed = ", ".join(f"(%(n)s, '{name}', {value})" for name, value in values.items())
    return f"insert into {table} values {listed};"


def _receipt_goes_wrong(order, level):
    is_for_the_old_day = not order.sees(1, 0, 2, level)
    sees_the_new_day, sees_the_receipt = order.sees(3, 0, 2, level), order.sees(3, 1, 1, level)
    if is_for_the_old_day:
        return sees_the_new_day and not sees_the_receipt
    return sees_the_receipt and not sees_the_new_day


# A receipt comes in for the day that is open, while the day is closed; somebody reports the day and its receipts. A
# receipt for the old day has to be seen where the new day is, and one for the new day only there.
RECEIPT_REPORT = Schedule(
    "receipt-report",
    ("control", "receipt"),
    rows("control", day=22) + rows("receipt", first="1.00", second="2.00"),
    (
        (at_once(look("control", "day"), add("receipt", "third", "4.00")),),
        (put("control", "day", 23),),
        (look("control", "day"), look("receipt", "first", "second", "third")),
    ),
    _receipt_goes_wrong,
    3,
)

# Each of two takes 200 from one of two accounts and then looks at what is in both. It goes wrong where neither sees
# what the other took.
TOTAL_CASH = Schedule(
    "total-cash",
    ("account",),
    rows("account", checking=600, savings=600),
    (
        (put("account", "checking", "value - 200"), look("account", "checking", "savings")),
        (put("account", "savings", "value - 200"), look("account", "checking", "savings")),
    ),
    lambda order, level: not order.sees(1, 1, 2, level) and not order.sees(2, 1, 1, level),
)

# A deposit to y, and a withdrawal from x that counts without it. Somebody reads both. It goes wrong where he sees the
# deposit and not the withdrawal, which has to be before the deposit, since it did not see it.
READ_ONLY_ANOMALY = Schedule(
    "read-only-anomaly",
    ("account",),
    rows("account", x=0, y=0),
    (
        (look("account", "y"), put("account", "y", 20)),
        (look("account", "x"), look("account", "y"), put("account", "x", -11)),
        (look("account", "x", "y"),),
    ),
    lambda order, level: not order.sees(2, 1, 1, level)
    and order.sees(3, 0, 1, level)
    and not order.sees(3, 0, 2, level),
    3,
)

# Two add to a balance that both have read.
LOST_UPDATE = Schedule(
    "lost update",
    ("account",),
    rows("account", x=100),
    ((look("account", "x"), put("account", "x", 110)), (look("account", "x"), put("account", "x", 120))),
    lambda order, level: not order.sees(1, 0, 2, level) and not order.sees(2, 0, 1, level),
)

# Two are on call, and each goes home since the other is there.
WRITE_SKEW = Schedule(
    "write skew",
    ("doctor",),
    rows("doctor", anna=1, bert=1),
    (
        (look("doctor", "anna", "bert"), put("doctor", "anna", 0)),
        (look("doctor", "anna", "bert"), put("doctor", "bert", 0)),
    ),
    lambda order, level: not order.sees(1, 0, 2, level) and not order.sees(2, 0, 1, level),
)


# What the cycle of updates that go wrong is called.
CYCLES = {"total-cash": "write skew", "lost update": "lost update", "write skew": "write skew"}


def is_kept_by(schedule, level):
    """Whether a level keeps a schedule from going wrong, by refusing a session: serializable always does, and
    repeatable read does where two write one row."""
    return level == "serializable" or (level == "repeatable read" and schedule is LOST_UPDATE)


class Player:
    """Plays orders of a schedule at a level, on connections that are recorded: rows of as many orders as are given
    are made first."""

    def __init__(self, dsn, schedule, level, count):
        self.schedule = schedule
        with psycopg2.connect(dsn) as plain, plain.cursor() as cursor:
            for table in schedule.tables:
                cursor.execute(f"drop table if exists {table}")
                cursor.execute(f"create table {table}(n int, what text, value numeric(13,2), primary key (n, what))")
            for number in range(count):
                cursor.execute(schedule.rows, {"n": number})
            for table in schedule.tables:
                cursor.execute(f"analyze {table}")
        plain.close()
        self.recorder = Recorder(dsn, [Table(table, ("n", "what"), "value", 2) for table in schedule.tables])
        self.connections = [None]
        for session in range(1, len(schedule.sessions) + 1):
            connection = self.recorder.connect(f"s{session}")
            connection.set_session(isolation_level=level, readonly=session == schedule.reporter)
            connection.cursor().execute(f"set lock_timeout = '{PATIENCE}'")
            connection.commit()
            self.connections.append(connection)

    def play(self, number, order):
        """Plays an order. Answers `refused` where the server refused a session, `waits` where one waited for another
        in vain, and else `done`."""
        at, gone, how = [0] * len(self.connections), set(), "done"
        for session in order:
            if session not in gone:
                try:
                    self.step(session, at[session], number)
                except (SerializationFailure, LockNotAvailable) as error:
                    self.connections[session].rollback()
                    gone.add(session)
                    how = "waits" if isinstance(error, LockNotAvailable) else "refused"
            at[session] += 1
        return how

    def step(self, session, place, number):
        connection, steps = self.connections[session], self.schedule.sessions[session - 1]
        if place == len(steps):
            connection.commit()
            return
        cursor = connection.cursor()
        for statement in steps[place].statements:
            cursor.execute(statement, {"n": number})
        cursor.covers(steps[place].table, [(number, name) for name in steps[place].names])

    def finish(self):
        for connection in self.connections[1:]:
            connection.close()
        return self.recorder.finish()


@dataclasses.dataclass(frozen=True)
class Played:
    """An order that was played: whether the server refused a session, and how far off the report is, in hundredths,
    or the cycle of its updates."""

    order: Order
    is_refused: bool
    distance: int = 0
    cycle: typing.Any = None

    @property
    def went_wrong(self):
        return self.distance > 0 or self.cycle is not None


def played_together(dsn, schedule, level, audited):
    """Plays all orders of a schedule with a report, whose updates never make a cycle, as one record; `audited` audits
    it."""
    orders = schedule.orders()
    player = Player(dsn, schedule, level, len(orders))
    ends = [player.play(number, order) for number, order in enumerate(orders)]
    assert "waits" not in ends
    distances = {}
    for told in audited(player.finish()).reports:
        # (the number of the order is in the keys of what the report read)
        number = told.placed.reads[0].item.split("/")[1].split(",")[0]
        distances[int(number)] = told.finding.distance
    return [
        Played(order, end == "refused", distances.get(number, 0))
        for number, (order, end) in enumerate(zip(orders, ends))
    ]


def played_apart(dsn, schedule, level):
    """Executes each order of a schedule of two updates as a separate record; orders in which one waits are omitted."""
    for order in schedule.orders():
        player = Player(dsn, schedule, level, 1)
        end = player.play(0, order)
        record = player.finish()
        if end != "waits":
            cycle = None
            try:
                history_of(record)
            except NotSerializable as error:
                (cycle,) = error.cycles
            yield Played(order, end == "refused", cycle=cycle)
