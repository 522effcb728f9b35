"""What `docs/FORMATS.md` says of scripts and of drive files, as a plain program.

Written from that page alone. It is as slow as it likes, and short enough to read: an audit lists
every set of updates that a placement can have before its position.
"""

import itertools
import re

MAX_LINES = 2_000_000
LONGEST_LINE = 200
MAX_VALUE = 10**12
MAX_LIMIT = 10**18
MAX_WEIGHT = 1_000
MAX_ITEMS = 4_096
MAX_TRANSACTIONS = 65_535
MAX_READS = 1_000
MAX_ENTRIES = 1_000_000
MAX_BLOCKS = 64
TURNS = 100

NAME = rb"[A-Za-z][A-Za-z0-9_]{0,15}"
INT = rb"0|-?[1-9][0-9]{0,17}"
LIMIT = rb"0|[1-9][0-9]{0,18}"

REFUSALS = {
    1: "no such transaction",
    2: "already ended",
    3: "no such item",
    4: "a query may not write",
    5: "value out of range",
    6: "limit out of range",
    7: "too many transactions",
    8: "too many reads",
}
ERRORS = {
    1: "not a command",
    2: "items are closed",
    3: "name in use",
    4: "value out of range",
    5: "too many items",
    6: "not a committed query",
    7: "weight out of range",
}


def spelling(*words):
    """What spells these words with a blank between each two and none at the ends."""
    return re.compile(rb" ".join(rb"(" + word + rb")" for word in words), re.DOTALL)


SPELLINGS = [
    ("item", spelling(b"item", NAME, INT)),
    ("weighted item", spelling(b"item", NAME, INT, b"weight", LIMIT)),
    ("begin", spelling(b"begin", NAME, b"update|query", LIMIT)),
    ("strict begin", spelling(b"begin", NAME, b"query", LIMIT, b"strict")),
    ("read", spelling(b"read", NAME, NAME)),
    ("write", spelling(b"write", NAME, NAME, INT)),
    ("commit", spelling(b"commit", NAME)),
    ("abort", spelling(b"abort", NAME)),
    ("audit", spelling(b"audit", NAME)),
    ("totals", spelling(b"totals")),
    ("session", spelling(b"session")),
]


def command(line):
    """The kind and the words of the command that a line spells, or None."""
    for kind, form in SPELLINGS:
        found = form.fullmatch(line)
        if found:
            return kind, [word.decode() for word in found.groups()[1:]]
    return None


def lines_of(text):
    lines = text.split(b"\n")
    return lines[:-1] if lines[-1] == b"" else lines


def is_skipped(line):
    return line == b"" or line.startswith(b"#")


class Transaction:
    def __init__(self, name, kind, limit, must):
        self.name, self.kind, self.limit, self.must = name, kind, limit, must
        self.state = "active"
        self.reads = []  # (item, value), in order
        self.charged = 0  # the import of a query, the export of an update


class Machine:
    """Answers events one after another, and keeps what an audit needs."""

    def __init__(self):
        self.weights, self.opening, self.current, self.committed = [], [], [], []
        self.transactions = []  # by number, from 1
        self.operations = []  # accepted: (number, item, value, whether it writes)
        self.commits = []  # numbers
        self.entries = 0

    def declare(self, value, weight):
        self.weights.append(weight)
        for values in (self.opening, self.current, self.committed):
            values.append(value)

    def distance(self, item, one, other):
        return self.weights[item] * abs(one - other)

    def transaction(self, number):
        return self.transactions[number - 1] if number else None

    def holders(self, item, kinds):
        """The active updates that have an accepted operation of one of these kinds on the item."""
        found = {
            number
            for number, on, _, writes in self.operations
            if on == item and writes in kinds and self.transaction(number).state == "active"
        }
        return sorted(number for number in found if self.transaction(number).kind == "update")

    def due(self, number, item, value):
        """What a read (of no value) or a write would be charged: (query, update, amount)."""
        if value is None:
            writers = self.holders(item, (True,)) if self.transaction(number).kind == "query" else []
            lag = self.distance(item, self.current[item], self.committed[item])
            return [(number, writer, lag) for writer in writers]
        charges = []
        for query, other in enumerate(self.transactions, 1):
            reads = sum(1 for on, _ in other.reads if on == item)
            if other.kind == "query" and other.state == "active" and reads:
                amount = reads * self.distance(item, value, self.current[item])
                charges.append((query, number, amount))
        return charges

    def over_a_limit(self, charges):
        for query, _, amount in charges:
            account = self.transaction(query)
            if account.charged + amount > account.limit:
                return f"blocked 10 import {account.name}"
        for _, update, _ in charges:
            account = self.transaction(update)
            if account.charged + sum(amount for _, _, amount in charges) > account.limit:
                return f"blocked 11 export {account.name}"
        return None

    def refused(self, number, item, value, word):
        """The first reason against an event of a transaction, or None."""
        account = self.transaction(number)
        writes = word == "write"
        if account is None:
            return 1
        if account.state != "active":
            return 2
        if word in ("commit", "abort"):
            return None
        if item is None:
            return 3
        if writes and account.kind == "query":
            return 4
        if writes and abs(value) > MAX_VALUE:
            return 5
        if account.kind == "query" and len(account.reads) >= MAX_READS:
            return 8
        return None

    def blocked(self, number, item, value):
        kinds = (True,) if value is None else (True, False)
        if self.transaction(number).kind == "update":
            others = [holder for holder in self.holders(item, kinds) if holder != number]
            if others:
                return f"blocked 9 lock {self.transaction(others[0]).name}"
        return self.over_a_limit(self.due(number, item, value))

    def begin(self, name, kind, limit, is_strict):
        """The answer to a begin."""
        self.entries += 1
        if limit > MAX_LIMIT:
            return "refused 6 limit out of range"
        if len(self.transactions) >= MAX_TRANSACTIONS:
            return "refused 7 too many transactions"
        must = self.committed_updates() if is_strict else []
        self.transactions.append(Transaction(name, kind, limit, must))
        return f"begun {name} {len(self.transactions)}"

    def event(self, word, number, name, item, item_name, value):
        """The answer to a read, a write, a commit or an abort."""
        self.entries += 1
        reason = self.refused(number, item, value, word)
        if reason:
            return f"refused {reason} {REFUSALS[reason]}"
        if word in ("commit", "abort"):
            self.end(number, word)
            return f"committed {name}" if word == "commit" else f"aborted {name}"
        blocked = self.blocked(number, item, value)
        if blocked:
            return blocked
        for query, update, amount in self.due(number, item, value):
            self.transaction(query).charged += amount
            self.transaction(update).charged += amount
        if word == "write":
            self.operations.append((number, item, value, True))
            self.current[item] = value
            return f"wrote {name} {item_name} {value}"
        self.operations.append((number, item, self.current[item], False))
        self.transaction(number).reads.append((item, self.current[item]))
        return f"{name} {item_name} {self.current[item]}"

    def end(self, number, word):
        self.transaction(number).state = "committed" if word == "commit" else "aborted"
        if word == "commit":
            self.commits.append(number)
        for t, item, value, writes in self.operations:
            if t == number and writes and word == "commit":
                self.committed[item] = value
            elif t == number and writes:
                self.current[item] = self.committed[item]

    def committed_updates(self):
        return [number for number in self.commits if self.transaction(number).kind == "update"]

    def committed_queries(self):
        return [number for number in self.commits if self.transaction(number).kind == "query"]

    def audit(self, query):
        """The answer to an audit of a committed query."""
        account = self.transaction(query)
        earlier = self.commits[: self.commits.index(query)]
        updates = [number for number in self.committed_updates() if number in earlier]
        mine = [operation for operation in self.operations if operation[0] in updates]
        pairs = {
            (one[0], other[0])
            for one, other in itertools.combinations(mine, 2)
            if one[0] != other[0] and one[1] == other[1] and (one[3] or other[3])
        }
        costs = {}
        for size in range(len(updates) + 1):
            for chosen in itertools.combinations(updates, size):
                if any(v in chosen and u not in chosen for u, v in pairs):
                    continue
                if all(update in chosen for update in account.must):
                    costs[chosen] = self.cost(account, mine, chosen)
        least = min(costs.values())
        sets = [set(chosen) for chosen, cost in costs.items() if cost == least]
        smallest = set.intersection(*sets)
        names = ",".join(self.transaction(update).name for update in updates if update in smallest)
        charged = f"import {account.charged}"
        return f"audit {account.name} distance {least} {charged} before {names or '-'}"

    def cost(self, account, operations, chosen):
        values = list(self.opening)
        for number, item, value, writes in operations:
            if number in chosen and writes:
                values[item] = value
        return sum(self.distance(item, value, values[item]) for item, value in account.reads)

    def totals(self):
        sums = {"query": 0, "update": 0}
        for account in self.transactions:
            sums[account.kind] += account.charged
        return f"totals import {sums['query']} export {sums['update']} entries {self.entries}"


class Script:
    """The state of a script between two lines."""

    def __init__(self):
        self.machine = Machine()
        self.items, self.names = {}, {}
        self.is_closed = False

    def item(self, name, value, weight):
        errors = {
            2: self.is_closed,
            3: name in self.items,
            4: abs(value) > MAX_VALUE,
            5: len(self.items) >= MAX_ITEMS,
            7: weight is not None and not 1 <= weight <= MAX_WEIGHT,
        }
        for error, applies in errors.items():
            if applies:
                return f"error {error} {ERRORS[error]}"
        self.items[name] = len(self.items)
        self.machine.declare(value, weight or 1)
        return f"item {name} {value}" + ("" if weight is None else f" weight {weight}")

    def begin(self, name, kind, limit, is_strict):
        if name in self.names:
            return f"error 3 {ERRORS[3]}"
        answer = self.machine.begin(name, kind, limit, is_strict)
        if answer.startswith("begun"):
            self.names[name] = len(self.machine.transactions)
        return answer

    def audit(self, name):
        number = self.names.get(name)
        if number not in self.machine.committed_queries():
            return f"error 6 {ERRORS[6]}"
        return self.machine.audit(number)

    def answer(self, line):
        """The answer to a line that is not skipped."""
        spelled = command(line)
        if spelled is None or spelled[0] == "session":
            return f"error 1 {ERRORS[1]}"
        kind, words = spelled
        if kind == "item":
            return self.item(words[0], int(words[1]), None)
        if kind == "weighted item":
            return self.item(words[0], int(words[1]), int(words[3]))
        self.is_closed = True
        if kind in ("begin", "strict begin"):
            return self.begin(words[0], words[1], int(words[2]), kind == "strict begin")
        if kind == "audit":
            return self.audit(words[0])
        if kind == "totals":
            return self.machine.totals()
        item_name = words[1] if kind in ("read", "write") else None
        value = int(words[2]) if kind == "write" else None
        item = self.items.get(item_name)
        return self.machine.event(kind, self.names.get(words[0]), words[0], item, item_name, value)


def is_event(line):
    spelled = command(line)
    return spelled is not None and spelled[0] not in ("item", "weighted item", "audit", "totals")


def run(text):
    """The output of a script, the fault that ends it or None, and the state at the end."""
    script, output = Script(), []
    for place, line in enumerate(lines_of(text)):
        if place >= MAX_LINES:
            return output, "too many lines", script
        if len(line) > LONGEST_LINE:
            return output, "line too long", script
        if not is_skipped(line):
            output.append(script.answer(line))
    return output, None, script


def audit(text):
    """The output of the audit of a script, and its fault or None."""
    _, fault, script = run(text)
    if fault:
        return [], fault
    machine = script.machine
    order = ",".join(machine.transaction(number).name for number in machine.committed_updates())
    audits = [machine.audit(number) for number in machine.committed_queries()]
    return [f"order {order or '-'}", *audits, machine.totals()], None


# ---- the messages on standard error

FAULT = re.compile(
    r"esr: (read failed|write failed|line too long|out of memory|history full|too many lines|input too long"
    r"|not a committed query|receipts do not match|line \d+: error \d)\n"
)
AT_FAULT = re.compile(r"esr: (\d+) lines? (?:has an error|have errors).*")


def told(error):
    """The fault, if standard error is exactly its line, or None; and the number of lines with errors that is reported."""
    fault = FAULT.fullmatch(error.decode())
    counts = [int(found[1]) for found in map(AT_FAULT.fullmatch, error.decode().splitlines()) if found]
    return fault[1] if fault else None, sum(counts)


def at_fault(output):
    """Returns the number of lines of a script whose reply is an error."""
    return sum(line.startswith("error ") for line in output)


# ---- drive files


class Drive:
    """What a drive file says, once it has been looked over."""

    def __init__(self):
        self.script = Script()
        self.declared = []  # the answers to the item lines
        self.blocks = []
        self.begun = set()  # the names of all begin lines

    def error(self, line):
        """Returns the number of a line's error, or None after adding it to the plan."""
        spelled = command(line)
        kind, words = spelled or (None, [])
        if kind in ("item", "weighted item"):
            if self.blocks:
                return 2
            weight = int(words[3]) if kind == "weighted item" else None
            answer = self.script.item(words[0], int(words[1]), weight)
            if answer.startswith("error"):
                number = int(answer.split()[1])
                return 8 if number == 7 else number
            self.declared.append(answer)
            return None
        if kind == "session":
            if len(self.blocks) >= MAX_BLOCKS:
                return 7
            self.blocks.append([])
            return None
        if kind in (None, "audit", "totals") or not self.blocks:
            return 1
        if kind in ("begin", "strict begin"):
            if words[0] in self.begun:
                return 3
            self.begun.add(words[0])
        self.blocks[-1].append(line)
        return None


def planned(text):
    """The plan of a drive file, or the text of its fault."""
    plan = Drive()
    first = None
    for place, line in enumerate(lines_of(text)):
        if place >= MAX_LINES:
            return None, "too many lines"
        if len(line) > LONGEST_LINE:
            return None, "line too long"
        if first is None and not is_skipped(line):
            error = plan.error(line)
            first = f"line {place + 1}: error {error}" if error else None
    return (None, first) if first else (plan, None)


def drive_of_one_block(text):
    """The text of a drive file of one block or none, and its fault or None."""
    plan, fault = planned(text)
    if fault:
        return [], fault
    output = list(plan.declared)
    for block, lines in enumerate(plan.blocks):
        output.append(f"session {block}")
        for line in lines:
            answer = plan.script.answer(line)
            for _ in range(TURNS - 1):
                if answer.startswith("blocked"):
                    answer = plan.script.answer(line)
            output.append(answer)
    machine = plan.script.machine
    audits = [machine.audit(number) for number in machine.committed_queries()]
    return [*output, *audits, machine.totals()], None
