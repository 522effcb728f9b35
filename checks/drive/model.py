"""A plain model of the machine, for drive files: as slow as it likes, and short enough to read."""

import itertools

TOP = 10**12  # the largest value of an item
MAX_LIMIT = 10**18
TURNS = 100


class Transaction:
    def __init__(self, name, kind, limit, must):
        self.name, self.kind, self.limit = name, kind, limit
        self.must = must  # numbers of updates that an audit of a strict query may not leave out
        self.state = "active"
        self.reads = []  # (item, value) in order
        self.charged = 0  # import of a query, export of an update


class Machine:
    """Answers events one after another, and keeps what an audit needs."""

    def __init__(self, values, weights):
        self.weights = list(weights)
        self.opening = list(values)
        self.current = list(values)
        self.committed = list(values)
        self.transactions = []  # number - 1
        self.operations = []  # accepted (number, item, value, writes) in order
        self.commits = []  # numbers, in order
        self.entries = 0

    def of(self, number):
        return self.transactions[number - 1] if 1 <= number <= len(self.transactions) else None

    def distance(self, item, a, b):
        return self.weights[item] * abs(a - b)

    def holds(self, number, item, reads, writes):
        """Whether an active transaction has a lock on the item."""
        if self.of(number).state != "active":
            return False
        return any(t == number and x == item and (w and writes or not w and reads) for t, x, _, w in self.operations)

    def first_update(self, item, but, reads):
        """The smallest other active update with a lock that is in the way."""
        for number, txn in enumerate(self.transactions, 1):
            if number != but and txn.kind == "update" and self.holds(number, item, reads, True):
                return number
        return None

    def due(self, number, item, value):
        """The charges of a read (no value) or of a write, as (query, update, amount) by ascending queries."""
        txn = self.of(number)
        if value is None:
            writer = self.first_update(item, 0, False)
            if txn.kind == "query" and writer is not None:
                return [(number, writer, self.distance(item, self.current[item], self.committed[item]))]
            return []
        charges = []
        for query, other in enumerate(self.transactions, 1):
            count = sum(1 for t, x, _, w in self.operations if t == query and x == item and not w)
            if other.kind == "query" and other.state == "active" and count > 0:
                charges.append((query, number, count * self.distance(item, value, self.current[item])))
        return charges

    def why_not(self, charges):
        """The refusal of charges that pass a limit."""
        for query, _, amount in charges:
            if self.of(query).charged + amount > self.of(query).limit:
                return ("blocked", 10, "import", query)
        for _, update, _ in charges:
            if self.of(update).charged + sum(amount for _, _, amount in charges) > self.of(update).limit:
                return ("blocked", 11, "export", update)
        return None

    def refusal(self, event):
        """The first reason to refuse the event, or None."""
        word = event[0]
        if word == "begin":
            if event[2] > MAX_LIMIT:
                return ("refused", 6)
            return ("refused", 7) if len(self.transactions) >= 65535 else None
        txn = self.of(event[1])
        if txn is None:
            return ("refused", 1)
        if txn.state != "active":
            return ("refused", 2)
        if word in ("commit", "abort"):
            return None
        item = event[2]
        if item is None:
            return ("refused", 3)
        if word == "read":
            if txn.kind == "query" and len(txn.reads) >= 1000:
                return ("refused", 8)
            holder = self.first_update(item, event[1], False) if txn.kind == "update" else None
        else:
            if txn.kind == "query":
                return ("refused", 4)
            if abs(event[3]) > TOP:
                return ("refused", 5)
            holder = self.first_update(item, event[1], True)
        if holder is not None:
            return ("blocked", 9, "lock", holder)
        return self.why_not(self.due(event[1], item, event[3] if word == "write" else None))

    def reply(self, event):
        """The reply, without any change."""
        refused = self.refusal(event)
        if refused is not None:
            return refused
        word = event[0]
        if word == "begin":
            return ("begun", len(self.transactions) + 1)
        if word == "read":
            return ("value", self.current[event[2]])
        return {"write": ("wrote",), "commit": ("committed",), "abort": ("aborted",)}[word]

    def step(self, event):
        """The reply, with what it changes."""
        reply = self.reply(event)
        self.entries += 1
        if reply[0] in ("refused", "blocked"):
            return reply
        word = event[0]
        if word == "begin":
            must = [t for t in self.commits if self.of(t).kind == "update"] if event[4] else []
            self.transactions.append(Transaction(event[3], event[1], event[2], must))
            return reply
        number, txn = event[1], self.of(event[1])
        if word in ("read", "write"):
            for query, update, amount in self.due(number, event[2], event[3] if word == "write" else None):
                self.of(query).charged += amount
                self.of(update).charged += amount
        if word == "read":
            txn.reads.append((event[2], reply[1]))
            self.operations.append((number, event[2], reply[1], False))
        elif word == "write":
            self.current[event[2]] = event[3]
            self.operations.append((number, event[2], event[3], True))
        else:
            self.end(number, word)
        return reply

    def end(self, number, word):
        """Commits or aborts."""
        self.of(number).state = "committed" if word == "commit" else "aborted"
        if word == "commit":
            self.commits.append(number)
        for t, x, value, writes in self.operations:
            if t == number and writes:
                if word == "commit":
                    self.committed[x] = value
                else:
                    self.current[x] = self.committed[x]

    def audit(self, query):
        """The least distance of a committed query, its import, and its smallest least set, by listing all closed sets."""
        before = [t for t in self.commits[: self.commits.index(query)] if self.of(t).kind == "update"]
        ops = [o for o in self.operations if o[0] in before]
        pairs = {(a[0], b[0]) for a, b in itertools.combinations(ops, 2) if a[0] != b[0] and a[1] == b[1] and (a[3] or b[3])}
        best, sets = None, []
        for size in range(len(before) + 1):
            for part in itertools.combinations(before, size):
                if any(v in part and u not in part for u, v in pairs) or not set(self.of(query).must) <= set(part):
                    continue
                values = list(self.opening)
                for t in part:
                    for u, x, value, writes in self.operations:
                        if u == t and writes:
                            values[x] = value
                cost = sum(self.distance(x, value, values[x]) for x, value in self.of(query).reads)
                if best is None or cost < best:
                    best, sets = cost, []
                if cost == best:
                    sets.append(set(part))
        least = set.intersection(*sets)
        return best, self.of(query).charged, [t for t in before if t in least]

    def totals(self):
        """The sums of all imports and of all exports, and the number of entries."""
        by_kind = {"query": 0, "update": 0}
        for txn in self.transactions:
            by_kind[txn.kind] += txn.charged
        return by_kind["query"], by_kind["update"], self.entries
