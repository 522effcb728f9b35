"""Scripts whose pictures are at the edge: names and values of every length, few and many updates."""
import random

LIMIT = 10 ** 18


class Script:
    """A script that grows line by line, and keeps that its updates come one after another."""

    def __init__(self, items, weights=None):
        weight = lambda name: f" weight {weights[name]}" if weights else ""
        self.lines = [f"item {name} {value}{weight(name)}" for name, value in items]
        self.names = [name for name, _ in items]

    def query(self, name, strict=False):
        self.lines.append(f"begin {name} query {LIMIT}" + (" strict" if strict else ""))

    def read(self, txn, item):
        self.lines.append(f"read {txn} {item}")

    def update(self, name, writes, between=(), reads=()):
        """Adds an update with its reads and writes; each write is followed by the reads of `between` at its index."""
        self.lines.append(f"begin {name} update {LIMIT}")
        for item in reads:
            self.read(name, item)
        for place, (item, value) in enumerate(writes):
            self.lines.append(f"write {name} {item} {value}")
            for txn, read in between[place] if place < len(between) else ():
                self.read(txn, read)
        self.lines.append(f"commit {name}")

    def text(self):
        return "\n".join(self.lines) + "\n"


def rounds(count, lanes, name_width, large, twice=False):
    """Returns a report that reads `lanes` items among `count` updates, each of which moves an amount between two."""
    pad = lambda stem, i: (stem + str(i)).rjust(name_width, "W") if name_width else stem + str(i)
    value = lambda i: -10 ** 12 + i if large else 100 + i
    names = [pad("a", i) for i in range(lanes)]
    script = Script([(name, value(i)) for i, name in enumerate(names)])
    query = pad("q", 0)
    script.query(query)
    for i in range(count):
        first, second = names[i % lanes], names[(i + 1) % lanes]
        reads = [[(query, first)] if i % 3 == 0 else [], [(query, second)] if i % 3 == 1 or twice else []]
        script.update(pad("u", i), [(first, value(7 * i + 1)), (second, value(11 * i + 2))], reads)
    if count == 0:
        for name in names:
            script.read(query, name)
    script.lines.append(f"commit {query}")
    return script.text(), query


def random_script(seed):
    """A report among random updates."""
    pick = random.Random(seed)
    width = pick.choice([0, 0, 0, 16, 9])
    lanes = pick.randint(1, 12)
    stem = lambda letter, i: (letter + str(i)).ljust(width, pick.choice("Wim_9")) if width else letter + str(i)
    value = lambda: pick.choice([0, pick.randint(-999, 999), pick.randint(-10 ** 12, 10 ** 12), -10 ** 12])
    names = [stem("x", i) for i in range(lanes)]
    weights = {name: pick.choice([1, 2, 1000]) for name in names} if pick.random() < 0.3 else None
    script = Script([(name, value()) for name in names], weights)
    query = stem("q", 0)
    script.query(query, pick.random() < 0.2)
    for i in range(pick.choice([0, 1, 2, 3, 5, 8, 13, 30, 31, 40])):
        writes = [(pick.choice(names), value()) for _ in range(pick.randint(1, 4))]
        between = [[(query, pick.choice(names))] if pick.random() < 0.3 else [] for _ in writes]
        reads = [name for name in names if pick.random() < 0.1] if seed % 3 == 0 else []
        script.update(stem("u", i), writes, between, reads)
    for name in names:
        if pick.random() < 0.4:
            script.read(query, name)
    script.lines.append(f"commit {query}")
    return script.text(), query


def large_script():
    """Returns a report of 1,000 reads, concurrent with 20,000 updates."""
    names = [f"i{i}" for i in range(1000)]
    script = Script([(name, i) for i, name in enumerate(names)])
    script.query("q")
    for i in range(20000):
        reads = [[("q", names[i // 20])] if i % 20 == 0 else []]
        script.update(f"u{i}", [(names[(7 * i + j) % 1000], i + j) for j in range(4)], reads)
    script.lines.append("commit q")
    return script.text(), "q"


def one_item(count, reads):
    """Returns a report that reads, `reads` times, the one item that every update writes."""
    script = Script([("x", 0)])
    script.query("q")
    for i in range(count):
        script.update(f"u{i}", [("x", 5 * i)], [[("q", "x")] if i < reads else []])
    script.lines.append("commit q")
    return script.text(), "q"


def strict():
    """Returns a strict report after an update; the report reads a value that is never committed."""
    script = Script([("x", 0)])
    script.update("first", [("x", 5)])
    script.query("q", True)
    script.lines += [f"begin gone update {LIMIT}", "write gone x 9", "read q x", "abort gone"]
    script.update("last", [("x", 6)])
    script.lines.append("commit q")
    return script.text(), "q"


def follower(count):
    """Returns a report that reads a value of an update that was not charged, and that follows a charged one over `count` others."""
    script = Script([(f"x{i}", 100) for i in range(count + 2)])
    script.query("q")
    script.read("q", "x0")
    script.update("payer", [("x0", 900), ("x1", 300)])
    for i in range(count):
        script.update(f"follower{i}", [(f"x{i + 2}", 200)], reads=[f"x{i + 1}"])
    script.read("q", f"x{count + 1}")
    script.lines.append("commit q")
    return script.text(), "q"


def unwritten(count, written):
    """Returns a report that reads `count` items, of which two updates write some."""
    script = Script([(f"x{i}", 100) for i in range(count)])
    script.query("q")
    for i in range(count // 2):
        script.read("q", f"x{i}")
    script.update("first", [(f"x{i}", 200) for i in range(written)])
    script.update("second", [(f"x{i}", 300) for i in range(written)], reads=["x0"])
    for i in range(count // 2, count):
        script.read("q", f"x{i}")
    script.read("q", "x0")
    script.lines.append("commit q")
    return script.text(), "q"


def hidden(count, reads):
    """Returns a report that reads a few values of each of some items in the middle of `count` updates of all of them."""
    names = [f"account_{i:08}" for i in range(9)]
    script = Script([(name, 10 ** 12) for name in names])
    script.query("the_whole_report")
    for i in range(count):
        writes = [(name, 10 ** 12 - i * (place + 1)) for place, name in enumerate(names)]
        between = [[("the_whole_report", names[i % 9])] if i % reads == 0 else []]
        script.update(f"transfer_{i:07}", writes, between)
    script.lines.append("commit the_whole_report")
    return script.text(), "the_whole_report"


def shared(count, scale, name_width):
    """Returns a report next to another one: an update that charges both, mostly the other one, is refused because of its limit, and
    `count` updates charge both."""
    pad = lambda stem: stem.rjust(name_width, "W")
    a, b, query, other, poor = pad("a"), pad("b"), pad("q"), pad("other"), pad("poor")
    script = Script([(a, 0), (b, 0)])
    script.query(query)
    script.query(other)
    script.read(other, a)
    script.read(query, b)
    script.lines += [f"begin {poor} update {120 * scale}", f"write {poor} {a} {61 * scale}", f"write {poor} {b} {9 * scale}"]
    script.lines += [f"write {poor} {b} {70 * scale}", f"commit {poor}"]
    for i in range(count):
        script.update(pad(f"u{i}"), [(b, (30 + i) * scale), (a, (70 - i) * scale)], [[], [(query, a)] if i % 2 else []])
    script.lines += [f"commit {query}", f"commit {other}"]
    return script.text(), query


def errors(count):
    """A report in a script with `count` lines with errors, which contain letters that markup reserves."""
    text, query = rounds(6, 3, 0, False)
    return text + "".join(f"<a href='&{number}'>{'x' * 70}\n" for number in range(count)), query


def edges():
    """Each edge: a name of it, a script, and the query."""
    yield ("no_update",) + rounds(0, 3, 0, False)
    yield ("no_read",) + rounds(0, 0, 0, False)
    for count in (1, 2, 4, 30, 31, 200):
        yield (f"updates_{count}",) + rounds(count, 5, 0, False)
        yield (f"longest_{count}",) + rounds(count, 5, 16, True)
    yield ("twice",) + rounds(6, 3, 0, False, True)
    yield ("twice_longest",) + rounds(6, 3, 16, True, True)
    yield ("items_400",) + rounds(20, 40, 0, False)
    yield ("items_many",) + rounds(900, 300, 0, False)
    yield ("unwritten_all",) + unwritten(4, 0)
    yield ("unwritten_one",) + unwritten(4, 3)
    yield ("unwritten_many",) + unwritten(15, 3)
    yield ("hidden",) + hidden(180, 20)
    yield ("hidden_often",) + hidden(90, 2)
    yield ("strict",) + strict()
    yield ("follower",) + follower(1)
    yield ("follower_far",) + follower(20)
    for count in (2, 40):
        yield (f"shared_{count}",) + shared(count, 1, 0)
        yield (f"shared_longest_{count}",) + shared(count, 10 ** 10, 16)
    yield ("error",) + errors(1)
    yield ("errors",) + errors(9)
    yield ("one_item",) + one_item(12, 1)
    yield ("one_item_often",) + one_item(12, 12)
    yield ("one_item_long",) + one_item(3000, 3)
    yield ("large",) + large_script()
