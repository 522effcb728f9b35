#!/usr/bin/env python3
"""Runs generated drive files again and again, and checks each text that comes.

    check_texts.py [--files N] [--runs N] [--seed N] [PROGRAM WORD ..]

The program reads a drive file and writes its text; without one it is `crates/esr/out/esr drive`. The files are
generated from a fixed seed, with 1 to 16 blocks each.

* Of every text: its lines are those of the file, each reply is possible for its line and the lines of its block before
  it, the numbers of transactions are 1, 2, .. once each, a value that was read was written or opened, each committed
  query has one audit line whose distance is at most its import and at most its limit, and the imports add up.
* Of a file with one block: the text is the plain model's, to the byte.
* Of a text of a few blocks: an order of the lines is looked for by which the plain model gives each reply, each audit
  and the totals. A text that no order gives is a mistake. Where the search ends at its bound, the text is counted as not
  explained.
"""

import argparse
import copy
import pathlib
import random
import subprocess
import sys

from model import MAX_LIMIT, TOP, TURNS, Machine

ROOT = pathlib.Path(__file__).resolve().parent.parent.parent
MAX_NODES = 4000


# ---- files


def generated(number, seed):
    """A drive file as (items, blocks): blocks are lists of lines as tuples of words."""
    chance = random.Random(f"{seed} {number}")
    count = 1 if number % 5 == 0 else chance.randint(1, 16)
    items = [(f"i{x}", chance.randint(-50, 50), chance.choice([None, None, 1, 3, 1000])) for x in range(chance.randint(1, 5))]
    return items, [block(chance, k, [item[0] for item in items]) for k in range(count)]


def block(chance, k, items):
    """The lines of a block: transactions that interleave, with a mistake now and then."""
    lines = []
    for t in range(chance.randint(1, 3)):
        name, kind = f"t{k}_{t}", chance.choice(["update", "query"])
        limit = chance.choice([0, 5, 30, 10**6, MAX_LIMIT, MAX_LIMIT + 1 if chance.random() < 0.2 else 100])
        own = [("begin", name, kind, str(limit)) + (("strict",) if kind == "query" and chance.random() < 0.3 else ())]
        for _ in range(chance.randint(0, 5)):
            item = "none" if chance.random() < 0.03 else chance.choice(items)
            if chance.random() < (0.6 if kind == "update" else 0.05):
                value = TOP + 1 if chance.random() < 0.03 else chance.randint(-60, 60)
                own.append(("write", name, item, str(value)))
            else:
                own.append(("read", name, item))
        if chance.random() < 0.9:
            own.append((chance.choice(["commit", "commit", "commit", "abort"]), name))
        if chance.random() < 0.1:
            own.append(("commit", f"t{chance.randint(0, k)}_0"))
        at = 0
        for line in own:
            at = chance.randint(at, len(lines)) if chance.random() < 0.5 else len(lines)
            lines.insert(at, line)
            at += 1
    return lines


def item_line(name, value, weight):
    """The line of an item, in a file and in a text."""
    return f"item {name} {value}" + ("" if weight is None else f" weight {weight}")


def machine_of(items):
    """The model's machine with these items."""
    return Machine([value for _, value, _ in items], [1 if weight is None else weight for _, _, weight in items])


def places_of(items):
    """The number of each item, by its name."""
    return {item[0]: x for x, item in enumerate(items)}


def file_text(items, blocks):
    """The bytes of a drive file."""
    lines = [item_line(*item) for item in items]
    for lines_of_block in blocks:
        lines.append("session")
        lines.extend(" ".join(line) for line in lines_of_block)
    return "".join(line + "\n" for line in lines).encode()


# ---- replies and their lines


def event(line, numbers, items):
    """The event of a line, by the numbers that names got so far in its block."""
    if line[0] == "begin":
        return ("begin", line[2], int(line[3]), line[1], line[4:] == ("strict",))
    number = numbers.get(line[1], 0)
    if line[0] in ("commit", "abort"):
        return (line[0], number)
    item = items.get(line[2])
    return ("read", number, item) if line[0] == "read" else ("write", number, item, int(line[3]))


WHY = {1: "no such transaction", 2: "already ended", 3: "no such item", 4: "a query may not write", 5: "value out of range",
       6: "limit out of range", 7: "too many transactions", 8: "too many reads"}


def line_of(line, reply, name_of):
    """The text of a reply to a line."""
    if reply[0] == "begun":
        return f"begun {line[1]} {reply[1]}"
    if reply[0] == "value":
        return f"{line[1]} {line[2]} {reply[1]}"
    if reply[0] == "wrote":
        return f"wrote {line[1]} {line[2]} {line[3]}"
    if reply[0] == "refused":
        return f"refused {reply[1]} {WHY[reply[1]]}"
    if reply[0] == "blocked":
        return f"blocked {reply[1]} {reply[2]} {name_of(reply[3])}"
    return f"{reply[0]} {line[1]}"


def audit_line(machine, query):
    """The line of what the audit finds of a committed query."""
    distance, charged, before = machine.audit(query)
    names = ",".join(machine.of(number).name for number in before)
    return f"audit {machine.of(query).name} distance {distance} import {charged} before {names or '-'}"


def committed_queries(machine):
    """The numbers of the committed queries, in the order of their commits."""
    return [number for number in machine.commits if machine.of(number).kind == "query"]


def totals_line(machine):
    """The line of the totals."""
    imports, exports, entries = machine.totals()
    return f"totals import {imports} export {exports} entries {entries}"


def model_text(items, blocks):
    """The text of a file of one block, by the plain model."""
    machine, numbers, places = machine_of(items), {}, places_of(items)
    lines = [item_line(*item) for item in items]
    for k, lines_of_block in enumerate(blocks):
        lines.append(f"session {k}")
        for line in lines_of_block:
            reply = machine.step(event(line, numbers, places))
            if reply[0] == "blocked":
                machine.entries += TURNS - 1
            if reply[0] == "begun":
                numbers[line[1]] = reply[1]
            lines.append(line_of(line, reply, lambda number: machine.of(number).name))
    audits = [audit_line(machine, query) for query in committed_queries(machine)]
    return "".join(line + "\n" for line in lines + audits + [totals_line(machine)]).encode()


# ---- what holds of every text


class Mistake(Exception):
    pass


def expect(holds, what):
    if not holds:
        raise Mistake(what)


def parts_of(text, items, blocks):
    """The lines of the blocks, of the audits, and of the totals."""
    lines = text.decode().split("\n")
    expect(lines.pop() == "", "the text ends with a line feed")
    for item in items:
        expect(lines.pop(0) == item_line(*item), "item lines")
    answers = []
    for k, lines_of_block in enumerate(blocks):
        expect(lines.pop(0) == f"session {k}", f"session {k}")
        expect(len(lines) > len(lines_of_block), "a line for each line")
        answers.append([lines.pop(0) for _ in lines_of_block])
    totals = lines.pop()
    expect(all(line.startswith("audit ") for line in lines), "audit lines")
    return answers, lines, totals


def check_reply(line, answer, block_state, file_state):
    """Whether the answer is possible, by what the block has answered so far."""
    begun, ended, reads = block_state
    kinds, values, names = file_state
    words = answer.split(" ")
    if line[0] == "begin":
        if int(line[3]) > MAX_LIMIT:
            expect(answer == "refused 6 limit out of range", answer)
        else:
            expect(words[:2] == ["begun", line[1]] and words[2].isdigit(), answer)
            begun[line[1]] = int(words[2])
        return
    name = line[1]
    if name not in begun:
        expect(answer == "refused 1 no such transaction", answer)
    elif name in ended:
        expect(answer == "refused 2 already ended", answer)
    elif line[0] in ("commit", "abort"):
        expect(answer == ("committed " if line[0] == "commit" else "aborted ") + name, answer)
        ended[name] = line[0]
    elif line[2] not in values:
        expect(answer == "refused 3 no such item", answer)
    elif line[0] == "write" and kinds[name] == "query":
        expect(answer == "refused 4 a query may not write", answer)
    elif line[0] == "write" and abs(int(line[3])) > TOP:
        expect(answer == "refused 5 value out of range", answer)
    elif words[0] == "blocked":
        other = words[3]
        expect(words[1:3] in (["9", "lock"], ["10", "import"], ["11", "export"]) and other in names, answer)
        kind = kinds[other]
        expect(kind == ("query" if words[1] == "10" else "update"), answer)
        expect(words[1] != "9" or (other != name and kinds[name] == "update"), answer)
    elif line[0] == "write":
        expect(answer == f"wrote {name} {line[2]} {line[3]}", answer)
        reads[name, line[2]] = line[3]
    else:
        expect(words[:2] == [name, line[2]] and words[2] in values[line[2]], answer)
        if kinds[name] == "update":
            expect(reads.setdefault((name, line[2]), words[2]) == words[2], f"{answer}: an update reads what it read or wrote")


def check_text(text, items, blocks):
    """What must hold of every text. Returns the answers, the audit lines and the totals."""
    answers, audits, totals = parts_of(text, items, blocks)
    kinds = {line[1]: line[2] for lines in blocks for line in lines if line[0] == "begin"}
    limits = {line[1]: int(line[3]) for lines in blocks for line in lines if line[0] == "begin"}
    values = {name: {str(value)} for name, value, _ in items}
    for lines, said in zip(blocks, answers):
        for line, answer in zip(lines, said):
            if answer.startswith("wrote "):
                values[line[2]].add(line[3])
    names = {answer.split(" ")[1] for said in answers for answer in said if answer.startswith("begun ")}
    numbers, committed, least, most = [], set(), 0, 0
    for lines, said in zip(blocks, answers):
        begun, ended = {}, {}
        state = (begun, ended, {})
        for line, answer in zip(lines, said):
            check_reply(line, answer, state, (kinds, values, names))
            blocked = answer.startswith("blocked ")
            least += TURNS if blocked else 1
            most += TURNS
        numbers += begun.values()
        committed |= {name for name, how in ended.items() if how == "commit"}
    expect(sorted(numbers) == list(range(1, len(numbers) + 1)), "numbers of transactions")
    queries = [line.split(" ")[1] for line in audits]
    expect(sorted(queries) == sorted(name for name in committed if kinds[name] == "query"), "an audit for each committed query")
    imported = 0
    for line in audits:
        word = line.split(" ")
        expect(word[2] == "distance" and word[4] == "import" and word[6] == "before" and len(word) == 8, line)
        expect(int(word[3]) <= int(word[5]) <= limits[word[1]], f"{line}: a distance within the import within the limit")
        before = [] if word[7] == "-" else word[7].split(",")
        expect(len(set(before)) == len(before), line)
        expect(all(name in committed and kinds[name] == "update" for name in before), f"{line}: committed updates")
        imported += int(word[5])
    word = totals.split(" ")
    expect(word[:2] == ["totals", "import"] and word[3] == "export" and word[5] == "entries" and len(word) == 7, totals)
    expect(word[2] == word[4] and int(word[2]) >= imported, f"{totals}: imports are exports")
    expect(least <= int(word[6]) <= most, f"{totals}: entries")
    return answers, audits, totals


# ---- an order that explains a text


def state_of(machine, at):
    """All that the replies and audits to come depend on."""
    operations = tuple(tuple(o for o in machine.operations if o[1] == x) for x in range(len(machine.opening)))
    transactions = tuple((t.charged, tuple(t.must)) for t in machine.transactions)
    return tuple(at), operations, transactions, tuple(machine.commits)


def audits_agree(machine, event, audits):
    """Returns whether the audit of a query that commits by this event is the one in the output."""
    if event[0] != "commit" or machine.of(event[1]) is None or machine.of(event[1]).kind != "query":
        return True
    queries = committed_queries(machine)
    return event[1] not in queries or audit_line(machine, event[1]) == audits[queries.index(event[1])]


def explained(items, blocks, answers, audits, totals):
    """Whether there is an order of the lines by which the model gives each answer, each audit and the totals: None where the
    search ends at its bound."""
    places, imports = places_of(items), totals.rsplit(" ", 1)[0]
    seen, nodes = set(), 0
    stack = [(machine_of(items), [0] * len(blocks), [{} for _ in blocks])]
    while stack and nodes < MAX_NODES:
        machine, at, numbers = stack.pop()
        nodes += 1
        if all(place == len(lines) for place, lines in zip(at, blocks)):
            if totals_line(machine).rsplit(" ", 1)[0] == imports:
                return True
            continue
        for k in reversed(range(len(blocks))):
            if at[k] == len(blocks[k]):
                continue
            line = blocks[k][at[k]]
            this = event(line, numbers[k], places)
            if line_of(line, machine.reply(this), lambda number: machine.of(number).name) != answers[k][at[k]]:
                continue
            after, places_after, numbers_after = copy.deepcopy(machine), list(at), [dict(n) for n in numbers]
            reply = after.step(this)
            if reply[0] == "begun":
                numbers_after[k][line[1]] = reply[1]
            places_after[k] += 1
            state = state_of(after, places_after)
            if state not in seen and audits_agree(after, this, audits):
                seen.add(state)
                stack.append((after, places_after, numbers_after))
    return None if stack else False


def main():
    parser = argparse.ArgumentParser(description=__doc__.split("\n")[0])
    parser.add_argument("--files", type=int, default=300)
    parser.add_argument("--runs", type=int, default=20)
    parser.add_argument("--seed", type=int, default=1)
    parser.add_argument("program", nargs="*", default=[str(ROOT / "crates/esr/out/esr"), "drive"])
    options = parser.parse_args()
    texts = distinct = searched = found = 0
    for number in range(options.files):
        items, blocks = generated(number, options.seed)
        data, known = file_text(items, blocks), set()
        for _ in range(options.runs):
            run = subprocess.run(options.program, input=data, capture_output=True, check=True)
            texts += 1
            if run.stdout in known:
                continue
            known.add(run.stdout)
            try:
                said = check_text(run.stdout, items, blocks)
                if len(blocks) == 1:
                    expect(run.stdout == model_text(items, blocks), "the plain model's text")
                if len(blocks) <= 4 and len(known) <= 3:
                    why = explained(items, blocks, *said)
                    expect(why is not False, "no order of the lines gives this text")
                    searched += 1
                    found += why is True
            except Mistake as mistake:
                sys.stdout.buffer.write(data + b"----\n" + run.stdout)
                sys.exit(f"file {number}: {mistake}")
        distinct += len(known)
    print(f"files {options.files} texts {texts} distinct {distinct}: all as they must be")
    print(f"searched {searched}, explained by an order of the lines {found}")


if __name__ == "__main__":
    main()
