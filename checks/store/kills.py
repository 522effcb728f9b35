"""Kills a bank with a store by SIGKILL at random moments, reopens and compares it.

usage: kills.py [--planted FAULT] sqlite PATH TIMES
       kills.py [--planted FAULT] postgresql DSN TIMES

Eight threads transfer, two make reports, one takes snapshots, and one runs a function that raises an exception with what it
has read. Whatever a call has returned goes through a pipe. After each kill:

- the counter of a thread is the last transfer that was answered, or the one after it;
- each account is what the transfers up to the counters make it: none half, none twice, none missing;
- the store has every update that a finding places before its report, and whatever a snapshot or an exception has shown;
- no report is off by more than its distance, and each snapshot has the total.

A planted fault has to be found. They are: `early`, calls return before the store has their update; `reports`, the ends of
reports and exceptions do not wait; `split`, a write takes two transactions of the store; `order`, updates enter the queue in
another order than that of their commits. Each transaction of the store then takes at least PAUSE seconds, so that most kills
interrupt one.
"""

import os
import random
import signal
import subprocess
import sys
import threading
import time

from transfers import ACCOUNTS, COUNTERS, ITEMS, THREADS, TOTAL, Balances, demand, last_of, store_of, transfer

LIFETIME = 0.6
PAUSE = 0.02


def plant(fault):
    from esr._store import StoreQueue, Ticket

    write_changes = StoreQueue._write_changes

    def slow(queue, changes):
        time.sleep(PAUSE)
        return write_changes(queue, changes)

    def split(queue, changes):
        half = len(changes) // 2
        return (slow(queue, changes[:half]) if half else None) or slow(queue, changes[half:])

    def out_of_order(queue, changes):
        ticket = Ticket(changes)
        with queue._lock:
            queue._waiting.insert(random.randrange(len(queue._waiting) + 1), ticket)
            queue._filled.notify()
        return ticket

    StoreQueue._write_changes = slow
    if fault == "early":
        StoreQueue.wait = lambda queue, ticket: None
    elif fault == "reports":
        StoreQueue.wait_for_all = lambda queue: None
    elif fault == "split":
        StoreQueue._write_changes = split
    elif fault == "order":
        StoreQueue.enter = out_of_order
    else:
        raise SystemExit(f"no fault has the name {fault}")


def child(kind, place):
    """Runs a bank until it is killed."""
    from esr import Bank

    bank = Bank(ITEMS, store=store_of(kind, place))

    def say(*words):
        os.write(1, (" ".join(map(str, words)) + "\n").encode())

    def teller(thread):
        number = bank[COUNTERS[thread]]
        while True:
            number += 1
            transfer(bank, thread, number, stepwise=number % 4 == 0)
            say("answered", thread, number)

    def reporter():
        while True:
            with bank.report(10**12) as report:
                total = sum(report.read(name) for name in ACCOUNTS)
            finding = report.finding
            say("report", abs(total - TOTAL), finding.distance, finding.charged, *last_of(bank, finding.before))
            time.sleep(0.005)

    def watcher():
        while True:
            values = bank.snapshot()
            total = sum(values[name] for name in ACCOUNTS)
            say("snapshot", abs(total - TOTAL), 0, 0, *(values[name] for name in COUNTERS))
            time.sleep(0.003)

    def raiser():
        def body(update):
            raise ValueError([update.read(name) for name in COUNTERS])

        while True:
            try:
                bank.transact(0, body)
            except ValueError as why:
                say("exception", 0, 0, 0, *why.args[0])
            time.sleep(0.005)

    say("open")
    threads = [threading.Thread(target=teller, args=(k,)) for k in range(THREADS)]
    for thread in [*threads, *(threading.Thread(target=each) for each in (reporter, reporter, watcher, raiser))]:
        thread.start()


def killed(command, lifetime):
    """Runs a child for some seconds once it is open, kills it, and returns the lines that it wrote to its standard output."""
    reading, writing = os.pipe()
    process = subprocess.Popen(command, stdout=writing)
    os.close(writing)
    parts, until = [os.read(reading, 65536)], 0.0
    demand(parts[0], "the bank opens")
    thread = threading.Thread(target=read_all, args=(reading, parts))
    thread.start()
    until = time.monotonic() + lifetime
    while time.monotonic() < until:
        demand(process.poll() is None, "the bank runs until it is killed")
        time.sleep(0.001)
    process.send_signal(signal.SIGKILL)
    process.wait()
    thread.join()
    os.close(reading)
    return [line.split() for line in b"".join(parts).decode().splitlines()]


def read_all(reading, parts):
    while part := os.read(reading, 1 << 20):
        parts.append(part)


def look(lines, answered, shown):
    """Reads the lines of a child: raises the answered transfers, and the transfers that a call has shown. Returns how many
    transfers were answered, and how many reports and how many of them were off."""
    answers = reports = off = 0
    for word, *rest in lines:
        numbers = list(map(int, rest))
        if word == "answered":
            thread, number = numbers
            demand(number == answered[thread] + 1, f"thread {thread} was answered {number} after {answered[thread]}")
            answered[thread], answers = number, answers + 1
        elif word != "open":
            error, distance, charged, *last = numbers
            demand(error <= distance <= charged, f"a {word} is off by {error}, its distance is {distance}, charged {charged}")
            reports, off = reports + (word == "report"), off + (distance > 0)
            shown[:] = map(max, zip(shown, last))
    return answers, reports, off


def main(words):
    planted = words[1] if words[0] == "--planted" else None
    kind, place = words[2:4] if planted else words[:2]
    if words[-1] == "--child":
        if planted:
            plant(planted)
        child(kind, place)
        return
    from esr import Bank

    def values():
        with Bank(store=store_of(kind, place)) as bank:
            return bank.snapshot()

    command = [sys.executable, "-B", __file__, *words[:-1], "--child"]
    kill_repeatedly(command, int(words[-1]), values, Balances(), f"over {kind}")


def kill_repeatedly(command, times, values, balances, where):
    """Kills a child the given number of times, and compares the values of its store each time with what its calls returned."""
    draw, begun = random.Random(1), time.monotonic()
    counts, under_way = [0, 0, 0], 0
    for kill in range(times):
        answered, shown = list(balances.done), [0] * THREADS
        lines = killed(command, draw.random() * LIFETIME)
        counts = [sum(pair) for pair in zip(counts, look(lines, answered, shown))]
        kept = balances.compare(values(), f"kill {kill}")
        for thread in range(THREADS):
            what = f"kill {kill}: thread {thread} was answered {answered[thread]}, and the store has {kept[thread]}"
            demand(answered[thread] <= kept[thread] <= answered[thread] + 1, what)
            demand(shown[thread] <= kept[thread], f"kill {kill}: a call has shown {shown[thread]} of thread {thread}: {what}")
            under_way += kept[thread] - answered[thread]
    answers, reports, off = counts
    print(
        f"{times} kills {where} in {time.monotonic() - begun:.0f} s: {answers:,} transfers answered, all there;"
        f" {under_way} more were under way, whole; {reports:,} reports, {off:,} of them off, none by more than its distance",
        flush=True,
    )


if __name__ == "__main__":
    main(sys.argv[1:])
