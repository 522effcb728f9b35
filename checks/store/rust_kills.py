"""Kills the Rust program `store_transfers` by SIGKILL at random moments, and compares its SQLite file: see `kills.py`.

usage: rust_kills.py FOLDER TIMES
       rust_kills.py --planted FAULT FOLDER TIMES

The program is built from a copy of `bindings/rust`, over the library in `bindings/lib` or ESR_LIB_DIR. The file is read by the
module `sqlite3`, after the recovery that SQLite does itself. The Rust bank reopens it at the next kill.

A planted fault is an edit of the copy, and has to be found. They are: `early`, calls return before the store has their update;
`reports`, reports and bodies that fail do not wait; `split`, a write takes two transactions of the store; `first`, the store
gets the first value of an item in a group in place of the last. Each transaction of the store then takes at least PAUSE
milliseconds, so that most kills interrupt one. Without the pause, a store that writes within a millisecond hides a fault from
40 kills in some runs.
"""

import os
import pathlib
import shutil
import sqlite3
import subprocess
import sys

from kills import kill_repeatedly
from transfers import ACCOUNTS, TOP, Balances, demand

WORD = 2**64 - 1
QUEUE = "src/store/queue.rs"
PAUSE = 20
SLEEP = f"        std::thread::sleep(std::time::Duration::from_millis({PAUSE}));\n"
WRITE = "        self.store.call(|store| store.write(number, &named))"
SLOW = (WRITE, SLEEP + WRITE)
FAULTS = {
    "early": [
        ("            if state.finished >= place.group {", "            if state.finished >= place.group || place.group > Group(0) {"),
        SLOW,
    ],
    "reports": [("                group: state.last(),", "                group: Group(0),"), SLOW],
    "split": [
        (
            WRITE,
            "        let (some, others) = named.split_at(named.len() / 2);\n"
            "        if !some.is_empty() {\n"
            "            self.store.call(|store| store.write(number, some))?;\n"
            "        }\n"
            f"{SLEEP}"
            "        self.store.call(|store| store.write(number, others))",
        ),
    ],
    "first": [
        (
            "            state.latest[number] = value;",
            "            if !state.is_dirty[number] {\n                state.latest[number] = value;\n            }",
        ),
        SLOW,
    ],
}


def transfer_of(thread, number):
    """The index of the giving and of the taking account, and the amount, as the program computes them."""
    mixed = (thread * 10**9 + number) * 0x9E3779B97F4A7C15 & WORD
    mixed = ((mixed ^ mixed >> 32) * 0xD6E8FEB86659FD93 & WORD) >> 16
    giver = mixed % len(ACCOUNTS)
    taker = (giver + 1 + (mixed >> 8) % (len(ACCOUNTS) - 1)) % len(ACCOUNTS)
    return giver, taker, (mixed >> 16) % 99 + 1


def built(folder, fault):
    """Builds the program from a copy of the package, with a planted fault if one is named, and returns its path."""
    package = folder / "rust"
    ignored = shutil.ignore_patterns("target")
    # with new times, so that cargo builds what a plant has changed before
    shutil.copytree(TOP / "bindings/rust", package, ignore=ignored, copy_function=shutil.copy, dirs_exist_ok=True)
    for old, new in FAULTS.get(fault, []):
        text = (package / QUEUE).read_text(encoding="utf-8")
        if text.count(old) != 1:
            raise SystemExit(f"the fault {fault} does not fit {QUEUE}")
        (package / QUEUE).write_text(text.replace(old, new), encoding="utf-8")
    environment = {"ESR_LIB_DIR": str(TOP / "bindings/lib"), **os.environ, "CARGO_TARGET_DIR": str(folder / "target")}
    if fault:
        environment["RUSTFLAGS"] = "--cap-lints allow"
    words = ["cargo", "build", "--offline", "--quiet", "--features", "sqlite", "--example", "store_transfers"]
    subprocess.run(words, cwd=package, env=environment, check=True)
    return str(folder / "target/debug/examples/store_transfers")


def values_of(path):
    connection = sqlite3.connect(path)
    try:
        return dict(connection.execute("select name, value from esr_items"))
    finally:
        connection.close()


def main(words):
    fault = words[1] if words[0] == "--planted" else None
    folder, times = pathlib.Path(words[-2]).resolve(), int(words[-1])
    demand(fault is None or fault in FAULTS, f"{fault} is one of {', '.join(FAULTS)}")
    program, path = built(folder, fault), str(folder / f"{fault or 'rust'}.db")
    kill_repeatedly([program, path], times, lambda: values_of(path), Balances(transfer_of), "of the Rust bank over sqlite")


if __name__ == "__main__":
    main(sys.argv[1:])
