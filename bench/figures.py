"""Keeps measurements as data.

With `--record` a benchmark appends its figures to `bench/results/DATE.json`, a list of runs in the order in which they were
made. Each run has the benchmark, its command, the commit, the machine, and the load averages before and after. `bench/summary`
makes the tables of RESULTS.md from these files.
"""

import contextlib
import datetime
import json
import os
import pathlib
import re
import subprocess
import sys

ROOT = pathlib.Path(__file__).resolve().parent.parent
RESULTS = ROOT / "bench" / "results"


def add_option(parser):
    """Adds the option `--record` to the arguments of a benchmark."""
    parser.add_argument("--record", action="store_true", help="append the figures to bench/results/DATE.json")


def machine():
    """Describes the processors of this machine."""
    model = re.search(r"^model name\s*: (.*)$", pathlib.Path("/proc/cpuinfo").read_text(), re.M)
    return f"{os.cpu_count()} x {model[1] if model else 'unknown'}"


def commit():
    """Returns the commit, followed by `-dirty` if the sources of the program or the bindings differ from it."""
    name = subprocess.run(["git", "rev-parse", "--short=8", "HEAD"], cwd=ROOT, check=True, capture_output=True, text=True)
    differs = subprocess.run(["git", "diff", "--quiet", "HEAD", "--", "crates", "crates.txt", "bindings"], cwd=ROOT)
    return name.stdout.strip() + "-dirty" * (differs.returncode != 0)


def load():
    """Returns the load average of the last minute."""
    return round(os.getloadavg()[0], 1)


class Run:
    """The figures of one run of a benchmark."""

    def __init__(self):
        self.figures = {}

    def add(self, name, value, digits=4):
        """Adds a figure. Its name says what it is, and its unit after a comma."""
        rounded = float(f"{value:.{digits}g}")
        self.figures[name] = int(rounded) if rounded == int(rounded) else rounded


def append(run):
    """Appends a run to the file of its date."""
    RESULTS.mkdir(exist_ok=True)
    path = RESULTS / f"{datetime.date.today()}.json"
    runs = json.loads(path.read_text()) if path.exists() else []
    path.write_text(json.dumps([*runs, run], indent=1) + "\n")


@contextlib.contextmanager
def recorded(is_wanted):
    """Yields a run to which a benchmark adds its figures. Appends it to the results if this is wanted and no error occurs."""
    run, before = Run(), load()
    yield run
    if is_wanted and run.figures:
        command = ["bench/" + pathlib.Path(sys.argv[0]).name, *(word for word in sys.argv[1:] if word != "--record")]
        append(
            {
                "benchmark": pathlib.Path(sys.argv[0]).name,
                "command": " ".join(command),
                "commit": commit(),
                "machine": machine(),
                "load": [before, load()],
                "figures": run.figures,
            }
        )
