"""Reports of a PostgreSQL database, audited by `esr`: recorders, and the command `esr-postgres`.

The modules that need no PostgreSQL (records, their order, scripts and audits) are the package `esr_history` of
`adapters/history`, which is added to the path here if it is not on it.
"""

import importlib.util
import pathlib
import sys

if importlib.util.find_spec("esr_history") is None:
    sys.path.append(str(pathlib.Path(__file__).resolve().parents[2] / "history"))
