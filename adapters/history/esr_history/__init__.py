"""Histories of any database, audited by `esr`: records, their order, scripts and audits.

`record` reads and writes records, `order` finds a serial order of their updates, `script` converts them, and `audit` runs
the program. None of these modules knows a database. `adapters/README.md` defines the format of records.
"""
