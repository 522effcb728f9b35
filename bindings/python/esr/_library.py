"""Declares the shared library for ctypes. Each function is the C call of its name.

The calls of single events keep the interpreter's lock, since they take less time than releasing and acquiring it. Calls that
may take long release it.
"""

import ctypes
import ctypes.util
import os
import pathlib
import struct
import types
from ctypes import POINTER, c_bool, c_char_p, c_int64, c_size_t, c_uint8, c_uint32, c_uint64

DONE, TOO_SMALL, FULL, NO_MEMORY, IS_CLOSED = 0, 7, 12, 13, 14
FIRST_THAT_MAY_PASS = 9
"""Refusals from this number on may pass once another transaction has ended."""
BEGIN_UPDATE, READ, WRITE, COMMIT, ABORT, BEGIN_QUERY, BEGIN_STRICT_QUERY = 1, 2, 3, 4, 5, 6, 7
BEGUN, VALUE, WROTE, COMMITTED, ABORTED, REFUSED = 1, 2, 3, 4, 5, 6
QUICK = {"esr_begin_update", "esr_begin_query", "esr_read", "esr_write", "esr_read_for_update", "esr_commit", "esr_abort"}
QUICK |= {"esr_totals_of", "esr_counts_of", "esr_account_of"}
"""The calls that keep the interpreter's lock."""


class Engine(ctypes.Structure):
    _fields_ = [("is_open", c_bool), ("machine", ctypes.c_void_p)]
    is_open: bool


class Reply(ctypes.Structure):
    _fields_ = [("kind", c_uint32), ("refusal", c_uint32), ("txn", c_uint32), ("value", c_int64)]
    kind: int
    refusal: int
    txn: int
    value: int


EVENT, REPLY = struct.Struct("@IIIQq"), struct.Struct("@IIIq")
"""An event and a reply as bytes."""
STEP = struct.Struct("@III4x8xq").pack
"""Returns the bytes of an event without a limit."""


class Totals(ctypes.Structure):
    _fields_ = [("high", c_uint64), ("low", c_uint64), ("entries", c_uint64)]
    high: int
    low: int


class Counts(ctypes.Structure):
    _fields_ = [(name, c_uint64) for name in ("entries", "transactions", "active", "entries_left", "transactions_left")]
    entries: int
    transactions: int
    active: int
    entries_left: int
    transactions_left: int


class Account(ctypes.Structure):
    _fields_ = [("query", c_bool), ("status", c_uint32), ("limit", c_uint64), ("charged", c_uint64)]
    status: int
    charged: int


class Carried(ctypes.Structure):
    _fields_ = [("old", c_uint32), ("new", c_uint32), ("settled", c_uint64)]
    old: int
    new: int
    settled: int


class Finding(ctypes.Structure):
    _fields_ = [("distance", c_uint64), ("imported", c_uint64), ("count", c_size_t)]
    distance: int
    imported: int
    count: int


def _path() -> str:
    """Returns the path in ESR_LIBRARY, of the file in this folder, or of the installed library."""
    named = os.environ.get("ESR_LIBRARY")
    packaged = pathlib.Path(__file__).with_name("libesr.so.0")
    found = named or (str(packaged) if packaged.exists() else ctypes.util.find_library("esr"))
    if not found:
        raise ImportError("libesr.so.0 is neither in the package nor installed: set ESR_LIBRARY to its path")
    return found


def _load() -> types.SimpleNamespace:
    path = _path()
    try:
        library, quick, calls = ctypes.CDLL(path), ctypes.PyDLL(path), types.SimpleNamespace()
    except OSError as why:
        raise ImportError(f"{why}; ESR_LIBRARY must be the path of libesr.so.0") from why
    engine, text = POINTER(Engine), (POINTER(c_uint8), c_size_t, POINTER(c_size_t))
    declared = {
        "esr_open_weighted": [engine, POINTER(c_int64), c_size_t, POINTER(c_uint32), c_size_t],
        "esr_begin_update": [engine, c_uint64, POINTER(Reply)],
        "esr_begin_query": [engine, c_uint64, c_bool, POINTER(Reply)],
        "esr_read": [engine, c_uint32, c_uint32, POINTER(Reply)],
        "esr_write": [engine, c_uint32, c_uint32, c_int64, POINTER(Reply)],
        "esr_read_for_update": [engine, c_uint32, c_uint32, POINTER(Reply)],
        "esr_commit": [engine, c_uint32, POINTER(Reply)],
        "esr_abort": [engine, c_uint32, POINTER(Reply)],
        "esr_totals_of": [engine, POINTER(Totals)],
        "esr_counts_of": [engine, POINTER(Counts)],
        "esr_account_of": [engine, c_uint32, POINTER(Account)],
        "esr_values": [engine, POINTER(c_int64), c_size_t, POINTER(c_size_t)],
        "esr_audit": [engine, c_uint32, POINTER(c_uint32), c_size_t, POINTER(Finding)],
        "esr_bundle": [engine, c_uint32, *text],
        "esr_history_script": [engine, c_char_p, c_size_t, *text],
        "esr_explain": [engine, c_uint32, c_char_p, c_size_t, *text],
        "esr_picture": [engine, c_uint32, c_char_p, c_size_t, *text],
        "esr_ledger": [engine, *text],
        "esr_renew": [engine],
        "esr_renew_carrying": [engine, POINTER(Carried), c_size_t, POINTER(c_size_t)],
    }
    for name, arguments in declared.items():
        call = getattr(quick if name in QUICK else library, name)
        call.argtypes, call.restype = arguments, c_uint32
        setattr(calls, name, call)
    # esr_do with events and replies as bytes: of a transaction, and of a part of a history
    calls.esr_do_packed, calls.esr_replay = ctypes.PyDLL(path).esr_do, ctypes.CDLL(path).esr_do
    for call in (calls.esr_do_packed, calls.esr_replay):
        call.argtypes = [engine, c_char_p, c_size_t, c_char_p, c_size_t, c_bool, POINTER(c_size_t)]
        call.restype = c_uint32
    calls.esr_close = library.esr_close
    calls.esr_close.argtypes, calls.esr_close.restype = [engine], None
    return calls


library = _load()
