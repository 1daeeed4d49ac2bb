"""The shared library, as sideways.h declares it. No global interpreter lock is held while one of its functions runs."""

import ctypes
import os
from ctypes import POINTER, c_bool, c_char_p, c_int64, c_size_t, c_uint32, c_uint64, c_void_p

VERSION = 3

#: The path of the shared library: that beside this file, or what the variable SIDEWAYS_LIBRARY names.
LIBRARY = os.environ.get("SIDEWAYS_LIBRARY") or os.path.join(os.path.dirname(os.path.abspath(__file__)), "libsideways.so")

MOST_ROWS = 1048576
MOST_CELLS = 16777216
MAPS = 64

# Codes, kinds of bounds and kinds of attributes.
BAD_TABLE, BAD_LINE, UNKNOWN_ATTRIBUTE, TOO_MANY, NOT_LEGAL, MISUSE, NO_TEXT, BAD_CELL = 2, 3, 4, 5, 11, 100, 104, 106
NONE, BEFORE, AFTER = 0, 1, 2
INT, FLAG, TEXT = 0, 7, 8


class Handle(ctypes.Structure):
    _fields_ = [("is_open", c_bool), ("at", c_void_p)]


class Options(ctypes.Structure):
    _fields_ = [("limit", c_uint64), ("budget", c_uint64), ("maps", c_uint64)]


class Cond(ctypes.Structure):
    _fields_ = [
        ("attribute", c_uint64),
        ("lower", c_int64),
        ("upper", c_int64),
        ("lower_kind", c_uint32),
        ("upper_kind", c_uint32),
    ]


class Cells(ctypes.Structure):
    _fields_ = [("cells", c_void_p), ("cells_size", c_size_t), ("stride", c_uint64)]


class Attribute(ctypes.Structure):
    _fields_ = [("name", c_char_p), ("name_size", c_size_t), ("kind", c_uint32), ("cells", Cells)]


class Columns(ctypes.Structure):
    _fields_ = [
        ("attributes", POINTER(Attribute)),
        ("attributes_size", c_size_t),
        ("rows", c_uint64),
        ("texts", c_char_p),
        ("texts_size", c_size_t),
        ("ends", c_void_p),
        ("ends_size", c_size_t),
    ]


class Place(ctypes.Structure):
    _fields_ = [("row", c_uint64), ("column", c_uint64)]


class SumWords(ctypes.Structure):
    _fields_ = [("low", c_uint64), ("high", c_int64)]


class Least(ctypes.Structure):
    _fields_ = [("found", c_uint64), ("value", c_int64)]


class Stats(ctypes.Structure):
    _fields_ = [
        (name, c_uint64)
        for name in ("queries", "areas", "pieces", "entries", "restarts", "maps", "cells", "scans")
    ]


_BYTES = [c_char_p, c_size_t]
_CONDS = [c_void_p, c_size_t]
_TABLE = [POINTER(Handle)]
_CALL = [POINTER(Handle), c_uint64]

#: The parameters of each function; those that follow in `_SIZES` answer another number than a code.
_PARAMETERS = {
    "version": [],
    "open": [c_void_p, c_size_t] + _BYTES + [POINTER(Options), POINTER(Handle)],
    "open_columns": [POINTER(Columns)] + _BYTES + [POINTER(Options), POINTER(Handle)],
    "table_fault": [c_void_p, c_size_t, POINTER(Place)],
    "columns_fault": [POINTER(Columns), POINTER(Place)],
    "session": _TABLE + [POINTER(c_uint64)],
    "history": _TABLE,
    "close": _TABLE,
    "exec": _CALL + _BYTES,
    "line_fault": _TABLE + _BYTES,
    "text_size": _TABLE,
    "text": _TABLE + [c_size_t, c_void_p, c_size_t],
    "count": _CALL + _CONDS + [POINTER(c_uint64)],
    "sum": _CALL + [c_uint64] + _CONDS + [POINTER(SumWords)],
    "min": _CALL + [c_uint64] + _CONDS + [POINTER(Least)],
    "max": _CALL + [c_uint64] + _CONDS + [POINTER(Least)],
    "select": _CALL + [POINTER(c_uint64), c_size_t] + _CONDS + [POINTER(c_uint64)],
    "view": _TABLE + [POINTER(c_uint64), c_size_t] + _CONDS + [POINTER(c_uint64)],
    "keys": _TABLE + [c_size_t, c_void_p, c_size_t, POINTER(c_size_t)],
    "column": _TABLE + [c_size_t, c_size_t, c_void_p, c_size_t, POINTER(c_size_t)],
    "insert": _CALL + [c_void_p, c_size_t, POINTER(c_uint64)],
    "insert_many": _CALL + [POINTER(Cells), c_size_t, c_void_p, c_size_t, POINTER(c_size_t)],
    "delete": _CALL + [c_uint64, POINTER(c_uint64)],
    "delete_where": _CALL + _CONDS + [POINTER(c_uint64)],
    "attributes": _TABLE,
    "kind": _TABLE + [c_uint64, POINTER(c_uint32)],
    "name": _TABLE + [c_uint64, c_char_p, c_size_t, POINTER(c_size_t)],
    "code_of": _TABLE + _BYTES + [POINTER(c_int64)],
    "learn": _TABLE + _BYTES + [POINTER(c_int64)],
    "text_of": _TABLE + [c_int64, c_char_p, c_size_t, POINTER(c_size_t)],
    "head_stats": _TABLE + [c_uint64, POINTER(Stats)],
    "check": [c_void_p, c_size_t, POINTER(c_uint64)],
    "explain": [c_void_p, c_size_t, POINTER(Handle)],
}
_SIZES = {"text_size", "text", "attributes"}


def _loaded():
    try:
        library = ctypes.CDLL(LIBRARY)
        version = library.sideways_version()
    except (OSError, AttributeError) as fault:
        raise ImportError(f"the library of sideways cannot be loaded: {fault}") from None
    if version != VERSION:
        raise ImportError(f"{LIBRARY} has version {version}, wanted {VERSION}")
    for name, parameters in _PARAMETERS.items():
        function = getattr(library, "sideways_" + name)
        function.argtypes = parameters
        function.restype = c_size_t if name in _SIZES else c_uint32
    library.sideways_free.argtypes = [Handle]
    library.sideways_free.restype = None
    library.sideways_code_text.argtypes = [c_uint32]
    library.sideways_code_text.restype = c_char_p
    return library


lib = _loaded()


def text_kept(handle):
    """The bytes of the text that a handle keeps."""
    size = lib.sideways_text_size(handle)
    room = ctypes.create_string_buffer(size) if size else b""
    copied = lib.sideways_text(handle, 0, ctypes.addressof(room) if size else None, size)
    return room.raw[:copied] if size else b""


def address_of(data):
    """A pointer to bytes for the time of a call, and what has to be kept meanwhile, which are these bytes."""
    if not isinstance(data, (bytes, bytearray, memoryview)):
        raise TypeError(f"wanted bytes, as a file that is opened with 'rb' gives them, not {type(data).__name__}")
    kept = data if isinstance(data, bytes) else bytes(data)
    return ctypes.cast(ctypes.c_char_p(kept), c_void_p), kept
