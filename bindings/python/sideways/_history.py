"""The check of a history."""

import ctypes
from typing import NamedTuple, Optional

from ._border import NOT_LEGAL, Handle, address_of, lib, text_kept
from ._errors import answered


class Verdict(NamedTuple):
    """What the check of a history found. It is true where the history is legal."""

    #: Whether one thread over a plain list of rows would have replied the same.
    legal: bool
    #: The number of the first entry that it would not, from 1; None where the history is legal.
    entry: Optional[int]
    #: The verdict in lines, and why: that entry's call, its reply and the list's, and the last changes that it asks for.
    explanation: str

    def __bool__(self) -> bool:
        return self.legal


def check(history: bytes) -> Verdict:
    """Checks a history: whether one thread over a plain list of rows would have given each of its replies.

    Args:
        history: the bytes of a history file, as `Table.history` gives them or `sideways run --history` writes them.

    Raises:
        BadLine: the bytes are no history.
    """
    at, kept = address_of(history)
    entry = ctypes.c_uint64()
    code = lib.sideways_check(at, len(kept), entry)
    if code != NOT_LEGAL:
        answered(code)
        return Verdict(True, None, "legal\n")
    why = Handle()
    code = lib.sideways_explain(at, len(kept), why)
    try:
        if code != NOT_LEGAL:
            answered(code)
        return Verdict(False, entry.value, text_kept(why).decode("utf-8"))
    finally:
        lib.sideways_free(why)
