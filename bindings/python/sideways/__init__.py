"""Sideways: exact answers to range queries over a table in memory, by database cracking, with a history that can be checked.

    >>> import sideways
    >>> t = sideways.Table.from_columns({"a": [12, 3, 12, 20], "b": [7, 8, 5, 2]})
    >>> t.count(a=(10, 15))
    2
    >>> t.sum("b", where="a >= 10 and a < 20")
    12
    >>> t.select(["b"], a=(10, 15))
    {'key': array([1, 3], dtype=uint64), 'b': array([7, 5])}
    >>> history = t.history()
    >>> bool(sideways.check(history))
    True

A table has one to eight attributes. Their kinds, and what stands for their cells here:

    int             whole numbers of 64 signed bits    int, arrays of int64
    fix1 to fix6    numbers of 1 to 6 decimals         decimal.Decimal, arrays of float64
    flag            true and false                     bool, arrays of bool
    text            at most 64 bytes of UTF-8          str, arrays of object

Nothing has to be prepared: each query does a part of the sorting that it needs, so what is asked often gets quicker. Rows have keys,
1, 2, 3 and so on in the order in which they came; none is used again.
"""

from ._border import LIBRARY
from ._errors import (
    BadCell,
    BadLine,
    BadTable,
    Closed,
    Error,
    Full,
    HistoryFull,
    NoMemory,
    TooMany,
    UnknownAttribute,
)
from ._history import Verdict, check
from ._table import Session, Table

__version__ = "0.1.0"
__all__ = [
    "BadCell",
    "BadLine",
    "BadTable",
    "Closed",
    "Error",
    "Full",
    "HistoryFull",
    "LIBRARY",
    "NoMemory",
    "Session",
    "Table",
    "TooMany",
    "UnknownAttribute",
    "Verdict",
    "check",
]
