"""What is refused: exceptions with the refusal's number and what it says."""

from ._border import MISUSE, NO_TEXT, lib


class Error(Exception):
    """A refusal of the library. After it rows and history are as they were, but: under 104 the call was made, of `insert_many` as
    many rows stand as the exception's own text tells, and `Full` says what stands. Texts may have become known.

    Attributes:
        code: the number: 1 to 14 are the project's refusals, 100 and more those of the library's border.
        explanation: what the number says; the exception's own text may tell more.
    """

    def __init__(self, code: int, told: str = ""):
        self.code = code
        self.explanation = lib.sideways_code_text(code).decode("ascii")
        super().__init__(f"refused {code}: {told or self.explanation}")


class NoMemory(Error, MemoryError):
    """Refused 1: there was no memory for it."""


class BadTable(Error, ValueError):
    """Refused 2: a field of the table's header is none, or a cell is none of its attribute's kind."""


class BadLine(Error, ValueError):
    """Refused 3: a line is no call, conditions are none, cuts are none, or a history is none."""


class UnknownAttribute(Error, LookupError):
    """Refused 4: the table has no attribute of this name."""


class TooMany(Error, ValueError):
    """Refused 5: there is more of something than is taken."""


class HistoryFull(Error):
    """Refused 10: the history has 1,048,576 entries. What was called can be had by `history`, and another table be opened."""


class Closed(Error, ValueError):
    """Refused 100: the table was closed."""


class BadCell(Error, ValueError):
    """Refused 106: a cell is none of its attribute's kind, as a text of more than 64 bytes."""


class Full(Error):
    """An insert found the table full: as many rows were inserted as its limit. The calls stand in the history, answered `full`.

    Attributes:
        keys: of `insert_many` the keys of all rows that were given, 0 for each that found no room; else None.
    """

    def __init__(self, keys=None):
        super().__init__(5, "the table is full: as many rows were inserted as its limit")
        self.keys = keys


_CLASSES = {
    1: NoMemory,
    2: BadTable,
    3: BadLine,
    4: UnknownAttribute,
    5: TooMany,
    10: HistoryFull,
    MISUSE: Closed,
    106: BadCell,
    NO_TEXT: NoMemory,
}


def refusal(code: int, told: str = "") -> Error:
    """The exception for a code other than 0."""
    if code == MISUSE:
        told = told or "the table is closed"
    return _CLASSES.get(code, Error)(code, told)


def answered(code: int) -> None:
    """Raises what a code other than 0 stands for."""
    if code:
        raise refusal(code)
