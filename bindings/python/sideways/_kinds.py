"""Kinds of attributes: values of Python and numpy as the cells that the engine keeps, and back."""

import decimal
import re
from fractions import Fraction
from numbers import Integral

import numpy

from ._border import AFTER, BEFORE, FLAG, INT, TEXT
from ._errors import refusal

LEAST, GREATEST = -(1 << 63), (1 << 63) - 1
NAMES = ("int", "fix1", "fix2", "fix3", "fix4", "fix5", "fix6", "flag", "text")
_EXACT = decimal.Context(prec=80)
_NUMBER = re.compile(r"[+-]?[0-9]+(?:\.[0-9]+)?")


def kind_of(name: str) -> int:
    """The number of a kind by its name."""
    if name not in NAMES:
        raise ValueError(f"{name!r} is no kind; kinds are {', '.join(NAMES)}")
    return NAMES.index(name)


def fraction_of(value) -> Fraction:
    """A number exactly; a float as the shortest decimal that gives it, so that 0.1 is a tenth."""
    if isinstance(value, (bool, numpy.bool_)):
        raise TypeError(f"wanted a number, not {value!r}")
    if isinstance(value, Integral):
        return Fraction(int(value))
    if isinstance(value, decimal.Decimal):
        return Fraction(value)
    if isinstance(value, (float, numpy.floating)):
        return Fraction(decimal.Decimal(str(value)))
    raise TypeError(f"wanted a number, not {value!r}")


def cell_of(kind: int, value) -> int:
    """The cell of a value, which is one exactly; texts are for the caller."""
    if kind == FLAG:
        if not isinstance(value, (bool, numpy.bool_)):
            raise TypeError(f"wanted True or False, not {value!r}")
        return int(value)
    if kind == INT and type(value) is int:
        cell = value
    else:
        try:
            scaled = fraction_of(value) * 10**kind
        except (ValueError, OverflowError, decimal.InvalidOperation):
            raise ValueError(f"{value!r} is no {NAMES[kind]}") from None
        if scaled.denominator != 1:
            raise ValueError(f"{value!r} is no {NAMES[kind]}: it has more decimals")
        cell = scaled.numerator
    if not LEAST <= cell <= GREATEST:
        raise ValueError(f"{value!r} is no {NAMES[kind]}: it has more than 64 signed bits")
    return cell


def bound_of(kind: int, value, before: bool):
    """The bound before a value, or behind it, as (cell, kind of bound): cells left of it are below the value, or at most the value.
    Where no cell is the value, it stands behind the greatest below it; of values beyond all cells it stands before or behind these."""
    if kind == INT and type(value) is int and LEAST <= value <= GREATEST:
        return value, BEFORE if before else AFTER
    if kind == FLAG:
        return cell_of(kind, value), BEFORE if before else AFTER
    if isinstance(value, (float, numpy.floating, decimal.Decimal)) and abs(value) == float("inf"):
        return (GREATEST, AFTER) if value > 0 else (LEAST, BEFORE)
    try:
        scaled = fraction_of(value) * 10**kind
    except (ValueError, OverflowError, decimal.InvalidOperation):
        raise ValueError(f"{value!r} cannot be compared with an attribute of {NAMES[kind]}") from None
    low = scaled.numerator // scaled.denominator
    if low > GREATEST:
        return GREATEST, AFTER
    if low < LEAST:
        return LEAST, BEFORE
    return low, BEFORE if before and scaled.denominator == 1 else AFTER


def spelled(kind: int, word: str):
    """The value that a word of a line spells, or None where it is no cell of the kind."""
    if kind == FLAG:
        return {"true": True, "false": False}.get(word)
    if len(word) > 64 or not _NUMBER.fullmatch(word):
        return None
    if len(word.partition(".")[2]) > kind:
        return None
    value = int(word) if kind == INT else decimal.Decimal(word)
    return value if LEAST <= (value if kind == INT else Fraction(value) * 10**kind) <= GREATEST else None


def value_of(kind: int, cell: int):
    """A cell, or a sum of cells, as a value: int, Decimal or bool."""
    if kind == FLAG:
        return bool(cell)
    if kind == INT:
        return cell
    return _EXACT.scaleb(decimal.Decimal(cell), -kind)


def array_of(kind: int, cells: numpy.ndarray) -> numpy.ndarray:
    """A column of cells as values; texts are for the caller."""
    if kind == INT:
        return cells
    if kind == FLAG:
        return cells != 0
    return cells / float(10**kind)


def check_texts(texts) -> None:
    """Refuses the first of these texts that no cell may be."""
    for text in texts:
        if not isinstance(text, str):
            raise TypeError(f"wanted a text, not {text!r}")
        if len(text.encode("utf-8")) > 64 or any(ord(sign) < 32 or ord(sign) == 127 for sign in text):
            raise refusal(2, f"{text[:40]!r} is no text of at most 64 bytes without control characters")


def number_cells(name: str, kind: int, column: numpy.ndarray) -> numpy.ndarray:
    """A column of numbers or flags as its cells: an array of int64, the same where it is one already."""
    sort = column.dtype.kind
    if kind == FLAG and sort == "b":
        return column.astype(numpy.int64)
    if kind != FLAG and sort in "iu":
        return _whole_cells(name, kind, column)
    if kind != FLAG and sort == "f":
        cells = _float_cells(kind, column)
        return _each_cell(name, kind, column) if cells is None else cells
    if sort == "O" or column.size == 0:
        return _each_cell(name, kind, column)
    raise TypeError(f"column {name!r} is of {column.dtype}, wanted {'bool' if kind == FLAG else 'numbers'} for {NAMES[kind]}")


def _whole_cells(name: str, kind: int, column: numpy.ndarray) -> numpy.ndarray:
    ten = 10**kind
    if kind == INT and numpy.can_cast(column.dtype, numpy.int64):
        return column.astype(numpy.int64, copy=False)
    if column.size and not LEAST <= int(column.min()) * ten <= int(column.max()) * ten <= GREATEST:
        raise ValueError(f"column {name!r} has a number of more than 64 signed bits as {NAMES[kind]}")
    cells = column.astype(numpy.int64, copy=False)
    return cells if kind == INT else cells * ten


def _float_cells(kind: int, column: numpy.ndarray):
    """The cells of floats where each is the float nearest to a number of that many decimals; else None."""
    if column.dtype.itemsize != 8:
        return None
    ten = float(10**kind)
    with numpy.errstate(all="ignore"):
        scaled = numpy.rint(column * ten)
        fits = (numpy.abs(scaled) < float(1 << 52)) & (scaled / ten == column)
    return scaled.astype(numpy.int64) if fits.all() else None


def _each_cell(name: str, kind: int, column: numpy.ndarray) -> numpy.ndarray:
    cells = numpy.empty(column.size, numpy.int64)
    for row, value in enumerate(column):
        try:
            cells[row] = cell_of(kind, value)
        except (TypeError, ValueError) as fault:
            raise type(fault)(f"column {name!r}, row {row}: {fault}") from None
    return cells
