"""Columns of values as the border takes them: cells of 64 bits, and the texts for which some of them stand."""

import re
from collections.abc import Mapping
from numbers import Integral

import numpy

from . import _border as border
from ._border import FLAG, INT, TEXT
from ._errors import refusal
from ._kinds import check_texts, kind_of, number_cells
from ._where import RESERVED

_NAME = re.compile(r"[A-Za-z_][A-Za-z0-9_]{0,31}")


def check_mapping(columns) -> None:
    """Refuses what is no mapping, and no DataFrame either."""
    if not isinstance(columns, Mapping) and not (hasattr(columns, "items") and hasattr(columns, "columns")):
        raise TypeError(f"wanted a mapping of names to columns, not {type(columns).__name__}")


def as_array(name: str, column) -> numpy.ndarray:
    """A column as an array of one dimension."""
    array = numpy.asarray(column)
    if array.dtype.kind == "U" and not hasattr(column, "dtype"):
        array = numpy.asarray(column, object)
    if array.ndim != 1:
        raise ValueError(f"column {name!r} has {array.ndim} dimensions, wanted 1")
    return array


def found_kind(name: str, array: numpy.ndarray) -> int:
    """The kind of a column that nothing is said of."""
    if array.dtype.kind in "iu" or array.size == 0:
        return INT
    if array.dtype == numpy.bool_:
        return FLAG
    if array.dtype.kind in "OU":
        for kind, sorts in ((TEXT, str), (FLAG, (bool, numpy.bool_)), (INT, Integral)):
            if all(isinstance(value, sorts) for value in array):
                return kind
    hint = f"say which it is, as kinds={{{name!r}: 'fix2'}} for numbers of two decimals"
    if array.dtype.kind == "S":
        hint = "give texts as str, as of numpy.char.decode(column, 'utf-8')"
    elif array.dtype.kind in "mM":
        hint = "give whole numbers, as of .astype('datetime64[s]').astype('int64')"
    elif array.dtype.kind == "O" and any(_is_missing(value) for value in array):
        hint = "a table has a value in each cell, and here one is missing"
    raise TypeError(f"column {name!r} is of {array.dtype}: {hint}")


def _is_missing(value) -> bool:
    return value is None or type(value).__name__ == "NAType" or (isinstance(value, float) and value != value)


class Given:
    """A table of columns for the time of a call that opens it. `table` is what the border takes."""

    def __init__(self, columns, kinds, texts):
        kinds, codes, self._kept = dict(kinds or {}), {}, []
        for text in texts:
            codes.setdefault(text, len(codes) + 1)
        arrays, found = {}, []
        for name, column in columns.items():
            if not isinstance(name, str) or not _NAME.fullmatch(name):
                raise refusal(2, f"{name!r} is no name of an attribute: it has 1 to 32 letters, digits and _, the first no digit")
            if name in RESERVED:
                raise refusal(2, f"{name!r} is a word of the language, and no name of an attribute")
            arrays[name] = as_array(name, column)
            found.append(kind_of(kinds.pop(name)) if name in kinds else found_kind(name, arrays[name]))
        if kinds:
            raise ValueError(f"kinds names {', '.join(map(repr, kinds))}, which no column is")
        rows = one_length(arrays)
        attributes = (border.Attribute * len(arrays))()
        for attribute, kind, (name, array) in zip(attributes, found, arrays.items()):
            cells = text_cells(codes, array) if kind == TEXT else number_cells(name, kind, array)
            attribute.name, attribute.name_size, attribute.kind = name.encode("ascii"), len(name), kind
            attribute.cells = self.keep(cells)
        check_texts(codes)
        data = [text.encode("utf-8") for text in codes]
        ends = numpy.cumsum([len(text) for text in data], dtype=numpy.uint64)
        self._kept.append(ends)
        joined = b"".join(data)
        self.table = border.Columns(attributes, len(attributes), rows, joined, len(joined), ends.ctypes.data, ends.size)

    def keep(self, cells: numpy.ndarray) -> border.Cells:
        column, kept = as_cells(cells)
        self._kept.append(kept)
        return column


def as_cells(array: numpy.ndarray):
    """An array of int64 as a column of cells, which are not copied where they can be read as they lie, and what has to be kept
    meanwhile."""
    step = array.strides[0]
    if step < 0 or step % 8 or not array.flags.aligned:
        array, step = numpy.ascontiguousarray(array), 8
    size = (array.size - 1) * (step // 8) + 1 if array.size else 0
    return border.Cells(array.ctypes.data, size, step // 8), array


def text_cells(codes, array: numpy.ndarray) -> numpy.ndarray:
    """The codes of texts; a new text gets the next one."""
    return numpy.fromiter((codes.setdefault(text, len(codes) + 1) for text in array.tolist()), numpy.int64, array.size)


def one_length(arrays) -> int:
    """The one length of all these columns."""
    sizes = {array.size for array in arrays.values()}
    if len(sizes) > 1:
        raise ValueError("the columns have lengths that differ: " + ", ".join(f"{name!r} {array.size}" for name, array in arrays.items()))
    return max(sizes, default=0)
