"""Tables and their sessions."""

import ctypes
import operator
import os
import threading
from collections.abc import Mapping
from decimal import Decimal
from typing import TYPE_CHECKING, Any, Dict, List, Optional, Sequence, Union

import numpy

from . import _border as border
from ._border import BAD_CELL, BAD_LINE, BAD_TABLE, MAPS, MOST_CELLS, MOST_ROWS, TEXT, TOO_MANY, UNKNOWN_ATTRIBUTE, lib
from ._columns import Given, as_array, as_cells, check_mapping, one_length
from ._errors import Error, Full, answered, refusal
from ._kinds import NAMES, array_of, cell_of, number_cells, value_of
from ._where import Conds

if TYPE_CHECKING:
    import pandas

Number = Union[int, Decimal]


class _Engine:
    """The handle, what is known of its table, and the lock that each call has alone."""

    def __init__(self, handle: border.Handle):
        self.lock = threading.Lock()
        self.handle = handle
        self.attributes = {}
        for attribute in range(lib.sideways_attributes(handle)):
            name, size, kind = ctypes.create_string_buffer(32), ctypes.c_size_t(), ctypes.c_uint32()
            answered(lib.sideways_name(handle, attribute, name, 32, size))
            answered(lib.sideways_kind(handle, attribute, kind))
            self.attributes[name.raw[: size.value].decode("ascii")] = (attribute, kind.value)
        self.key_name = "key"
        while self.key_name in self.attributes:
            self.key_name += "_"
        self.texts = {}
        self.codes = {}

    def code_of(self, text: str) -> int:
        """The code of a text, 0 where the table does not know it. The lock is held."""
        data, code = text.encode("utf-8"), ctypes.c_int64()
        answered(lib.sideways_code_of(self.handle, data, len(data), code))
        return code.value

    def learn(self, text: str) -> int:
        """The code of a text, which becomes known where it is not. The lock is held."""
        code = self.codes.get(text)
        if code is None:
            data, found = text.encode("utf-8"), ctypes.c_int64()
            refused = lib.sideways_learn(self.handle, data, len(data), found)
            if refused:
                raise refusal(refused, f"{text[:40]!r} is no text of at most 64 bytes without control characters" if refused == BAD_CELL else "")
            code = self.codes[text] = found.value
        return code

    def text_of(self, code: int) -> str:
        """The text of a code. The lock is held."""
        text = self.texts.get(code)
        if text is None:
            room, size = ctypes.create_string_buffer(64), ctypes.c_size_t()
            answered(lib.sideways_text_of(self.handle, code, room, 64, size))
            text = self.texts[code] = room.raw[: size.value].decode("utf-8")
        return text

    def values(self, kind: int, cells: numpy.ndarray) -> numpy.ndarray:
        """A column of cells as values. The lock is held."""
        if kind != TEXT:
            return array_of(kind, cells)
        codes, places = numpy.unique(cells, return_inverse=True)
        texts = numpy.empty(codes.size, object)
        texts[:] = [self.text_of(code) for code in codes.tolist()]
        return texts[places]

    def free(self) -> None:
        handle, self.handle = self.handle, border.Handle()
        lib.sideways_free(handle)

    def __del__(self):
        self.free()


class Session:
    """A session of a table: its calls stand in the history under its number. Give each thread one of its own.

    A call of one thread waits while a call of another has the table, and lets other Python threads run meanwhile. The history has
    the calls of all sessions in the order in which they were made.

    Where conditions are asked for, `where` is a text as `"a >= 10 and city = 'Oslo'"`, in the language of scripts, and each further
    keyword a range of the attribute that it names: `a=(10, 15)` is at least 10 and at most 15, `a=(10, None)` at least 10, and
    `a=12` is 12. All of them have to be met; with none, all rows are meant. A text that the table does not know becomes known with
    the call. What asks for two texts of one attribute is answered here, and stands not in the history.

    Attributes:
        number: the session's number, from 1.
    """

    def __init__(self, engine: _Engine):
        number = ctypes.c_uint64()
        with engine.lock:
            answered(lib.sideways_session(engine.handle, number))
        self.number: int = number.value
        self._engine = engine
        self._room = (border.Cond * 8)()
        self._found = ctypes.c_uint64()

    @property
    def attributes(self) -> Dict[str, str]:
        """The attributes in their order, each with its kind: `int`, `fix1` to `fix6`, `flag` or `text`."""
        return {name: NAMES[kind] for name, (_place, kind) in self._engine.attributes.items()}

    def count(self, /, where: Optional[str] = None, **ranges: Any) -> int:
        """How many rows meet the conditions."""
        return self._counted(lib.sideways_count, where, ranges)

    def sum(self, attribute: str, /, where: Optional[str] = None, **ranges: Any) -> Number:
        """The sum of an attribute over the rows that meet the conditions, exactly: an int, or a Decimal of fix1 to fix6; 0 of none.

        The sum of a flag is how often it is true. There is no limit to 64 bits.
        """
        words = border.SumWords()
        kind, made = self._aggregate(lib.sideways_sum, words, attribute, where, ranges)
        total = (words.high << 64) + words.low if made else 0
        return total if kind == border.FLAG else value_of(kind, total)

    def min(self, attribute: str, /, where: Optional[str] = None, **ranges: Any) -> Union[Number, bool, None]:
        """The least value of an attribute over the rows that meet the conditions, None where there is no such row."""
        return self._extreme(lib.sideways_min, attribute, where, ranges)

    def max(self, attribute: str, /, where: Optional[str] = None, **ranges: Any) -> Union[Number, bool, None]:
        """The greatest value of an attribute over the rows that meet the conditions, None where there is no such row."""
        return self._extreme(lib.sideways_max, attribute, where, ranges)

    def select(
        self, columns: Union[str, Sequence[str], None] = None, /, where: Optional[str] = None, **ranges: Any
    ) -> Dict[str, numpy.ndarray]:
        """The rows that meet the conditions, by ascending keys.

        Args:
            columns: the attributes to show, all of them if left out.

        Returns:
            A dict of arrays of shape (rows,): first `"key"`, the rows' keys as uint64 (`"key_"` where an attribute has that name),
            then each attribute: int64 of int, float64 of fix1 to fix6, bool of flag, object (str) of text.
        """
        return self._shown(lambda *asked: lib.sideways_select(self._engine.handle, self.number, *asked), self._engine.learn, columns, where, ranges)

    def view(
        self, columns: Union[str, Sequence[str], None] = None, /, where: Optional[str] = None, **ranges: Any
    ) -> Dict[str, numpy.ndarray]:
        """The same rows by a pass over the table as it is now. It is no call: the history stays as it is, and no head is asked."""
        return self._shown(lambda *asked: lib.sideways_view(self._engine.handle, *asked), self._engine.code_of, columns, where, ranges)

    def _shown(self, function, code_of, columns, where, ranges) -> Dict[str, numpy.ndarray]:
        engine = self._engine
        names = [columns] if isinstance(columns, str) else list(engine.attributes if columns is None else dict.fromkeys(columns))
        if not names:
            raise refusal(102, "no attribute was asked for")
        with engine.lock:
            conds = self._conds(where, ranges, code_of)
            asked = [conds.place(name) for name in names]
            rows = ctypes.c_uint64()
            if not conds.none:
                places = (ctypes.c_uint64 * len(asked))(*[place for place, _kind in asked])
                answered(function(places, len(asked), self._room, conds.fill(self._room), rows))
            return self._rows(rows.value, names, [kind for _place, kind in asked])

    def _rows(self, rows: int, names: List[str], kinds: List[int]) -> Dict[str, numpy.ndarray]:
        engine, copied = self._engine, ctypes.c_size_t()
        keys = numpy.empty(rows, numpy.uint64)
        if rows:
            answered(lib.sideways_keys(engine.handle, 0, keys.ctypes.data, rows, copied))
        found = {engine.key_name: keys}
        for column, (name, kind) in enumerate(zip(names, kinds)):
            cells = numpy.empty(rows, numpy.int64)
            if rows:
                answered(lib.sideways_column(engine.handle, column, 0, cells.ctypes.data, rows, copied))
            found[name] = engine.values(kind, cells)
        return found

    def to_pandas(
        self, columns: Union[str, Sequence[str], None] = None, /, where: Optional[str] = None, **ranges: Any
    ) -> "pandas.DataFrame":
        """As `select`, but as a pandas DataFrame, whose index has the rows' keys."""
        import pandas

        found = self.select(columns, where, **ranges)
        keys = found.pop(self._engine.key_name)
        return pandas.DataFrame(found, index=pandas.Index(keys, name=self._engine.key_name))

    def insert(self, row: Union[Sequence[Any], Mapping], /) -> int:
        """Inserts a row: its values in the order of the attributes, or a mapping of all attributes to them.

        Returns:
            The row's key.

        Raises:
            Full: as many rows were inserted as the table's limit.
        """
        engine = self._engine
        values = self._in_order(row) if isinstance(row, Mapping) else list(row)
        if len(values) != len(engine.attributes):
            raise ValueError(f"a row has {len(engine.attributes)} values, not {len(values)}")
        with engine.lock:
            cells = (ctypes.c_int64 * len(values))()
            for place, ((_place, kind), value) in enumerate(zip(engine.attributes.values(), values)):
                cells[place] = self._known(value) if kind == TEXT else cell_of(kind, value)
            answered(lib.sideways_insert(engine.handle, self.number, cells, len(values), self._found))
            key = self._found.value
        if key == 0:
            raise Full()
        return key

    def insert_many(self, columns: Mapping, /) -> numpy.ndarray:
        """Inserts a row for each place of these columns, in order; each row is a call of its own in the history.

        Args:
            columns: of each attribute an array, list or series of shape (rows,), as `Table.from_columns` takes them.

        Returns:
            The rows' keys, uint64 of shape (rows,).

        Raises:
            Full: the table had no room for all rows. Those that it had room for are in it; `keys` of the exception has 0 for each
                of the others.
        """
        engine = self._engine
        arrays = {name: as_array(name, column) for name, column in zip(engine.attributes, self._in_order(columns))}
        rows, kept = one_length(arrays), []
        keys, stand, cells = numpy.zeros(rows, numpy.uint64), ctypes.c_size_t(), (border.Cells * len(arrays))()
        with engine.lock:
            for name, (place, kind) in engine.attributes.items():
                column = self._known_cells(arrays[name]) if kind == TEXT else number_cells(name, kind, arrays[name])
                cells[place], array = as_cells(column)
                kept.append(array)
            code = lib.sideways_insert_many(engine.handle, self.number, cells, len(cells), keys.ctypes.data, rows, stand)
        if code:
            raise refusal(code, f"{stand.value} of {rows} rows were inserted" if stand.value else "")
        if keys.size and keys[-1] == 0:
            raise Full(keys)
        return keys

    def delete(self, key: int, /) -> bool:
        """Deletes the row of a key, and answers whether there was one."""
        removed = ctypes.c_uint64()
        with self._engine.lock:
            answered(lib.sideways_delete(self._engine.handle, self.number, _word("a key", key), removed))
        return removed.value == 1

    def delete_where(self, /, where: Optional[str] = None, **ranges: Any) -> int:
        """Deletes each row that meets the conditions, one at least, and answers how many those were."""
        if where is None and not ranges:
            raise ValueError("delete_where wants a condition")
        return self._counted(lib.sideways_delete_where, where, ranges)

    def exec(self, line: str, /) -> str:
        """Makes the call of a line of a script, as `"select a, b where a >= 10"`, and gives the lines of its reply.

        A line of blanks, or one that begins with `#`, has no call, and its reply is empty. The exception for a line that is no call
        tells where it is wrong, and what could stand there.
        """
        if not isinstance(line, str):
            raise TypeError(f"a line is a str, not {type(line).__name__}")
        data, handle = line.encode("utf-8"), self._engine.handle
        with self._engine.lock:
            code = lib.sideways_exec(handle, self.number, data, len(data))
            if code in (BAD_LINE, UNKNOWN_ATTRIBUTE, TOO_MANY) and lib.sideways_line_fault(handle, data, len(data)) == code:
                raise refusal(code, border.text_kept(handle).decode("utf-8").rstrip("\n"))
            answered(code)
            return border.text_kept(handle).decode("utf-8")

    def _conds(self, where: Optional[str], ranges: Dict[str, Any], code_of=None) -> Conds:
        conds = Conds(self._engine.attributes, code_of or self._engine.learn)
        if where is not None:
            conds.add_line(where)
        for name, wanted in ranges.items():
            conds.add_range(name, wanted)
        return conds

    def _counted(self, function, where, ranges) -> int:
        engine = self._engine
        with engine.lock:
            conds = self._conds(where, ranges)
            if conds.none:
                return 0
            many = conds.fill(self._room)
            answered(function(engine.handle, self.number, self._room, many, self._found))
            return self._found.value

    def _aggregate(self, function, out, attribute, where, ranges):
        """The kind of an attribute, and whether the call was made."""
        engine = self._engine
        with engine.lock:
            conds = self._conds(where, ranges)
            place, kind = conds.place(attribute)
            if kind == TEXT:
                raise refusal(102, f"{attribute!r} is of texts")
            if conds.none:
                return kind, False
            many = conds.fill(self._room)
            answered(function(engine.handle, self.number, place, self._room, many, out))
            return kind, True

    def _extreme(self, function, attribute, where, ranges):
        least = border.Least()
        kind, made = self._aggregate(function, least, attribute, where, ranges)
        return value_of(kind, least.value) if made and least.found else None

    def _in_order(self, given: Mapping) -> List[Any]:
        check_mapping(given)
        for name in given:
            if name not in self._engine.attributes:
                raise refusal(4, f"{name!r} is none of {', '.join(self._engine.attributes)}")
        missing = [name for name in self._engine.attributes if name not in given]
        if missing:
            raise ValueError(f"{', '.join(map(repr, missing))} is missing")
        return [given[name] for name in self._engine.attributes]

    def _known(self, text) -> int:
        """The code of a text to be inserted. The lock is held."""
        if not isinstance(text, str):
            raise TypeError(f"wanted a text, not {text!r}")
        return self._engine.learn(text)

    def _known_cells(self, array: numpy.ndarray) -> numpy.ndarray:
        codes = {}
        for text in array.tolist():
            if text not in codes:
                codes[text] = self._known(text)
        return numpy.fromiter((codes[text] for text in array.tolist()), numpy.int64, array.size)


class Table(Session):
    """A table in memory, the history of its calls, and a head for each attribute, which cracks while it is asked.

    Open one by `from_csv`, `from_columns` or `from_pandas`; end it by `close`, or as a context manager. It is its own session 1;
    `session` opens more, one for each thread.
    """

    def __init__(self, *_given: Any):
        raise TypeError("a table is opened by Table.from_csv, Table.from_columns or Table.from_pandas")

    @classmethod
    def _opened(cls, handle: border.Handle) -> "Table":
        table = cls.__new__(cls)
        Session.__init__(table, _Engine(handle))
        return table

    @classmethod
    def from_csv(
        cls,
        table: Union[str, os.PathLike, bytes],
        *,
        cuts: str = "",
        limit: int = MOST_ROWS,
        budget: int = MOST_CELLS,
        maps: int = MAPS,
    ) -> "Table":
        """Opens a table of comma-separated values: a header as `a:int,price:fix2,city:text`, then a row a line.

        Args:
            table: the path of a file (str or PathLike), or the text itself (bytes).
            cuts: how attributes are divided into areas, as `"a=1000;a=2000"`; none by default.
            limit: how many rows are ever inserted at most, those of the table included: 1 to 1,048,576.
            budget: how many cells the maps may have together, each a pair of 16 bytes; with 0 every query scans.
            maps: how many maps there are for all attributes together, at most 4,096; with 0 every query scans.

        Raises:
            OSError: the file cannot be read.
            BadTable: a field of the header or a row is none; it tells which.
        """
        data = _read(table) if isinstance(table, (str, os.PathLike)) else table
        at, kept = border.address_of(data)
        handle = border.Handle()
        code = lib.sideways_open(at, len(kept), *_cuts(cuts), _options(limit, budget, maps), handle)
        if code == BAD_TABLE:
            raise refusal(code, _fault(lib.sideways_table_fault, at, len(kept)))
        answered(code)
        return cls._opened(handle)

    @classmethod
    def from_columns(
        cls,
        columns: Mapping,
        *,
        kinds: Optional[Mapping] = None,
        texts: Sequence[str] = (),
        cuts: str = "",
        limit: int = MOST_ROWS,
        budget: int = MOST_CELLS,
        maps: int = MAPS,
    ) -> "Table":
        """Opens a table over columns: a mapping of one to eight names to arrays, lists or series of shape (rows,), all of one length.

        Arrays of whole numbers become `int`, of bool `flag`, of str `text`. Floats and Decimals want to be told how many decimals
        they have: `kinds={"price": "fix2"}`; each has to be a number of that many decimals. A name has 1 to 32 letters, digits and
        underscores. Arrays of int64 are read as they lie, whatever their stride.

        Args:
            kinds: kinds of columns by name, where others are wanted than those.
            texts: further texts that the table knows from the start; one of the columns is of texts then.
            cuts, limit, budget, maps: as of `from_csv`.
        """
        check_mapping(columns)
        given, handle = Given(columns, kinds, texts), border.Handle()
        code = lib.sideways_open_columns(given.table, *_cuts(cuts), _options(limit, budget, maps), handle)
        if code == BAD_TABLE:
            raise refusal(code, _fault(lib.sideways_columns_fault, given.table))
        answered(code)
        return cls._opened(handle)

    @classmethod
    def from_pandas(cls, frame: "pandas.DataFrame", **options: Any) -> "Table":
        """Opens a table over the columns of a pandas DataFrame; its index is passed by. The options are those of `from_columns`."""
        if not hasattr(frame, "columns"):
            raise TypeError(f"wanted a DataFrame, not {type(frame).__name__}")
        for name in frame.columns:
            if not isinstance(name, str):
                raise TypeError(f"the column {name!r} has no name that is a text")
        return cls.from_columns({name: frame[name].to_numpy() for name in frame.columns}, **options)

    def session(self) -> Session:
        """Opens another session, for another thread or visitor; a table has 1,024 at most."""
        return Session(self._engine)

    def stats(self) -> Dict[str, Dict[str, int]]:
        """What the head of each attribute tells: queries asked of it, areas, pieces, entries of tapes, restarts, maps in use, the cells
        these have (16 bytes each), and how often an area was scanned."""
        found = {}
        with self._engine.lock:
            for name, (place, _kind) in self._engine.attributes.items():
                stats = border.Stats()
                answered(lib.sideways_head_stats(self._engine.handle, place, stats))
                found[name] = {field: getattr(stats, field) for field, _type in stats._fields_}
        return found

    def history(self) -> bytes:
        """The history so far as the bytes of a history file, which is legal. The table stays open."""
        with self._engine.lock:
            answered(lib.sideways_history(self._engine.handle))
            return border.text_kept(self._engine.handle)

    def close(self) -> None:
        """Gives back what the table has in memory. Its history is lost, unless it was asked for before. A closed table may be closed."""
        with self._engine.lock:
            self._engine.free()

    def __enter__(self) -> "Table":
        return self

    def __exit__(self, *_fault: Any) -> None:
        self.close()

    def __repr__(self) -> str:
        state = "open" if self._engine.handle.is_open else "closed"
        return f"<sideways.Table of {', '.join(f'{name}:{kind}' for name, kind in self.attributes.items())}; {state}>"


def _word(what: str, number: int) -> int:
    """A number of 64 bits without a sign."""
    number = operator.index(number)
    if not 0 <= number < 1 << 64:
        raise ValueError(f"{what} is a whole number from 0 on, of 64 bits, not {number}")
    return number


def _read(path: Union[str, os.PathLike]) -> bytes:
    """The bytes of a file; of what is the text of a table rather than a path it is told that."""
    try:
        with open(path, "rb") as file:
            return file.read()
    except OSError:
        if "\n" in str(path):
            raise ValueError("a str is the path of a file here; the text of a table is given as bytes, as by .encode()") from None
        raise


def _fault(function, *table) -> str:
    """Where a table is none, in words."""
    place = border.Place()
    function(*table, place)
    if not place.column:
        return "there is no header"
    if place.row:
        return f"column {place.column} of row {place.row} is no cell of its kind, or is missing or beyond the last"
    return f"column {place.column} of the header is no attribute: a name of its own, and perhaps a kind, as in price:fix2"


def _options(limit: int, budget: int, maps: int) -> border.Options:
    return border.Options(_word("the limit", limit), _word("the budget", budget), _word("the number of maps", maps))


def _cuts(cuts: str):
    data = cuts.encode("utf-8")
    return data, len(data)
