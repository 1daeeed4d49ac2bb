#!/usr/bin/env python3
"""The package `sideways` of Python: random tables and calls beside numpy's own answers, what is taken and what is refused, sessions on
threads, and the check of the histories that come of it.

    python3 tests/embed/tables.py          with the package in PYTHONPATH, or installed"""

import decimal
import doctest
import json
import os
import random
import tempfile
import threading
import unittest

import numpy

import sideways
from sideways import Table

try:
    import pandas
except ImportError:
    pandas = None

CITIES = ["Oslo", "Bergen, N", "it's", "Ås", "", "x" * 64]
NUMBERS = {"a": numpy.int64, "b": numpy.int32, "c": numpy.uint16}


class Model:
    """A table in numpy: columns, keys, and which rows are live."""

    def __init__(self, columns):
        self.columns = {name: numpy.array(column, object if isinstance(column, list) else None) for name, column in columns.items()}
        rows = len(next(iter(self.columns.values())))
        self.keys, self.live = numpy.arange(1, rows + 1, dtype=numpy.uint64), numpy.ones(rows, bool)

    def meeting(self, ranges):
        mask = self.live.copy()
        for name, wanted in ranges.items():
            column = self.columns[name]
            low, high = wanted if isinstance(wanted, tuple) else (wanted, wanted)
            if low is not None:
                mask &= column >= low if not isinstance(low, str) else column == low
            if high is not None:
                mask &= column <= high if not isinstance(high, str) else column == high
        return mask

    def insert(self, columns):
        more = len(next(iter(columns.values())))
        first = self.keys.size + 1
        self.keys = numpy.append(self.keys, numpy.arange(first, first + more, dtype=numpy.uint64))
        self.live = numpy.append(self.live, numpy.ones(more, bool))
        for name, column in columns.items():
            old = self.columns[name]
            self.columns[name] = numpy.append(old, numpy.array(column, old.dtype))
        return self.keys[first - 1 :]


def random_columns(draw, rows, cities=CITIES):
    columns = {name: numpy.array([draw.randrange(100) for _ in range(rows)], kind) for name, kind in NUMBERS.items()}
    columns["price"] = numpy.array([draw.randrange(-500, 500) / 100 for _ in range(rows)], float)
    columns["ok"] = numpy.array([draw.random() < 0.5 for _ in range(rows)], bool)
    columns["city"] = [draw.choice(cities) for _ in range(rows)]
    return columns


def random_ranges(draw):
    ranges = {}
    for name in draw.sample(["a", "b", "c", "price", "ok", "city"], draw.randrange(4)):
        if name == "city":
            ranges[name] = draw.choice(CITIES + ["nowhere", f"new {draw.randrange(40)}"])
        elif name == "ok":
            ranges[name] = draw.random() < 0.5
        elif name == "price":
            low = draw.randrange(-600, 600) / 100
            ranges[name] = (low, round(low + draw.randrange(500) / 100, 2))
        else:
            low = draw.randrange(-10, 110)
            ranges[name] = draw.choice([low, (low, low + draw.randrange(50)), (None, low), (low, None), (low + 5, low), (low - 0.5, low + 9.5)])
    return ranges


def where_of(ranges):
    """The same ranges as a text; None where it cannot spell them."""
    terms = []
    for name, wanted in ranges.items():
        if isinstance(wanted, str):
            terms.append(f"{name} = '" + wanted.replace("'", "''") + "'")
        elif isinstance(wanted, bool):
            terms.append(f"{name} = {str(wanted).lower()}")
        elif isinstance(wanted, tuple):
            for sign, value in zip((">=", "<="), wanted):
                if value is not None:
                    terms.append(f"{name} {sign} " + (f"{value:.2f}" if name == "price" else str(value)))
                    if name != "price" and isinstance(value, float):
                        return None
        else:
            terms.append(f"{name}={wanted}")
    return " and ".join(terms) or None


class Random(unittest.TestCase):
    """Tables and calls that are made at random, beside a model in numpy."""

    def hold(self, table, model, draw):
        ranges = random_ranges(draw)
        where = where_of(ranges)
        words = {"where": where} if where is not None and draw.random() < 0.5 else ranges
        mask = model.meeting(ranges)
        kind = draw.randrange(9)
        if kind == 0:
            self.assertEqual(table.count(**words), int(mask.sum()), ranges)
        elif kind == 1:
            self.hold_aggregates(table, model, words, mask)
        elif kind in (2, 3, 4):
            names = draw.sample(list(model.columns), draw.randrange(1, 7))
            self.hold_rows(table.select(names, **words), model, names, mask)
            self.hold_view(table, model, names, words, mask)
        elif kind == 5 and model.keys.size:
            cities = model.columns["city"].tolist() + [f"new {draw.randrange(40)}"]
            self.hold_insert(table, model, random_columns(draw, draw.randrange(1, 9), cities))
        elif kind == 6:
            key = draw.randrange(model.keys.size + 3)
            stands = 0 < key <= model.keys.size and bool(model.live[key - 1])
            self.assertEqual(table.delete(key), stands)
            if stands:
                model.live[key - 1] = False
        elif kind == 7 and ranges and mask.sum() < 20:
            self.assertEqual(table.delete_where(**words), int(mask.sum()))
            model.live &= ~mask
        else:
            self.assertEqual(table.exec("count"), f"{int(model.live.sum())}\n")

    def hold_aggregates(self, table, model, words, mask):
        for name in ("a", "b", "c"):
            cells = model.columns[name][mask]
            self.assertEqual(table.sum(name, **words), int(cells.sum()))
            self.assertEqual(table.min(name, **words), int(cells.min()) if cells.size else None)
            self.assertEqual(table.max(name, **words), int(cells.max()) if cells.size else None)
        cents = numpy.rint(model.columns["price"][mask] * 100).astype(int)
        self.assertEqual(table.sum("price", **words), decimal.Decimal(int(cents.sum())).scaleb(-2))
        self.assertEqual(table.sum("ok", **words), int(model.columns["ok"][mask].sum()))

    def hold_rows(self, found, model, names, mask):
        self.assertEqual(list(found), ["key"] + names)
        self.assertEqual(found["key"].dtype, numpy.uint64)
        numpy.testing.assert_array_equal(found["key"], model.keys[mask])
        for name in names:
            numpy.testing.assert_array_equal(found[name], model.columns[name][mask], name)

    def hold_view(self, table, model, names, words, mask):
        before = table.history()
        self.hold_rows(table.view(names, **words), model, names, mask)
        self.assertEqual(table.history(), before)

    def hold_insert(self, table, model, columns):
        if len(columns["city"]) == 1:
            row = {name: column[0] for name, column in columns.items()}
            self.assertEqual(table.insert(row), int(model.insert(columns)[0]))
        else:
            numpy.testing.assert_array_equal(table.insert_many(columns), model.insert(columns))

    def test_beside_numpy(self):
        for seed in range(int(os.environ.get("TIMES", "1")) * 25):
            draw = random.Random(seed)
            columns = random_columns(draw, draw.choice([0, 1, 5, 50, 300]))
            with self.subTest(seed=seed):
                kinds = {"price": "fix2", "ok": "flag", "city": "text"}
                table, model = Table.from_columns(columns, kinds=kinds), Model(columns)
                for _ in range(60):
                    self.hold(table, model, draw)
                verdict = sideways.check(table.history())
                self.assertTrue(verdict, verdict.explanation)

    def test_options_change_no_reply(self):
        draw = random.Random(7)
        a, b = (numpy.array([draw.randrange(1000) for _ in range(3000)]) for _ in range(2))
        forms = [{}, {"budget": 0}, {"maps": 0}, {"maps": 1, "budget": 2000}, {"cuts": "a=300;a=600;b=10"}]
        tables = [Table.from_columns({"a": a, "b": b}, **options) for options in forms]
        for _ in range(100):
            low = draw.randrange(1000)
            wanted = int(b[(a >= low) & (a <= low + 50)].sum())
            for table in tables:
                self.assertEqual(table.sum("b", a=(low, low + 50)), wanted)
        self.assertGreater(tables[0].stats()["a"]["pieces"], 100)
        self.assertEqual(tables[0].stats()["a"]["scans"], 0)
        self.assertEqual(tables[2].stats()["a"]["scans"], 100)
        self.assertEqual(tables[4].stats()["a"]["areas"], 3)


class Kinds(unittest.TestCase):
    """Values of Python as cells, and back."""

    def test_kinds_of_columns(self):
        table = Table.from_columns({"i": [1, 2], "f": [True, False], "s": ["x", "y"], "d": [0.1, -7]}, kinds={"d": "fix1"})
        self.assertEqual(table.attributes, {"i": "int", "f": "flag", "s": "text", "d": "fix1"})
        found = table.select()
        self.assertEqual([found[name].dtype for name in found], [numpy.uint64, numpy.int64, numpy.bool_, object, numpy.float64])
        self.assertEqual(found["d"].tolist(), [0.1, -7.0])
        self.assertEqual(table.sum("d"), decimal.Decimal("-6.9"))
        self.assertIs(table.max("f"), True)
        self.assertIsNone(table.min("i", i=(5, 1)))

    def test_integers_of_all_widths(self):
        for kind in (numpy.int8, numpy.uint8, numpy.int16, numpy.int32, numpy.uint64, ">i8", ">i2"):
            with self.subTest(kind=kind):
                self.assertEqual(Table.from_columns({"a": numpy.array([1, 2, 100], kind)}).sum("a"), 103)

    def test_texts_that_are_quoted(self):
        texts = ['"', ",", 'a "b", c', "", " ", "ÅØ日本", "it's", "#", "x" * 64]
        table = Table.from_columns({"city": texts})
        self.assertEqual(table.select()["city"].tolist(), texts)
        self.assertEqual([table.count(city=text) for text in texts], [1] * len(texts))

    def test_many_rows(self):
        draw = numpy.random.default_rng(4)
        columns = {"a": draw.integers(-(2**62), 2**62, 200000), "p": draw.integers(-(10**6), 10**6, 200000) / 1000, "ok": draw.random(200000) < 0.5}
        found = Table.from_columns(columns, kinds={"p": "fix3"}).select()
        for name, column in columns.items():
            numpy.testing.assert_array_equal(found[name], column, name)

    def test_strides(self):
        whole = numpy.arange(60, dtype=numpy.int64).reshape(20, 3)
        for column in (whole[:, 1], whole[::2, 2], whole[::-1, 0], whole[5:5, 0], whole[3:4, 1]):
            table = Table.from_columns({"a": column, "b": numpy.ascontiguousarray(column)})
            numpy.testing.assert_array_equal(table.select("a")["a"], column)
            numpy.testing.assert_array_equal(table.select("b")["b"], column)
            numpy.testing.assert_array_equal(table.insert_many({"a": column, "b": column}), numpy.arange(column.size) + column.size + 1)

    def test_one_cell_for_all_rows(self):
        one = numpy.broadcast_to(numpy.int64(7), 1000)
        table = Table.from_columns({"a": one, "b": numpy.arange(1000)})
        self.assertEqual((table.sum("a"), table.count(a=7, b=(0, 9))), (7000, 10))
        self.assertEqual(table.insert_many({"a": one, "b": one}).tolist(), list(range(1001, 2001)))

    def test_new_texts(self):
        table = Table.from_columns({"a": [1], "city": ["Oslo"]})
        self.assertEqual(table.insert([2, "Bonn"]), 2)
        self.assertEqual(table.insert_many({"a": [3, 4], "city": ["Rom", "Bonn"]}).tolist(), [3, 4])
        self.assertEqual(table.exec("insert 5, 'Ulm'"), "key 5\n")
        self.assertEqual((table.count(city="Wien"), table.count(city="Ulm"), table.count("city = 'Bonn'")), (0, 1, 2))
        self.assertEqual(table.select("city")["city"].tolist(), ["Oslo", "Bonn", "Rom", "Bonn", "Ulm"])
        before = table.history()
        for line in ("insert 6, 'Genf', 1", "insert 6 'Genf'", "count where city < 'Genf'"):
            with self.assertRaises(sideways.BadLine):
                table.exec(line)
        self.assertEqual(table.view("a", city="Genf")["a"].shape, (0,))
        self.assertEqual(table.history(), before)
        for text in ("x" * 65, "\n"):
            with self.assertRaises(sideways.BadCell):
                table.count(city=text)
        self.assertEqual(len(json.loads(before)["entries"]), 8)
        self.assertTrue(sideways.check(before))

    def test_texts_that_no_row_has(self):
        table = Table.from_columns({"a": [1, 2], "city": ["Oslo", "Bergen"]}, texts=["Bonn", "Oslo", "Bonn"])
        self.assertEqual(table.insert([3, "Bonn"]), 3)
        self.assertEqual((table.count(city="Bonn"), table.count("city = 'Oslo'")), (1, 1))
        self.assertEqual(table.exec("select city"), "1: 'Oslo'\n2: 'Bergen'\n3: 'Bonn'\n(3 rows)\n")
        verdict = sideways.check(table.history())
        self.assertTrue(verdict, verdict.explanation)
        for columns, texts in (({"a": [1]}, ["x"]), ({"city": ["x"]}, ["\n"]), ({"city": ["x"]}, [5])):
            with self.subTest(texts=texts), self.assertRaises((TypeError, ValueError)):
                Table.from_columns(columns, texts=texts)

    def test_extremes(self):
        ends = [-(2**63), -1, 0, 2**63 - 1]
        table = Table.from_columns({"a": numpy.array(ends * 2)})
        self.assertEqual(table.sum("a"), -4)
        self.assertEqual(table.sum("a", a=(1, None)), 2 * (2**63 - 1))
        self.assertEqual(table.count(a=(-(10**40), 10**40)), 8)
        self.assertEqual(table.count(a=(float("-inf"), float("inf"))), 8)
        self.assertEqual(table.count(a=(10**40, None)), 0)
        self.assertEqual(table.count(a=(None, -(10**40))), 0)
        self.assertEqual(table.count(a=(2**63 - 1, 2**70)), 2)
        self.assertEqual(table.count(a=10**40), 0)
        with self.assertRaises(ValueError):
            table.insert([2**63])

    def test_bounds_between_cells(self):
        table = Table.from_columns({"p": [1.0, 1.25, 1.5]}, kinds={"p": "fix2"})
        self.assertEqual(table.count(p=(1.001, 1.25)), 1)
        self.assertEqual(table.count(p=(1.0, 1.2499)), 1)
        self.assertEqual(table.count(p=1.2501), 0)
        self.assertEqual(table.count(p=(decimal.Decimal("1.25"), numpy.float32(1.5))), 2)
        with self.assertRaises(ValueError):
            table.count(p=(float("nan"), 2))

    def test_decimals_are_exact(self):
        values = [decimal.Decimal("92233720368547758.07"), decimal.Decimal("-0.01"), 3]
        table = Table.from_columns({"p": numpy.array(values, object)}, kinds={"p": "fix2"})
        self.assertEqual(table.sum("p"), sum(values))
        self.assertEqual(table.max("p"), values[0])
        for bad in ([0.125], [1e300], [float("nan")], [decimal.Decimal("1e30")], [None], ["1"]):
            with self.subTest(bad=bad), self.assertRaises((TypeError, ValueError)):
                Table.from_columns({"p": bad}, kinds={"p": "fix2"})

    def test_columns_that_are_none(self):
        cases = [{}, {"a": [1, 2], "b": [1]}, {"a": [[1]]}, {"a": [1.5]}, {"a": [None]}, {"a": [1, "x"]}, {"2a": [1]}, {"a" * 33: [1]}]
        cases += [{"count": [1]}, {"a,b": [1]}, {"a\n": [1]}, {"a:int": [1]}, {5: [1]}]
        cases += [{"a": ["x" * 65]}, {"a": ["\n"]}, {"a": ["x\x00"]}, {"a": numpy.array(["2020-01-01"], "M8[D]")}]
        cases.append({chr(97 + place): [1] for place in range(9)})
        for columns in cases:
            with self.subTest(columns=columns), self.assertRaises((TypeError, ValueError)):
                Table.from_columns(columns)
        for kinds in ({"a": "real"}, {"b": "int"}, {"a": "flag"}, {"a": "text"}):
            with self.subTest(kinds=kinds), self.assertRaises((TypeError, ValueError)):
                Table.from_columns({"a": [1]}, kinds=kinds)

    @unittest.skipIf(pandas is None, "pandas is not there")
    def test_data_frames(self):
        frame = pandas.DataFrame({"a": [3, 1, 2], "city": ["x", "y", "x"], "price": [0.5, 1.25, 2]}, index=[9, 8, 7])
        table = Table.from_pandas(frame, kinds={"price": "fix2"})
        found = table.to_pandas(["city", "price"], a=(2, 3))
        wanted = frame.loc[[9, 7], ["city", "price"]].set_index(pandas.Index(numpy.array([1, 3], numpy.uint64), name="key"))
        pandas.testing.assert_frame_equal(found, wanted)
        self.assertEqual(list(table.insert_many(frame)), [4, 5, 6])
        sorts = {"a": pandas.array([1, 2], "Int64"), "s": pandas.Categorical(["x", "y"]), "f": pandas.array([True, False], "boolean")}
        self.assertEqual(Table.from_pandas(pandas.DataFrame(sorts)).attributes, {"a": "int", "s": "text", "f": "flag"})
        for column in (pandas.array([1, None], "Int64"), pandas.array(["x", None], "string"), [0.5, None], [1, None]):
            with self.assertRaises(TypeError):
                Table.from_pandas(pandas.DataFrame({"a": column}))
        with self.assertRaises(TypeError):
            Table.from_pandas(pandas.DataFrame([[1, 2]]))


class Conditions(unittest.TestCase):
    """What `where` takes, beside the engine's own reading of a line."""

    def setUp(self):
        self.table = Table.from_csv(b"a:int,p:fix2,ok:flag,city:text,class\n12,7.50,true,Oslo,1\n3,8,false,it's,2\n12,-0.25,true,Oslo,3\n")

    def test_as_a_line(self):
        lines = ["a >= 10", " a<=12 and\ta>3", "p = -0.25", "p < 7.5 and p >= -00.2500"[:22], "ok = true and city='Oslo'", "city = 'it''s'"]
        lines += ["a = +12 and a = 12", "a = 12 and a = 3", "class > 1 and class < 3", "ok >= false", "a > 9223372036854775806"]
        for where in lines:
            with self.subTest(where=where):
                self.assertEqual(f"{self.table.count(where)}\n", self.table.exec(f"count where {where}"))
        self.assertEqual(self.table.count("city = 'Oslo' and city = 'it''s'"), 0)
        self.assertEqual(self.table.count("city = 'Paris'"), 0)
        self.assertEqual(self.table.select("a", city="Paris")["a"].shape, (0,))
        self.assertEqual(self.table.sum("a", city="Paris"), 0)
        self.assertEqual(self.table.count("a >= 10", a=(None, 12), **{"class": 3}), 1)

    def test_refused_as_a_line_is(self):
        lines = ["", "a", "a >", "a > 1x", "a =< 1", "a > 1 and", "a > 1 or a < 5", "a > 1,", "> 1", "count > 1", "a = 'x'", "city = Oslo"]
        lines += ["city < 'Oslo'", "city = 'Oslo", "p = 1.255", "ok = 1", "a = true", "a = 9223372036854775808", "a = 1.0", "a > 1 a < 2"]
        lines += ["a = 1;", "'a' = 1", "a = 1 # b"]
        for where in lines:
            with self.subTest(where=where):
                with self.assertRaises(sideways.BadLine) as found:
                    self.table.count(where)
                self.assertEqual(found.exception.code, 3)
                with self.assertRaises(sideways.BadLine):
                    self.table.exec(f"count where {where}")
        for call in (lambda: self.table.count("d = 1"), lambda: self.table.count(d=1), lambda: self.table.exec("count where d = 1")):
            with self.assertRaises(sideways.UnknownAttribute) as found:
                call()
            self.assertEqual(found.exception.code, 4)

    def test_where_it_is_wrong_is_shown(self):
        with self.assertRaises(sideways.BadLine) as found:
            self.table.count("a >= 1 and city = Oslo")
        wanted = "refused 3: 'Oslo' cannot stand there, wanted a text in single quotes\n  a >= 1 and city = Oslo\n                    ^\n"
        self.assertEqual(str(found.exception), wanted)

    def test_a_refused_line_in_words(self):
        cases = [("sum where a > 1", 3, "column 5: 'where' cannot stand there, wanted a, p, ok, class"), ("count where d = 1", 4, "column 13: 'd'")]
        cases += [("", None, None), ("select a where city = Oslo", 3, "column 23: 'Oslo' cannot stand there, wanted a text in single quotes\n")]
        cases += [("count where", 3, "column 12: the line ends too early, wanted a, p, ok, city, class"), ("x" * 5000, 3, "5000 bytes, at most 4096")]
        for line, code, words in cases:
            with self.subTest(line=line[:40]):
                if code is None:
                    self.assertEqual(self.table.exec(line), "")
                    continue
                with self.assertRaises(sideways.Error) as found:
                    self.table.exec(line)
                self.assertEqual(found.exception.code, code)
                self.assertIn(words, str(found.exception))

    def test_values_of_another_kind(self):
        for ranges in ({"a": "x"}, {"a": None}, {"a": True}, {"ok": 1}, {"city": 5}, {"city": ("Oslo", "Paris")}, {"a": (1, 2, 3)}, {"p": b"x"}):
            with self.subTest(ranges=ranges), self.assertRaises((TypeError, ValueError)):
                self.table.count(**ranges)


class Tables(unittest.TestCase):
    """Opening, ending, what is refused, and sessions."""

    def test_from_a_file(self):
        with tempfile.TemporaryDirectory() as folder:
            path = os.path.join(folder, "t.csv")
            with open(path, "wb") as file:
                file.write(b"a,b\n12,7\n3,8\n")
            self.assertEqual(Table.from_csv(path).count(), 2)
            self.assertEqual(Table.from_csv(memoryview(b"a\n1\n")).count(), 1)
            with self.assertRaises(OSError):
                Table.from_csv(path + ".none")
            with self.assertRaisesRegex(ValueError, "given as bytes"):
                Table.from_csv("a,b\n12,7\n")
        for other in (0, None, [b"a\n1\n"]):
            with self.subTest(other=other), self.assertRaisesRegex(TypeError, "wanted bytes"):
                Table.from_csv(other)

    def test_refused_tables(self):
        cases = [(b"", 2), (b"a:real\n", 2), (b"a\nx\n", 2), (b"a,b\n1\n", 2), (b"a,a\n", 2), (b"a,b,c,d,e,f,g,h,i\n", 5)]
        for text, code in cases:
            with self.subTest(text=text), self.assertRaises(sideways.Error) as found:
                Table.from_csv(text)
            self.assertEqual(found.exception.code, code)
            self.assertTrue(found.exception.explanation)
        for text, place in ((b"a,b:real\n", "column 2 of the header"), (b"a,b\n1,2\n3,x\n", "column 2 of row 2")):
            with self.assertRaisesRegex(sideways.BadTable, place):
                Table.from_csv(text)
        with self.assertRaisesRegex(sideways.BadTable, "'where' is a word of the language"):
            Table.from_columns({"a": [1], "where": [2]})
        with self.assertRaisesRegex(sideways.BadTable, "no header"):
            Table.from_csv(b"")
        for options in ({"limit": 0}, {"limit": 2**20 + 1}, {"maps": 4097}, {"budget": 2**41}, {"cuts": "x"}, {"maps": -1}, {"budget": 2**64}):
            with self.subTest(options=options), self.assertRaises((sideways.Error, ValueError)):
                Table.from_csv(b"a\n1\n", **options)

    def test_a_table_that_is_full(self):
        table = Table.from_columns({"a": [1]}, limit=3)
        with self.assertRaises(sideways.Full) as found:
            table.insert_many({"a": [2, 3, 4]})
        self.assertEqual(found.exception.keys.tolist(), [2, 3, 0])
        with self.assertRaises(sideways.Full):
            table.insert([5])
        self.assertEqual(table.exec("insert 6"), "full\n")
        self.assertEqual(table.count(), 3)
        replies = [entry["reply"] for entry in json.loads(table.history())["entries"]]
        self.assertEqual(replies, [["key 2"], ["key 3"], ["full"], ["full"], ["full"], ["3"]])

    def test_rows_that_are_none(self):
        table = Table.from_columns({"a": [1], "city": ["Oslo"]})
        self.assertEqual(table.insert([2, "Oslo"]), 2)
        rows = [[1], [1, "Oslo", 3], [1, "x" * 65], ["x", "Oslo"], [1.5, "Oslo"], [1, 2], {"a": 1}, {"a": 1, "city": "Oslo", "b": 2}]
        for row in rows:
            with self.subTest(row=row), self.assertRaises((TypeError, ValueError, LookupError)):
                table.insert(row)
        for columns in ({"a": [1]}, {"a": [1, 2], "city": ["Oslo"]}, {"a": [1], "city": ["\x00"]}, {"a": [0.5], "city": ["Oslo"]}):
            with self.subTest(columns=columns), self.assertRaises((TypeError, ValueError)):
                table.insert_many(columns)
        self.assertEqual(table.insert_many({"a": [], "city": []}).shape, (0,))
        self.assertEqual(table.count(), 2)
        for call in (lambda: table.select([]), lambda: table.sum("city"), lambda: table.delete_where(), lambda: table.delete(-1)):
            with self.assertRaises((sideways.Error, ValueError, TypeError)):
                call()

    def test_what_ends(self):
        with Table.from_columns({"a": [1, 2]}) as table:
            session = table.session()
            self.assertEqual((table.number, session.number), (1, 2))
            self.assertEqual(session.count(), 2)
            history = table.history()
            self.assertEqual(table.history(), history)
            table.insert([3])
            self.assertEqual([len(json.loads(it)["entries"]) for it in (history, table.history())], [1, 2])
        calls = [table.count, session.count, table.session, table.select, table.view, table.stats, table.history]
        for call in calls + [lambda: table.exec("count"), lambda: table.insert([1])]:
            with self.assertRaises(sideways.Closed) as found:
                call()
            self.assertEqual(found.exception.code, 100)
        table.close()
        table.close()
        self.assertIn("closed", repr(table))

    def test_names_of_any_sort(self):
        names = ["self", "key", "key_", "attribute", "columns", "session", "where_", "name"]
        table = Table.from_columns({name: [place] for place, name in enumerate(names)})
        self.assertEqual(list(table.select("self", **dict.fromkeys(names[1:3], (None, 9)))), ["key__", "self"])
        self.assertEqual(table.sum("name", **{name: place for place, name in enumerate(names)}), 7)

    def test_the_example(self):
        found = doctest.testmod(sideways)
        self.assertEqual((found.failed, found.attempted > 5), (0, True))

    def test_the_check(self):
        table = Table.from_columns({"a": [1, 2]})
        table.count(a=1)
        table.delete(2)
        history = table.history()
        self.assertEqual(sideways.check(history), (True, None, "legal\n"))
        wrong = history.replace(b'["removed"]', b'["no such key"]')
        verdict = sideways.check(wrong)
        self.assertEqual((verdict.legal, verdict.entry), (False, 2))
        self.assertTrue(verdict.explanation.startswith("not legal: entry 2\nentry 2, session 1: delete 2\n"))
        for data in (b"", b"{}", history[:-1]):
            with self.assertRaises(sideways.BadLine):
                sideways.check(data)
        self.assertTrue(sideways.check(memoryview(history)))
        for other in ("history.json", 5, None):
            with self.subTest(other=other), self.assertRaisesRegex(TypeError, "wanted bytes"):
                sideways.check(other)

    def test_sessions_on_threads(self):
        draw = random.Random(3)
        table = Table.from_columns({"a": numpy.array([draw.randrange(1000) for _ in range(2000)]), "b": numpy.arange(2000)})
        told, faults = {}, []
        threads = [threading.Thread(target=self.visit, args=(table.session(), told, faults)) for _ in range(8)]
        for thread in threads:
            thread.start()
        for thread in threads:
            thread.join()
        self.assertEqual(faults, [])
        history = table.history()
        verdict = sideways.check(history)
        self.assertTrue(verdict, verdict.explanation)
        kept = {}
        for entry in json.loads(history)["entries"]:
            kept.setdefault(entry["session"], []).append(entry["reply"])
        self.assertEqual(kept, told)

    @staticmethod
    def visit(session, told, faults):
        try:
            draw, mine = random.Random(session.number), []
            for _ in range(200):
                kind, low = draw.randrange(4), draw.randrange(1000)
                if kind == 0:
                    mine.append([str(session.count(a=(low, low + 20)))])
                elif kind == 1:
                    mine.append([f"key {session.insert([low, low])}"])
                elif kind == 2:
                    mine.append(["removed" if session.delete(low) else "no such key"])
                else:
                    rows = session.select("b", a=(low, low + 3))
                    lines = [f"{key}: {cell}" for key, cell in zip(rows["key"], rows["b"])]
                    mine.append(lines + [f"({len(lines)} rows)"])
            told[session.number] = mine
        except Exception as fault:
            faults.append(fault)


if __name__ == "__main__":
    unittest.main()
