#!/usr/bin/env python3
"""Malformed tables, scripts, cuts and histories: each is given to the program, whose status, output and fault line must be
those of the plain reader beside this file. The small table, a script and a history are cut at every byte and changed at every
byte; the rest is random from a seed. Ends with 1 and the first case that is wrong."""
import random
from histories import check
from making import (ODD_BYTES, ODD_CELLS, ODD_FIELDS, ODD_JSON, ODD_TOKENS, chance, edited, schema_for, script_for, separated,
                    spaced, call_for, table_for)
from model import run
from reading import Fault, load
from running import Holder, ended, options, wrong

TABLE = b"a:int,b:int,c:int\n12,7,1\n3,8,0\n12,5,1\n20,2,0\n"
MIXED = b'price:fix2,"ok:flag",n\r\n+007.5,true,-0\n"-0.25",false,9223372036854775807\r"3","true",-9223372036854775808'
SCRIPT = (b"count\r\n# of b\n\tselect b,c where a>=10 and a <= 15\n\n--- \ninsert -1, +2, 003\nsum b where c=0\n"
          b"delete 18446744073709551615\n---\nmin a where b < 9 and b > 2\nmax c\ndelete where a>3 and b<=7\n")
CITIES = b'city:text,n\nOslo,1\n"Bergen, N",2\n'
CITY_SCRIPT = (b"count where city = 'Oslo'\ninsert 'it''s', 4\n---\nselect city, n where city='it''s' and n>1\n"
               b"sum n where city = '' and city = 'x'")
WHERE_SCRIPT = b"delete where city = 'Oslo'\ncount\ndelete where n >= 2 and city = 'x'"
# Bytes of a table and what its reading gives, worked out by hand.
CUT_BY_HAND = {0: "2 record 0 field 0", 6: "2 record 0 field 2", 40: "2 record 4 field 2", 42: "2 record 4 field 3", 43: "2 record 4 field 3",
               7: 0, 31: 2, 44: 4, 45: 4}
# Lines over that table and what they are refused with, or what they are answered there, worked out by hand.
LINES_BY_HAND = {b"delete where": "3 line 1 why End", b"delete where a": "3 line 1 why End", b"delete where a = 1 and": "3 line 1 why End",
                 b"delete where where": "3 line 1 why Word", b"delete where 1": "3 line 1 why Word", b"delete 1 where a = 1": "3 line 1 why Word",
                 b"delete where a = 1, b = 2": "3 line 1 why Word", b"delete a = 1": "3 line 1 why Value", b"delete Where a = 1": "3 line 1 why Value",
                 b"delete where a = x": "3 line 1 why Value", b"delete 'where' a = 1": "3 line 1 why Value", b"delete where d = 1": "4 name d",
                 b"delete where a = 12": "(2 removed)\n", b"delete where a > 12 and b < 9": "(1 removed)\n", b"delete where a > 20": "(0 removed)\n",
                 b"delete where a = 12\nselect a\ndelete where a=12\ninsert 1, 1, 1": "(2 removed)\n2: 3\n4: 20\n(2 rows)\n(0 removed)\nkey 5\n"}


def of_run(name, table, script, cuts=b"", limit=None):
    """A run of a table and a script, and what is expected of it."""
    words = ["run", "--table", "t.csv", "--script", "s.txt"] + (["--cuts", cuts.decode()] if cuts else [])
    words += ["--limit", str(limit)] if limit else []
    return name, {"t.csv": table, "s.txt": script}, words, run(table, script, cuts, limit or 1 << 20)[:3]


def of_table(name, table):
    """A run whose script shows all of a table, where it has one."""
    try:
        script = b"select " + b", ".join(attribute for attribute, _ in load(table)[0])
    except Fault:
        script = b"count"
    return of_run(name, table, script)


def of_check(name, data):
    return name, {"h.json": data}, ["check", "h.json"], check(data)


def around(kind, make, data, pieces):
    """A text cut at every byte, and with every byte taken out, doubled, and changed to or preceded by each of some pieces."""
    for at in range(len(data) + 1):
        yield make("%s cut after %d bytes" % (kind, at), data[:at])
        yield make("%s without byte %d" % (kind, at), data[:at] + data[at + 1:])
        yield make("%s with byte %d doubled" % (kind, at), data[:at + 1] + data[at:])
        for piece in pieces:
            yield make("%s with %r for byte %d" % (kind, piece, at), data[:at] + piece + data[at + 1:])
            yield make("%s with %r at byte %d" % (kind, piece, at), data[:at] + piece + data[at:])


def by_hand():
    """The results that were worked out by hand, held against the reader and the model themselves."""
    for kept, expected in CUT_BY_HAND.items():
        try:
            got = len(load(TABLE[:kept])[1])
        except Fault as fault:
            got = str(fault)
        if got != expected:
            wrong("the reader, of the table cut after %d bytes" % kept, {}, [], expected, got)
    for line, expected in LINES_BY_HAND.items():
        _, out, fault, _ = run(TABLE, line)
        if out + fault not in (expected, "sideways: refused %s\n" % expected):
            wrong("the reader, of the line %r" % line, {}, [], expected, out + fault)
    history = run(TABLE, b"delete where a = 12")[3]
    first = b'{"call":"delete where a >= 12 and a <= 12","reply":["(2 removed)"],"session":1}'
    if first not in history or [check(history.replace(b'"format":3', b'"format":%d' % of))[0] for of in range(5)] != [2, 2, 2, 0, 2]:
        wrong("the reader, of a history of format 3", {}, [], first, history)


def random_tables(rng, count):
    for number in range(count):
        records = table_for(rng, schema_for(rng), rng.randrange(8), 1000)
        for _ in range(rng.choice([0, 0, 1, 2])):
            record = rng.choice(records)
            at = rng.randrange(len(record))
            record[at] = rng.choice(ODD_FIELDS if record is records[0] else ODD_CELLS)
        if chance(rng, 0.2):
            record = rng.choice(records)
            record.insert(rng.randrange(len(record) + 1), b"1")
        data = separated(rng, records)
        yield of_table("random table %d" % number, edited(rng, data, ODD_BYTES, rng.choice([0, 0, 1, 2, 4])))


def random_scripts(rng, count):
    for number in range(count):
        schema = schema_for(rng)
        table = separated(rng, table_for(rng, schema, rng.randrange(6), 9))
        lines = script_for(rng, schema, rng.randrange(6), 9, 6).split(b"\n")
        if chance(rng, 0.5):
            tokens = call_for(rng, schema, 9, 6, 0.3, 4)
            for _ in range(rng.choice([1, 1, 2])):
                at = rng.randrange(len(tokens) + 1)
                tokens[at:at + rng.randrange(2)] = rng.choice([[rng.choice(ODD_TOKENS)], [rng.choice(schema)[0]], [rng.choice(ODD_CELLS)], []])
            lines.insert(rng.randrange(len(lines) + 1), spaced(rng, tokens) if chance(rng, 0.5) else b" ".join(tokens))
        script = b"\n".join(lines)
        yield of_run("random script %d" % number, table, edited(rng, script, ODD_TOKENS, rng.choice([0, 0, 1, 2])))


def random_cuts(rng, count):
    for number in range(count):
        parts = [b"%s=%d" % (rng.choice([b"a", b"a", b"b", b"c"]), value) for value in sorted(rng.choices(range(-40, 40), k=rng.randrange(24)))]
        text = b";".join(parts)
        if chance(rng, 0.5):
            text = edited(rng, text, [b";", b"=", b"a", b"zz", b" ", b"where", b"9" * 65, b"1.0", b"+"], rng.choice([1, 2]))
        text = bytes(byte for byte in text if 0 < byte < 128)
        if not text.startswith(b"-"):
            yield of_run("random cuts %d" % number, TABLE, b"count where a > 3", text, rng.choice([None, None, None, 3, 4]))


def random_histories(rng, count):
    for number in range(count):
        schema = schema_for(rng, 3)
        table = separated(rng, table_for(rng, schema, rng.randrange(4), 9))
        data = run(table, script_for(rng, schema, rng.randrange(5), 9, 6))[3]
        yield of_check("random history %d" % number, edited(rng, data, ODD_JSON, rng.choice([1, 1, 2, 3])))


def lines_by_length():
    for length in (4095, 4096, 4097):
        yield of_run("a comment of %d bytes" % length, TABLE, b"count\n#" + b"x" * (length - 1))
        yield of_run("a call of %d bytes" % length, TABLE, b"count" + b" " * (length - 5) + b"\r\ncount")
        yield of_run("a divider of %d bytes" % length, TABLE, b"---" + b"\t" * (length - 3) + b"\ncount")
        yield of_run("a line of %d bytes that is no text" % length, TABLE, b"\xff" * length)
        terms = b" and ".join(b"a > %d" % number for number in range(1000))
        yield of_run("a query of %d bytes" % length, TABLE, (b"count where " + terms)[:length])
    yield of_run("a field of a million bytes", b"a\n" + b"1" * 1000000, b"count")
    yield of_run("a quoted field that never ends", b'a\n"1' + b"\n" * 100000, b"count")


def dividers():
    for blocks in (1023, 1024, 1025):
        yield of_run("%d blocks" % blocks, TABLE, b"---\n" * (blocks - 1))
        yield of_run("%d blocks with a call each" % blocks, TABLE, b"insert 1, 2, 3\n---\n" * (blocks - 1) + b"count")
    yield of_run("block 1025 after a fault", TABLE, b"---\n" * 1000 + b"fetch\n" + b"---\n" * 100)
    yield of_run("block 1025 before a fault", TABLE, b"---\n" * 1024 + b"fetch\n")


def variants_of_history():
    """Nesting, numbers, texts, doubled members and another order, at places of a good history."""
    good = b'{"attributes":["a:int","b:flag"],"entries":[{"call":"count","reply":["1"],"session":1}],"format":1,"limit":9,"rows":[[7,1]]}'
    for depth in (1, 124, 125, 126, 127, 128, 10000, 1000000):
        for left, right in ((b"[", b"]"), (b'{"x":', b"}")):
            nest = left * depth + (b"" if left == b"[" else b"1") + right * depth
            for place in (b"9", b"[7,1]", b"[[7,1]]", b'["1"]', b'"1"', b'{"call":"count","reply":["1"],"session":1}', good):
                yield of_check("%d brackets" % depth, good.replace(place, nest))
            yield of_check("%d open brackets" % depth, good.replace(b"9", left * depth))
            yield of_check("a member more, of %d brackets" % depth, good[:-1] + b',"more":' + nest + b"}")
    numbers = [b"1e0", b"1.0", b"-0", b"-1", b"01", b"+1", b"1E0", b"1e-1", b"0x1", b"9223372036854775807", b"9223372036854775808",
               b"-9223372036854775808", b"-9223372036854775809", b"18446744073709551615", b"18446744073709551616", b"1e999", b"NaN",
               b"-Infinity", b'"1"', b"true", b"null", b"[1]", b"1.", b".5", b"1e", b"-", b"", b"1 ", b" 1\n", b"1" * 1000, b"0", b"2", b"3", b"4", b"1024", b"1025",
               b"1048576", b"1048577"]
    for number in numbers:
        for before, after in ((b'"session":', b"1}"), (b'"format":', b"1,"), (b'"limit":', b"9,"), (b"[[", b"7,"), (b",", b"1]]")):
            yield of_check("number %r" % number, good.replace(before + after, before + number + after[1:]))
    strings = [b'"\\ud800"', b'"\\udc00\\ud800"', b'"\\ud83d\\ude00"', b'"\\uD83D"', b'"\xed\xa0\x80"', b'"\\u0000"', b'"\x01"', b'"\\x"', b'"\\u12"',
               b'"', b"'1'", b'"\\u0031"', b'"1\\n"', b'"1 "', b'""', b'"\xc3\xa9"', b'"c\\u006funt"', b'"\\/"', b'"co\\\\unt"']
    for text in strings:
        for old in (b'"1"', b'"count"', b'"a:int"', b'"call"', b'"rows"', b'["1"]'):
            yield of_check("text %r" % text, good.replace(old, text))
    entry = b'"call":"count","reply":["1"],"session":1'
    for more in (b'"session":2', b'"session":0', b'"reply":["2"]', b'"reply":"void"', b'"reply":"open"', b'"call":"count where"', b'"more":1', b'"call":7'):
        yield of_check("a member doubled behind: %r" % more, good.replace(entry, entry + b"," + more))
        yield of_check("a member doubled before: %r" % more, good.replace(entry, more + b"," + entry))
    for more in (b'"limit":0', b'"rows":[]', b'"entries":[]', b'"entries":7', b'"format":2', b'"format":3', b'"attributes":["c"]', b'"ROWS":[]'):
        yield of_check("an outer member doubled behind: %r" % more, good[:-1] + b"," + more + b"}")
        yield of_check("an outer member doubled before: %r" % more, b"{" + more + b"," + good[1:])
    calls = [b"count where", b"count where d = 1", b"---", b"", b"# count", b"delete 2", b"count\\n", b"count" + b" " * 4092, b"count\\u0009", b"\xc3\xa9",
             b"delete where a = 7", b"delete where  b=true and a<7", b"delete where", b"delete where d = 1", b"delete where a = 7 b = 1", b" delete\\twhere a>=0"]
    for call in calls:
        for reply in (b'["1"]', b'"void"', b'"open"', b'["no such key"]', b'["(1 removed)"]', b'["(0 removed)"]', b'"other"'):
            for of_format in (b"1", b"2", b"3"):
                data = good.replace(b'"count"', b'"' + call + b'"').replace(b'["1"]', reply).replace(b'"format":1', b'"format":' + of_format)
                yield of_check("call %r under format %s" % (call, of_format.decode()), data)
    yield of_check("a byte order mark", b"\xef\xbb\xbf" + good)
    yield of_check("blanks", good.replace(b",", b" ,\r\n\t ").replace(b":[", b" : [ ") + b"\n \n")
    yield of_check("two texts", good + good)
    yield of_check("another order", b'{"rows":[[7,1]],"limit":9,"format":1,"entries":[{"session":1,"reply":["1"],"call":"count"}],"attributes":["a","b:flag"]}')


def main():
    given = options(__doc__)
    by_hand()
    holder, rng, times = Holder(given.program), random.Random(given.seed), given.times
    pieces = [b'"', b",", b"\r", b"\xff", b"-"]
    holder.hold("the table around every byte", around("the table", of_table, TABLE, pieces))
    holder.hold("a table of other kinds around every byte", around("the table", of_table, MIXED, [b'"', b"\n", b"."]))
    holder.hold("a script around every byte", around("the script", lambda name, data: of_run(name, TABLE, data), SCRIPT, [b",", b"\n", b"\xff", b"x"]))
    holder.hold("a table of texts around every byte", around("the table of texts", of_table, CITIES, [b'"', b"\x1f", b"\x7f", b"\xc3\xa9", b"'"]))
    holder.hold("a script over texts around every byte",
                around("the script over texts", lambda name, data: of_run(name, CITIES, data), CITY_SCRIPT, [b"'", b"''", b"\xff", b" "]))
    holder.hold("a history of texts around every byte",
                around("the history of texts", of_check, run(CITIES, CITY_SCRIPT)[3], [b'"', b"'", b"\\", b"\\u00e9", b"\\u0007"]))
    holder.hold("a history of deletes by conditions around every byte",
                around("the history of deletes", of_check, run(CITIES, WHERE_SCRIPT)[3], [b'"', b"'", b"0", b"3", b" "]))
    holder.hold("lines by their length", lines_by_length())
    holder.hold("dividers", dividers())
    history = run(TABLE, b"count")[3]
    holder.hold("a history around every byte", around("the history", of_check, history, [b'"', b",", b"0", b" ", b"\xff", b"\\"]))
    holder.hold("variants of a history", variants_of_history())
    holder.hold("random tables", random_tables(rng, 3000 * times))
    holder.hold("random scripts", random_scripts(rng, 3000 * times))
    holder.hold("random texts of cuts", random_cuts(rng, 600 * times))
    holder.hold("random histories", random_histories(rng, 3000 * times))
    holder.end()


if __name__ == "__main__":
    ended(main)
