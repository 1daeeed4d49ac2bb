#!/usr/bin/env python3
"""Long tables, which a run reads in parts, each by a thread of its own: each is held against the same table with its first name in quotes, which is
read on one thread. Lines end by CR, LF or both, some are empty, and there are quotes, byte order marks in mid-text, bad cells, wrong counts, and
rows up to and past the greatest number. Status, output and fault line must be the same, an answered run must have all its lines, and a stated
number of tables at least must be answered. Ends with 1 and the first case that is wrong, or where too few were answered."""
import random
from making import chance
from running import Holder, ended, options, told, wrong

HEADER, QUOTED = b"a:int,b:fix2,c:int", b'"a:int",b:fix2,c:int'
ENDS = [b"\n", b"\n", b"\n", b"\r\n", b"\r", b"\n\n", b"\n\r", b"\r\n\r\n"]
ODD = [b"1,2", b"1,2,3,4", b"1,x,3", b"1,2.345,3", b",,", b"", b" ", b"1", b'1,"2",3', b'"1,2,3', b'1,2,3"', b'1,"2\n3",4', b"\xef\xbb\xbf1,2,3", b"\xef1,2,3",
       b"9223372036854775808,1,1", b"1,92233720368547758.07,1", b"-9223372036854775808,-0.01,+7", b"\xff,1,1", b"1,2,3,", b"00000000000000000000000000001,1,1"]
SCRIPT = b"count\nselect a, b, c\n"
MOST_ROWS = 1 << 20


def is_whole(run):
    """Whether a run was refused for its table; or answered with the number of its rows, and then with their sum or with all of them."""
    status, out, fault = run
    lines = out.split("\n")
    rows = lines[1:] == [lines[0], ""] or (lines[-2:] == ["(%s rows)" % lines[0], ""] and lines[0] == str(len(lines) - 3))
    return (status == 2 and not out) or (status == 0 and not fault and rows)


class Twice(Holder):
    """Holds a run of a table against that of the same table with a quote in its header."""

    def one(self, number, name, files, words, table):
        folder, runs = self.fresh(number, files), []
        for text in (table, table.replace(HEADER, QUOTED, 1)):  # under one name, which a fault's line tells
            (folder / "t.csv").write_bytes(text)
            runs.append(told(self.program, [*words, "--table", "t.csv"], folder))
        got, expected = runs
        self.clear(folder)
        if got != expected or not is_whole(got):
            shown = lambda run: (run[0], run[1][:200], run[2])
            wrong(name, {**files, "t.csv": table}, words, shown(expected), shown(got))
        return got[0]


def of_table(name, body, head=HEADER + b"\n", script=SCRIPT):
    return name, {"s.txt": script}, ["run", "--script", "s.txt"], head + body


def random_tables(rng, count):
    for number in range(count):
        ends = [rng.choice(ENDS)] * 8 if chance(rng, 0.5) else ENDS
        some = [b"%d,%d.%d,%d%s" % (rng.randrange(-99, 10 ** 9), rng.randrange(99), rng.randrange(9), rng.randrange(-9, 9), rng.choice(ends)) for _ in range(999)]
        lines = rng.choices(some, k=rng.randrange(70000, 140000) * rng.choice([1, 1, 4]))
        for _ in range(rng.choice([0, 1, 1, 2, 9])):
            lines[rng.randrange(len(lines))] = rng.choice(ODD) + rng.choice(ends)
        body = b"".join(lines)
        if chance(rng, 0.2):
            body = body[:-rng.randrange(1, 9)]
        head = rng.choice([b"", b"", b"", b"\xef\xbb\xbf", b"\n", b"\r\n"]) + HEADER + rng.choice([b"\n", b"\n", b"\r\n", b"\r", b"\n\n"])
        yield of_table("random table %d" % number, body, head)


def limits():
    """Rows up to and past the greatest number, and a fault before, at and behind it."""
    row, bad = b"1,2,3\n", b"1,x,3\n"
    for rows in (MOST_ROWS - 1, MOST_ROWS, MOST_ROWS + 1, MOST_ROWS + 99999):
        yield of_table("%d rows" % rows, row * rows, script=b"count\nsum a\n")
        for at in (0, 1, 99999, rows // 2, rows - 2, rows - 1, MOST_ROWS - 2, MOST_ROWS - 1, MOST_ROWS, MOST_ROWS + 1):
            if at < rows:
                yield of_table("%d rows and a fault at row %d" % (rows, at), row * at + bad + row * (rows - at - 1), script=b"count\n")


def main():
    given = options(__doc__)
    holder, rng = Twice(given.program), random.Random(given.seed)
    holder.hold("limits", limits(), answered=2, refused=36)
    holder.hold("random long tables", random_tables(rng, 300 * given.times), answered=50 * given.times, refused=150 * given.times)
    holder.end()


if __name__ == "__main__":
    ended(main)
