#!/usr/bin/env python3
"""Rows that come and go while they are loaded again and again: so many go from one load, and so many come to one, that its rows are moved
(1,024 and 65,536). Replies and history are those of the plain model (hostile/model.py). Ends with 1 where they are not.

    python3 tests/loads.py PROGRAM
"""
import random, subprocess, sys, tempfile
from pathlib import Path

sys.path.insert(0, str(Path(__file__).resolve().parent / "hostile"))
from model import run

HIGH = 1 << 20


class Lines:
    """Random calls over a table of so many rows. Values below the highest, keys of rows that ever came."""

    def __init__(self, dice, rows):
        self.dice, self.ever = dice, rows
        self.table = "a,b,c\n" + "".join(self.row() + "\n" for _ in range(rows))
        self.lines = []

    def row(self):
        return "%d,%d,%d" % (self.dice.randrange(HIGH), self.dice.randrange(HIGH), self.dice.randrange(9))

    def insert(self):
        self.ever += 1
        self.lines.append("insert " + self.row())

    def delete(self):
        self.lines.append("delete %d" % self.dice.randint(1, self.ever))

    def ask(self):
        low = self.dice.randrange(HIGH)
        self.lines.append("%s where a >= %d and a < %d" % (self.dice.choice(("count", "sum b", "select c, b")), low, low + self.dice.randrange(1, HIGH // 50)))


def many_go(lines):
    """More removals before each few queries than are taken out one by one, and insertions among them."""
    for _ in range(50):
        for _ in range(150):
            lines.dice.choices((lines.delete, lines.insert), (2, 1))[0]()
        for _ in range(5):
            lines.ask()


def many_come(lines):
    """A query behind each 1,900 insertions, and a removal or two."""
    for turn in range(80_000):
        lines.insert()
        if turn % 950 == 0:
            lines.delete()
        if turn % 1900 == 0:
            lines.ask()


def restarts(program, folder, table, script):
    """Holds a run against the model: how often its tape began anew."""
    (folder / "t.csv").write_bytes(table)
    (folder / "s.txt").write_bytes(script)
    words = [program, "run", "--table", "t.csv", "--script", "s.txt", "--history", "h.json", "--stats"]
    done = subprocess.run(words, cwd=folder, capture_output=True, text=True)
    status, out, _, history = run(table, script)
    if (done.returncode, done.stdout) != (status, out):
        sys.exit("loads: WRONG: status %d, %s; other replies than the model's: %s" % (done.returncode, done.stderr[:300], done.stdout[-200:]))
    if (folder / "h.json").read_bytes() != history:
        sys.exit("loads: WRONG: another history than the model's")
    return int(next(line.split()[5] for line in done.stderr.splitlines() if line.startswith("a ")))


def main():
    program = str(Path(sys.argv[1]).resolve())
    with tempfile.TemporaryDirectory() as home:
        for name, rows, calls in (("many go", 6000, many_go), ("many come", 500, many_come)):
            lines = Lines(random.Random(name), rows)
            lines.ask()
            calls(lines)
            lines.ask()
            begun = restarts(program, Path(home), lines.table.encode(), "".join(line + "\n" for line in lines.lines).encode())
            if begun < 20:
                sys.exit("loads: WRONG: %s: only %d restarts" % (name, begun))
            print("loads: %s: %d calls, %d restarts" % (name, len(lines.lines), begun))


main()
