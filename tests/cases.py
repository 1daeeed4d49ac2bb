#!/usr/bin/env python3
"""Cases of the program as lines: each line of tests/cases/NAME.lines is made with the program, and all of them tell what NAME.told has.

    tests/cases.py [--program PATH] [--tell NAME]

A line is a word and a TEXT, in which \\n, \\r, \\t, \\\\ and \\xHH stand for bytes; one that begins with # is skipped. Each stands in
NAME.told behind >, and below it what it tells; the words of a bench are its methods below. PATH is the built program, by default
crates/sideways/out/sideways. --tell prints what the lines of one bench tell, to be read and kept. Ends with 1 where a line tells
something else, which is shown."""
import argparse
import csv
import json
import os
import subprocess
import sys
import tempfile
from pathlib import Path

TOP = Path(__file__).resolve().parents[1]
FRONT = b'{"attributes":["a:int","b:int","c:int"],"entries":['
BACK = b'],"format":1,"limit":1048576,"rows":[[12,7,1],[3,8,0],[12,5,1],[20,2,0]]}'
LOG = b"session,start,end,call,reply\n"
MOST_ROWS = 1048576
LETTERS = {"n": "\n", "r": "\r", "t": "\t"}


def unescaped(text):
    """The bytes of an escaped text."""
    parts, left = [], text
    while left:
        before, mark, left = left.partition("\\")
        parts.append(before.encode())
        if mark and left[:1] == "x":
            parts.append(bytes([int(left[1:3], 16)]))
            left = left[3:]
        elif mark:
            parts.append(LETTERS.get(left[:1], left[:1]).encode())
            left = left[1:]
    return b"".join(parts)


def shown(made):
    """Bytes as a text."""
    return made.decode("utf-8", "replace")


class Bench:
    """The program in a folder of its own."""

    def __init__(self, program, folder):
        self.program, self.folder, self.failing = program, folder, str(folder / "failing.so")
        subprocess.run(["cc", "-O1", "-shared", "-fPIC", "-o", self.failing, TOP / "tests/failing.c", "-ldl"], check=True)

    def call(self, *words, lines="/dev/null", **how):
        """What the program writes into a file, what it tells on standard error, and its status; `how` is for failing.c."""
        how = {"LD_PRELOAD": self.failing, **how} if how else {}
        with open(self.folder / "out.txt", "w+b") as out, open(self.folder / lines, "rb") as read:
            made = subprocess.run([self.program, *words], cwd=self.folder, stdin=read, stdout=out, stderr=subprocess.PIPE,
                                  timeout=120, env=os.environ | how)
            out.seek(0)
            return out.read(), shown(made.stderr), made.returncode

    def keep(self, name, made):
        (self.folder / name).write_bytes(made)

    def line(self, text):
        """What a line tells."""
        word, _, rest = text.partition(" ")
        return getattr(self, f"take_{word}")(rest) or ""


class OverTable(Bench):
    """What is made over a table, under a limit of rows."""

    def __init__(self, program, folder):
        super().__init__(program, folder)
        self.table, self.limit = b"", MOST_ROWS

    def take_table(self, text):
        self.table = unescaped(text)

    def take_limit(self, text):
        self.limit = int(text)


class Runs(OverTable):
    """Runs, and checks of history files."""

    def run(self, script, *words, **how):
        """What a script over the table writes, and then its refusal."""
        self.keep("t.csv", self.table)
        self.keep("s.txt", script)
        wrote, told, status = self.call("run", "--table", "t.csv", "--script", "s.txt", "--limit", str(self.limit), "--quiet", *words, **how)
        first = told.partition("\n")[0]
        return wrote, first.removeprefix("sideways: ") if status else ""

    def take_run(self, text):
        """What a script writes; and what it writes without boxes, without cells, with a cut and with threads, where that is something else."""
        script = unescaped(text)
        ways = [["--maps", "0"], ["--budget", "0"]]
        if self.table.startswith((b"a:int", b"a\n")):
            ways.append(["--cuts", "a=12"])
        if b"---" not in script:
            ways.append(["--threads"])
        wrote, refused = self.run(script)
        others = [made for made in (self.run(script, *way) for way in ways) if made != (wrote, refused)]
        return shown(wrote) + refused + "".join(f"another way: {shown(it)}{told}" for it, told in others)

    def take_many(self, text):
        """How many bytes a script writes that has the first line of a text so many times, and then the rest."""
        number, _, rest = text.partition(" ")
        first, end, others = unescaped(rest).partition(b"\n")
        wrote, refused = self.run((first + end) * int(number) + others)
        return f"{len(wrote)} bytes{refused}"

    def take_failing(self, text):
        """What a script writes into a file that takes three bytes a time, where the write of a number fails."""
        number, _, script = text.partition(" ")
        wrote, refused = self.run(unescaped(script), FILE="out.txt", MOST="3", FAILED=number)
        return shown(wrote) + refused

    def take_reading(self, text):
        """What a script writes that is read three bytes a time, where the read of a number fails."""
        number, _, script = text.partition(" ")
        wrote, refused = self.run(unescaped(script), FILE="s.txt", MOST="3", FAILED=number)
        return shown(wrote) + refused

    def take_history(self, text):
        """The history file of a script."""
        (self.folder / "h.json").unlink(missing_ok=True)
        _, refused = self.run(unescaped(text), "--history", "h.json")
        return refused or shown((self.folder / "h.json").read_bytes())

    def checked(self, made, *words):
        """The verdict on a file, with the status, or its refusal."""
        self.keep("h.json", made)
        wrote, told, status = self.call("check", "h.json", *words)
        return told.partition("\n")[0].removeprefix("sideways: ") if told else f"{shown(wrote)}status {status}"

    def take_check(self, text):
        return self.checked(unescaped(text))

    def take_entries(self, text):
        """The verdict on a file with these entries over the table of the examples."""
        return self.checked(FRONT + unescaped(text) + BACK)

    def take_explain(self, text):
        return self.checked(FRONT + unescaped(text) + BACK, "--explain")

    def take_cuts(self, text):
        """The verdicts on such a file that ends after each of its bytes; one that is the last one's again is not said again."""
        whole, last, all_ = FRONT + unescaped(text) + BACK, None, ""
        for size in range(len(whole)):
            told = self.checked(whole[:size])
            if told != last:
                all_ += f"{size}: {told};"
            last = told
        return all_


class Orders(OverTable):
    """Orders of logs' calls."""

    def __init__(self, program, folder):
        super().__init__(program, folder)
        self.keys, self.logs = "counted", []

    def take_keys(self, text):
        self.keys = text

    def take_log(self, text):
        self.logs.append(LOG + unescaped(text))

    def found(self, wrote):
        """The numbers of the logs' calls in the order that was found, from 1; and under other keys the history's calls and replies."""
        firsts, number = {}, 0
        for place, log in enumerate(self.logs, 1):
            firsts[f"log {place}"] = number
            number += sum(1 for _ in csv.reader(log.decode().splitlines(keepends=True))) - 1
        with open(self.folder / "where.csv", newline="") as file:
            places = [firsts[it["log"]] + int(it["record"]) for it in csv.DictReader(file)]
        told = "".join(["order", *(f" {it}" for it in places)])
        if self.keys == "any":
            told += "".join("; " + " / ".join([it["call"], *it["reply"]]) for it in json.loads(wrote)["entries"])
        return told

    def take_order(self, text):
        """An order, or how far the search came; then no logs are left."""
        by, _, slack = text.partition(" ")
        names = []
        for place, log in enumerate(self.logs, 1):
            names.append(f"log {place}")
            self.keep(names[-1], log)
        self.keep("t.csv", self.table)
        how = ["--by", by, *(["--slack", slack] if slack else []), "--keys", self.keys, "--limit", str(self.limit)]
        wrote, told, status = self.call("order", "--table", "t.csv", *how, "--where", "where.csv", *names)
        found = told if status else self.found(wrote)
        self.logs = []
        return found

    def take_fault(self, text):
        """How a log of this text is refused."""
        self.logs = [unescaped(text)]
        return self.take_order("sessions")


class Imports(Bench):
    """Tables that are made of values."""

    FLAGS = {"columns": "--columns", "name": "--rename", "kind": "--kind", "times": "--times", "empty": "--empty", "null": "--null"}
    FLAGS |= {"long": "--long", "sample": "--sample", "delimiter": "--delimiter", "ragged": "--ragged", "headless": "--no-header"}

    def __init__(self, program, folder):
        super().__init__(program, folder)
        self.chosen = {}

    def line(self, text):
        word, _, rest = text.partition(" ")
        if word not in self.FLAGS:
            return super().line(text)
        self.chosen[word] = [self.FLAGS[word], *([] if word == "headless" else [rest])]
        return ""

    def take_plain(self, _text):
        """What was chosen before is forgotten."""
        self.chosen = {}

    def made(self, values, *words):
        """The table of values, what is told of it, and whether there is one."""
        self.keep("data", values)
        wrote, told, status = self.call("import", "data", "--quiet", *sum(self.chosen.values(), []), *words)
        return wrote, told, status == 0

    def take_import(self, text):
        """The bytes of the table, and what was done; or why there is none."""
        wrote, told, _ = self.made(unescaped(text))
        return shown(wrote) + told

    def take_table(self, text):
        """The bytes alone."""
        wrote, told, is_made = self.made(unescaped(text))
        return shown(wrote) if is_made else told

    def take_texts(self, text):
        """The texts for which numbers were written."""
        self.made(unescaped(text), "--dictionary", "texts.csv")
        return shown((self.folder / "texts.csv").read_bytes())

    def take_many(self, text):
        """How many bytes the table has of a heading and so many lines of a value."""
        number, heading, value = text.split(" ")
        wrote, told, is_made = self.made("\n".join([heading, *[value] * int(number)]).encode())
        return f"{len(wrote)} bytes, {wrote.count(10) - 1} rows" if is_made else told

    def take_sum(self, text):
        """Of the table of a text, read again, how many rows it has, and the sum of an attribute's cells."""
        attribute, _, rest = text.partition(" ")
        wrote, told, is_made = self.made(unescaped(rest))
        if not is_made:
            return told
        self.keep("t.csv", wrote)
        name = shown(wrote).partition("\n")[0].split(",")[int(attribute)].partition(":")[0]
        sums, _, _ = self.call("run", "--table", "t.csv", "-e", "count", "-e", f"sum {name}")
        return "{} rows, {}".format(*shown(sums).split())


class Shells(OverTable):
    """Lines that are entered in a shell."""

    def entered(self, text, **how):
        """What the shell writes, and what it tells on standard error, for lines."""
        for it in [*self.folder.glob("h.json"), *self.folder.glob("*.w")]:
            it.unlink()
        self.keep("t.csv", self.table)
        self.keep("lines", unescaped(text))
        wrote, told, status = self.call("shell", "t.csv", "--limit", str(self.limit), "--history", "h.json", lines="lines", **how)
        return f"{shown(wrote)}{told}status {status}"

    def verdict(self):
        """The verdict on the history that the shell left, with the status."""
        if not (self.folder / "h.json").exists():
            return "no history"
        wrote, told, status = self.call("check", "h.json")
        return f"{shown(wrote)}{told}status {status}"

    def take_shell(self, text):
        """The same, and the tables that it was told to write."""
        told = self.entered(text)
        for it in sorted(self.folder.glob("*.w")):
            told += f"\n{it.name}\n{it.read_text()}"
            it.unlink()
        return told

    def take_check(self, text):
        self.entered(text)
        return self.verdict()

    def take_file(self, text):
        self.entered(text)
        return (self.folder / "h.json").read_text()

    def take_failing(self, text):
        """What a file took of it three bytes a time, where the write of a number fails, and the verdict."""
        number, _, lines = text.partition(" ")
        return f"{self.entered(lines, FILE='out.txt', MOST='3', FAILED=number)}; {self.verdict()}"

    def take_reading(self, text):
        """The same where lines are read three bytes a time, and the read of a number fails."""
        number, _, lines = text.partition(" ")
        return f"{self.entered(lines, FILE='lines', MOST='3', FAILED=number)}; {self.verdict()}"


class Faults(Bench):
    """What is told of tables, scripts, cuts and history files that are refused, and descriptions of tables."""

    def __init__(self, program, folder):
        super().__init__(program, folder)
        self.table, self.words = b"", []

    def take_table(self, text):
        """A table; what was asked of the one before is forgotten."""
        self.table, self.words = unescaped(text), []

    def take_with(self, text):
        """Flags for the runs that come."""
        self.words = text.split(" ")

    def told(self, *words):
        """What standard error has of a run, behind what was written."""
        self.keep("t.csv", self.table)
        wrote, told, _ = self.call("run", "--table", "t.csv", "--quiet", *self.words, *words)
        return shown(wrote) + told

    def take_script(self, text):
        self.keep("s.txt", unescaped(text))
        return self.told("--script", "s.txt")

    def take_argument(self, text):
        return self.told("-e", text)

    def take_all(self, _text):
        """All faults of the table."""
        return self.told("-e", "count", "--all-faults")

    def take_many(self, text):
        """How many lines are told of a table that has the last line of a text so many times, and the last two of them."""
        number, _, rest = text.partition(" ")
        first, last = unescaped(rest).splitlines(keepends=True)
        self.table = first + last * int(number)
        lines = self.take_all("").splitlines(keepends=True)
        return "".join([f"{len(lines)} lines\n", *lines[-2:]])

    def take_entries(self, text):
        """What is told of a history file with these entries over the table of the examples."""
        self.keep("h.json", FRONT + unescaped(text) + BACK)
        wrote, told, _ = self.call("check", "h.json")
        return shown(wrote) + told

    def take_describe(self, text):
        self.keep("t.csv", unescaped(text))
        wrote, told, _ = self.call("describe", "t.csv")
        return shown(wrote) + told


BENCHES = {"faults": Faults, "imports": Imports, "orders": Orders, "runs": Runs, "shells": Shells}


def told_by(bench, lines):
    """The lines, a mark before each that is a case, and below it what it tells."""
    for line in lines:
        is_case = line and not line.startswith("#")
        yield f"{'> ' if is_case else ''}{line}\n"
        told = bench.line(line) if is_case else ""
        if told:
            yield f"{told}\n"


def main():
    parser = argparse.ArgumentParser(description=__doc__, formatter_class=argparse.RawDescriptionHelpFormatter)
    parser.add_argument("--program", default=str(TOP / "crates/sideways/out/sideways"))
    parser.add_argument("--tell", choices=sorted(BENCHES))
    given = parser.parse_args()
    program, wrong = os.path.abspath(given.program), 0
    for name in [given.tell] if given.tell else sorted(BENCHES):
        lines = (TOP / f"tests/cases/{name}.lines").read_text().splitlines()
        with tempfile.TemporaryDirectory(prefix="cases-") as folder:
            parts = list(told_by(BENCHES[name](program, Path(folder)), lines))
        if given.tell:
            sys.stdout.write("".join(parts))
            continue
        wanted, at, is_as_kept = (TOP / f"tests/cases/{name}.told").read_text(), 0, True
        for part in parts:
            if wanted[at : at + len(part)] != part:
                print(f"cases: {name}: wanted\n{wanted[at : at + 400]}\nand it tells\n{part}")
                is_as_kept = False
                break
            at += len(part)
        is_as_kept &= at == len(wanted)
        print(f"cases: {name}: {len(lines)} lines{'' if is_as_kept else ' do not tell what is kept'}")
        wrong |= not is_as_kept
    return wrong


if __name__ == "__main__":
    sys.exit(main())
