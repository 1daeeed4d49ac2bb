#!/usr/bin/env python3
"""The time of `sideways import` beside Miller's `mlr --icsv --ocsv cut` of the same columns, over a table that this makes.

    bench/import/measure.py [--program PATH] [--rows N] [--rounds N]

PATH is the built program, by default crates/sideways/out/sideways. The table is like an index of packages: five columns of names, numbers,
texts of which some stand in quotes, few different words, and dates. Both sides run by turns, with their output into a file; the medians of
wall and of processor seconds are printed, and the ratios. Where Miller is not installed, Python's csv module reads and writes the table in
its place, which is said. Ends with 1 where the program's table has another number of lines than the other side's."""
import argparse, os, random, shutil, statistics, sys, tempfile, time
from pathlib import Path

TOP = Path(__file__).resolve().parents[2]
HEADINGS = ["Package", "Installed Size", "Depends on", "Section", "Since"]
COPY = "import csv, sys\nout = csv.writer(sys.stdout, lineterminator='\\n')\nfor record in csv.reader(open(sys.argv[1], newline='')):\n    out.writerow(record)\n"


def make_table(path, rows):
    r = random.Random(3)
    sections = ["admin", "libs", "net", "python", "doc", "games", "utils", "web"]
    with open(path, "w") as file:
        file.write(",".join(HEADINGS) + "\n")
        for _ in range(rows):
            name = "pkg-%s%d" % (r.choice("abcdefgh"), r.randrange(60000))
            needs = "lib%s%d" % (r.choice("abcde"), r.randrange(9000))
            if r.random() < 0.2:
                needs = '"%s (>= %d.%d), x"' % (needs, r.randrange(9), r.randrange(30))
            since = "%d-%02d-%02d" % (r.randrange(1995, 2024), r.randrange(1, 13), r.randrange(1, 29))
            file.write("%s,%d,%s,%s,%s\n" % (name, r.randrange(1, 500000), needs, r.choice(sections), since))


def timed(words, out):
    """Wall and processor seconds of one run, whose output goes to a file."""
    begun, before = time.perf_counter(), os.times()
    child = os.fork()
    if child == 0:
        os.dup2(os.open(out, os.O_WRONLY | os.O_CREAT | os.O_TRUNC), 1)
        os.dup2(os.open(os.devnull, os.O_WRONLY), 2)
        os.execvp(words[0], words)
    _, status = os.waitpid(child, 0)
    if status:
        sys.exit("%s ends with %d" % (words[0], status))
    after = os.times()
    spent = after.children_user + after.children_system - before.children_user - before.children_system
    return time.perf_counter() - begun, spent


def lines_of(path):
    with open(path, "rb") as file:
        return sum(1 for _ in file)


def main():
    words = argparse.ArgumentParser(description=__doc__, formatter_class=argparse.RawDescriptionHelpFormatter)
    words.add_argument("--program", default=str(TOP / "crates/sideways/out/sideways"))
    words.add_argument("--rows", type=int, default=370589)
    words.add_argument("--rounds", type=int, default=7)
    given = words.parse_args()
    with tempfile.TemporaryDirectory() as folder:
        table = folder + "/data.csv"
        make_table(table, given.rows)
        miller = shutil.which("mlr")
        peer = [miller, "--icsv", "--ocsv", "cut", "-f", ",".join(HEADINGS), table] if miller else [sys.executable, "-c", COPY, table]
        sides = [("sideways import", [given.program, "import", table]), ("mlr cut" if miller else "python's csv", peer)]
        times = [[], []]
        for _ in range(given.rounds):
            for place, (_, words) in enumerate(sides):
                times[place].append(timed(words, folder + "/out%d" % place))
        if lines_of(folder + "/out0") != lines_of(folder + "/out1"):
            sys.exit("the sides write another number of lines")
        middle = [[statistics.median(one[what] for one in side) for what in (0, 1)] for side in times]
        for (name, _), (wall, spent) in zip(sides, middle):
            print("%-16s %.3f s, %.3f s of processors" % (name, wall, spent))
        print("ratio            %.2f, %.2f of processors; %d rows, load %.1f"
              % (middle[0][0] / middle[1][0], middle[0][1] / middle[1][1], given.rows, os.getloadavg()[0]))


if __name__ == "__main__":
    main()
