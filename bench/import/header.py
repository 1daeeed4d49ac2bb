#!/usr/bin/env python3
"""What `--header` costs: a run of one count over a table whose first line is its header, beside the same over a file with another first line, in
place of which `--header` stands; and that with two of the five columns passed by. By turns; medians of seconds, and the ratios to the first.

    bench/import/header.py [--program PATH] [--rows N] [--rounds N]"""
import argparse, os, statistics, tempfile
from pathlib import Path

from measure import make_table, timed

TOP = Path(__file__).resolve().parents[2]
TYPED = ["package:text", "size:int", "depends:text", "section:text", "since:text"]


def main():
    words = argparse.ArgumentParser(description=__doc__, formatter_class=argparse.RawDescriptionHelpFormatter)
    words.add_argument("--program", default=str(TOP / "crates/sideways/out/sideways"))
    words.add_argument("--rows", type=int, default=370589)
    words.add_argument("--rounds", type=int, default=9)
    given = words.parse_args()
    with tempfile.TemporaryDirectory() as folder:
        foreign, own = folder + "/foreign.csv", folder + "/own.csv"
        make_table(foreign, given.rows)
        with open(foreign) as file, open(own, "w") as out:
            next(file)
            out.write(",".join(TYPED) + "\n")
            out.writelines(file)
        passing = ",".join(["-" if at in (2, 4) else name for at, name in enumerate(TYPED)])
        run = [given.program, "run", "--quiet", "-e", "count where size >= 250000", "--table"]
        sides = {"its own header": [*run, own], "--header": [*run, foreign, "--header", ",".join(TYPED)],
                 "--header, two columns passed by": [*run, foreign, "--header", passing]}
        times, told = {name: [] for name in sides}, set()
        for _ in range(given.rounds):
            for name, line in sides.items():
                times[name].append(timed(line, folder + "/out"))
                told.add(Path(folder + "/out").read_text())
        assert len(told) == 1, told
        middle = {name: [statistics.median(one[what] for one in took) for what in (0, 1)] for name, took in times.items()}
        first = middle["its own header"]
        for name, (wall, spent) in middle.items():
            print("%-32s %.3f s, %.3f s of processors; %.2f, %.2f" % (name, wall, spent, wall / first[0], spent / first[1]))
        print("%d rows, load %.1f" % (given.rows, os.getloadavg()[0]))


if __name__ == "__main__":
    main()
