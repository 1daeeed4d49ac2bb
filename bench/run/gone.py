#!/usr/bin/env python3
"""What a `delete where` costs when nearly all rows are gone, beside a count over the same rows: a table of ROWS rows, of which a first
`delete where` takes all but 1,000; then CALLS times the one, or the other, by turns. Prints the medians in microseconds a call and their ratio.

    python3 bench/run/gone.py [--program crates/sideways/out/sideways] [--rows 1000000] [--calls 2000] [--rounds 5]"""
import argparse, statistics, subprocess, tempfile
from pathlib import Path

TOP = Path(__file__).resolve().parents[2]


def calls(program, folder, name):
    """The median nanoseconds of a call of the script `name`, the first left out, and the lines of its replies."""
    words = [program, "run", "--table", "t.csv", "--script", name, "--times"]
    done = subprocess.run(words, cwd=folder, capture_output=True, check=True, text=True)
    times = [int(line.split()[1]) for line in done.stderr.splitlines() if line[:1].isdigit()]
    return statistics.median(times[1:]), done.stdout.splitlines()


def main():
    parser = argparse.ArgumentParser(description=__doc__, formatter_class=argparse.RawDescriptionHelpFormatter)
    parser.add_argument("--program", default=TOP / "crates/sideways/out/sideways")
    for name, number in (("rows", 1000000), ("calls", 2000), ("rounds", 5)):
        parser.add_argument("--" + name, type=int, default=number)
    given = parser.parse_args()
    program = str(Path(given.program).resolve())
    with tempfile.TemporaryDirectory() as home:
        folder = Path(home)
        (folder / "t.csv").write_text("a,b\n" + "".join("%d,%d\n" % (row, row % 7) for row in range(given.rows)))
        first = "delete where a < %d\n" % (given.rows - 1000)
        for name, call in (("gone.txt", "delete where a = %d\n"), ("count.txt", "count where a = %d\n")):
            (folder / name).write_text(first + "".join(call % (2 * given.rows + at) for at in range(given.calls)))
        took = {"gone.txt": [], "count.txt": []}
        for _ in range(given.rounds):
            for name, all_of in took.items():
                median, lines = calls(program, folder, name)
                assert len(lines) == given.calls + 1 and lines[0] == "(%d removed)" % (given.rows - 1000), lines[:2]
                all_of.append(median)
        gone, count = (statistics.median(all_of) / 1000 for all_of in took.values())
        print("a delete where %.1f us, a count %.1f us, ratio %.2f" % (gone, count, gone / count))


if __name__ == "__main__":
    main()
