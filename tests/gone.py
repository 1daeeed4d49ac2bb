#!/usr/bin/env python3
"""Rows that went cost a `delete where` nothing: over a table of which all rows but 1,000 are gone, at once or key by key, calls take at most three
times the processor time that they take over a table of 1,000 rows, and a tenth of a second. Ends with 1 where they take more.

    python3 tests/gone.py PROGRAM
"""
import resource, subprocess, sys, tempfile
from pathlib import Path

LIVE, ROWS, CALLS, TURNS = 1000, 200_000, 1000, 3
MOST_TIMES, MOST_SECONDS = 3.0, 0.1


def timed(program, folder, lines, wanted):
    """The least processor time of some runs of a script, in seconds; its last reply has to be as wanted."""
    (folder / "s.txt").write_text("".join(line + "\n" for line in lines))
    least = None
    for _ in range(TURNS):
        before = resource.getrusage(resource.RUSAGE_CHILDREN)
        done = subprocess.run([program, "run", "--table", "t.csv", "--script", "s.txt"], cwd=folder, capture_output=True, text=True)
        after = resource.getrusage(resource.RUSAGE_CHILDREN)
        if done.returncode != 0 or done.stdout.splitlines()[-1] != wanted:
            sys.exit(f"status {done.returncode}, {done.stderr[:200]}, {done.stdout[-200:]}")
        took = after.ru_utime - before.ru_utime + after.ru_stime - before.ru_stime
        least = took if least is None else min(least, took)
    return least


def calls_over(program, folder, rows, going):
    """What the calls take over a table of which some rows went first."""
    (folder / "t.csv").write_text("a,b\n" + "".join(f"{row},{row % 7}\n" for row in range(rows)))
    calls = [f"delete where a = {2 * rows + call}" for call in range(CALLS)]
    without = timed(program, folder, going + ["count"], str(LIVE))
    return timed(program, folder, going + calls + ["count"], str(LIVE)) - without


def main():
    program, wrong = str(Path(sys.argv[1]).resolve()), False
    with tempfile.TemporaryDirectory() as home:
        folder = Path(home)
        few = calls_over(program, folder, LIVE, [])
        for name, rows, going in (("at once", ROWS, [f"delete where a < {ROWS - LIVE}"]),
                                  ("key by key", ROWS // 4, [f"delete {key}" for key in range(1, ROWS // 4 - LIVE + 1)])):
            took = calls_over(program, folder, rows, going)
            wrong = wrong or took > MOST_TIMES * few + MOST_SECONDS
            print(f"{CALLS} calls: {took:.3f} s where {rows - LIVE} rows went {name}, {few:.3f} s over {LIVE} rows")
    sys.exit(1 if wrong else 0)


if __name__ == "__main__":
    main()
