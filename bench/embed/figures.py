"""Counts over random ranges by Sideways, by numpy's masks and by pandas' query, all over the same columns, and what opening takes.

    figures.py ROWS CALLS          with the package `sideways` and numpy; pandas where it is there

Prints a line of name and seconds for each."""

import random
import sys
import time

import numpy

import sideways

try:
    import pandas
except ImportError:
    pandas = None


def timed(name, call):
    begun = time.perf_counter()
    answer = call()
    print(name, f"{time.perf_counter() - begun:.6f}")
    return answer


def main():
    rows, calls = int(sys.argv[1]), int(sys.argv[2])
    draw, chance = numpy.random.default_rng(1), random.Random(1)
    columns = {name: draw.integers(0, rows, rows) for name in "abc"}
    ranges = [(low, low + rows // 100) for low in (chance.randrange(rows) for _ in range(calls))]
    timed("copy", lambda: {name: column.copy() for name, column in columns.items()})
    table = timed("from_columns", lambda: sideways.Table.from_columns(columns))
    ours = timed("sideways", lambda: [table.count(a=wanted) for wanted in ranges])
    timed("again", lambda: [table.count(a=wanted) for wanted in ranges])
    a = columns["a"]
    masks = timed("numpy", lambda: [int(numpy.count_nonzero((a >= low) & (a <= high))) for low, high in ranges])
    assert ours == masks
    if pandas is not None:
        frame = pandas.DataFrame(columns)
        few = ranges[: max(calls // 10, 1)]
        asked = timed("pandas-tenth", lambda: [len(frame.query(f"{low} <= a <= {high}")) for low, high in few])
        assert asked == masks[: len(few)]


if __name__ == "__main__":
    main()
