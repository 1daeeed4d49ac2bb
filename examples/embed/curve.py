#!/usr/bin/env python3
"""Cracks a real table and draws the time of the k-th query: sums over random ranges, by Sideways and by masks of numpy.

    python3 curve.py > curve.svg                          the files below /usr: sums of sizes over times
    python3 curve.py TABLE.csv ATTRIBUTE > curve.svg      a table of your own, and one of its attributes of whole numbers

Both axes go by tens. Standard error has the seconds of both."""

import math
import os
import random
import sys
import time

import numpy
import sideways

QUERIES = 3000


def files_of(folder):
    """The sizes and the times of the last change of all files below a folder."""
    sizes, changed = [], []
    for place, _folders, names in os.walk(folder):
        for name in names[: 1000000 - len(sizes)]:
            told = os.lstat(os.path.join(place, name))
            sizes.append(told.st_size)
            changed.append(int(told.st_mtime))
    return {"changed": numpy.array(changed), "size": numpy.array(sizes)}


def timed(call):
    begun = time.perf_counter_ns()
    answer = call()
    return time.perf_counter_ns() - begun, answer


def measure(table, asked, summed):
    """The times of each query by both, which have to answer the same."""
    rows = table.select([asked, summed])
    cells, other = rows[asked], rows[summed]
    values = numpy.unique(cells)
    cracked, masked = [], []
    for _ in range(QUERIES):
        first = random.randrange(values.size)
        low, high = int(values[first]), int(values[min(first + values.size // 100, values.size - 1)])
        taken, ours = timed(lambda: table.sum(summed, **{asked: (low, high)}))
        cracked.append(taken)
        taken, theirs = timed(lambda: other[(cells >= low) & (cells <= high)].sum())
        masked.append(taken)
        if ours != theirs:
            sys.exit(f"sum {summed} where {asked} is {low} to {high}: Sideways says {ours}, numpy {theirs}")
    return {"Sideways": cracked, "numpy": masked}


def points(times):
    """The middle of the times of the queries from each number to a fifth more."""
    first = 1
    while first <= len(times):
        last = min(max(first, int(first * 1.2)), len(times))
        part = sorted(times[first - 1 : last])
        yield math.sqrt(first * last), max(part[len(part) // 2], 1)
        first = last + 1


def picture(series):
    """Both lines as SVG."""
    low = math.floor(math.log10(min(min(times) for times in series.values())))
    high = math.ceil(math.log10(max(max(times) for times in series.values())))
    most = math.ceil(math.log10(QUERIES))
    at_x = lambda k: 80 + 620 * math.log10(k) / most
    at_y = lambda ns: 500 - 450 * (math.log10(ns) - low) / (high - low)
    yield '<svg xmlns="http://www.w3.org/2000/svg" width="820" height="560" font-family="sans-serif" font-size="13">'
    yield '<rect width="820" height="560" fill="white"/>'
    for ten in range(most + 1):
        yield f'<line x1="{at_x(10**ten):.1f}" y1="50" x2="{at_x(10**ten):.1f}" y2="500" stroke="#ddd"/>'
        yield f'<text x="{at_x(10**ten):.1f}" y="520" text-anchor="middle">{10**ten:,}</text>'
    for ten in range(low, high + 1):
        unit, less = [("ns", 0), ("µs", 3), ("ms", 6), ("s", 9)][min(max(ten, 0) // 3, 3)]
        yield f'<line x1="80" y1="{at_y(10**ten):.1f}" x2="700" y2="{at_y(10**ten):.1f}" stroke="#ddd"/>'
        yield f'<text x="72" y="{at_y(10**ten) + 4:.1f}" text-anchor="end">{10 ** (ten - less)} {unit}</text>'
    yield '<text x="390" y="546" text-anchor="middle">number of the query, k</text>'
    for (name, times), colour in zip(series.items(), ("#1b6ca8", "#c0392b")):
        line = [(at_x(k), at_y(ns)) for k, ns in points(times)]
        yield f'<polyline points="{" ".join(f"{x:.1f},{y:.1f}" for x, y in line)}" fill="none" stroke="{colour}" stroke-width="2"/>'
        yield f'<text x="{line[-1][0] + 8:.1f}" y="{line[-1][1] + 4:.1f}" fill="{colour}">{name}</text>'
    yield "</svg>"


def main():
    random.seed(1)
    if len(sys.argv) == 3:
        table, asked = sideways.Table.from_csv(sys.argv[1]), sys.argv[2]
        summed = next(name for name, kind in reversed(table.attributes.items()) if kind == "int")
    else:
        table, asked, summed = sideways.Table.from_columns(files_of("/usr")), "changed", "size"
    series = measure(table, asked, summed)
    for name, times in series.items():
        print(f"{name}: {sum(times) / 1e9:.3f} s for {QUERIES} queries over {table.count()} rows", file=sys.stderr)
    print("\n".join(picture(series)))


if __name__ == "__main__":
    main()
