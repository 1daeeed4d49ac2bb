#!/usr/bin/env python3
"""The greatest memory of runs, against what docs/PERFORMANCE.md ('Memory') allows them, over a million rows: a count, a log of 10,000 calls, and
1,000 sums on four heads; and of a million counts over four, without and with a history. Ends with 1 at the first that takes more.

    python3 tests/room.py PROGRAM
"""
import os, subprocess, sys, tempfile
from pathlib import Path

TOP = Path(__file__).resolve().parents[1]
sys.path.insert(0, str(TOP / "bench"))
from timed import timed

ROWS, HIGH = 1_000_000, 1 << 30


def runs():
    """Each run: its table, its script, how many million bytes it may take, and its further words. Tables and the log are those of the benchmarks."""
    for folder, attrs in (("three", 3), ("four", 4)):
        subprocess.run([sys.executable, TOP / "bench/peers/gen.py", folder, "--attrs", str(attrs), "--calls", "10000", "--mix", "log"], check=True)
    Path("count").write_text("count\n")
    Path("counts").write_text("count\n" * ROWS)
    bounds = [(k * 7919 % 1000 * (HIGH // 1001), "abcd"[k % 4]) for k in range(1000)]
    Path("heads").write_text("".join(f"sum b where {head} >= {low} and {head} < {low + HIGH // 1000}\n" for low, head in bounds))
    yield "a count", "three/t.csv", "count", 95, []
    yield "a log", "three/t.csv", "three/s.txt", 110, []
    yield "sums on four heads", "four/t.csv", "heads", 220, []
    yield "a million counts", TOP / "examples/t.csv", "counts", 200, []
    yield "a million counts with a history", TOP / "examples/t.csv", "counts", 200, ["--history", "h.json"]


def main():
    program = Path(sys.argv[1]).resolve()
    os.environ["GLIBC_TUNABLES"] = "glibc.malloc.mmap_threshold=1048576:glibc.malloc.top_pad=33554432"  # as `./sideways` has it, without huge pages
    with tempfile.TemporaryDirectory() as home:
        os.chdir(home)
        for what, table, script, most, more in runs():
            took = timed([program, "run", "--table", table, "--script", script, *more])[1] * 1024 / 1e6
            print(f"room: {what}: {took:.0f} MB of {most}")
            if took > most:
                sys.exit(f"room: WRONG: {what} takes {took:.0f} MB")


main()
