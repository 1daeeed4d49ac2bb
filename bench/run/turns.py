#!/usr/bin/env python3
"""Whole runs of several programs over the same files, by turns: medians, in brackets the least, and the ratio to the first. The outputs are
compared. A program whose name begins with `peer` is the C++ peer, in crack mode.

    bench/run/turns.py ROUNDS TABLE SCRIPT NAME=PROGRAM..

As `chrt -f 10 bench/run/turns.py 9 t.csv s.txt peer=peer before=FILE now=FILE`; bench/peers/gen.py makes tables and scripts."""
import os
import statistics
import sys
from pathlib import Path

sys.path.insert(0, str(Path(__file__).resolve().parents[1]))
from timed import timed

os.environ.setdefault("GLIBC_TUNABLES", "glibc.malloc.hugetlb=1:glibc.malloc.mmap_threshold=1048576:glibc.malloc.top_pad=33554432")  # as `./sideways` has it


def words(name, program, table, script):
    return [program, "crack", table, script] if name.startswith("peer") else [program, "run", "--table", table, "--script", script]


def main():
    rounds, table, script = int(sys.argv[1]), sys.argv[2], sys.argv[3]
    programs = [given.split("=", 1) for given in sys.argv[4:]]
    spent, memory, texts = {name: [] for name, _ in programs}, {}, set()
    for _ in range(rounds):
        for name, program in programs:
            seconds, kilobytes, text = timed(words(name, program, table, script))
            spent[name].append(seconds)
            memory[name] = max(memory.get(name, 0), kilobytes)
            texts.add(text)
            assert len(texts) == 1, f"another output: {name}"
    first = statistics.median(spent[programs[0][0]])
    for name, seconds in spent.items():
        median = statistics.median(seconds)
        print(f"{name:12} {median:.3f} s ({min(seconds):.3f}), {median / first:.2f} of {programs[0][0]}; {memory[name] // 1024} MB")


if __name__ == "__main__":
    main()
