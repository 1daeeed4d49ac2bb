#!/usr/bin/env python3
"""Cuts a clone to some crates and what they stand on.

    cut.py FOLDER CRATE..
"""
import os
import shutil
import sys


def main(folder, names):
    with open(f"{folder}/crates.txt", encoding="utf-8") as it:
        lines = it.read().splitlines()
    words = {line.split(":")[0].split()[0]: line for line in lines if ":" in line and not line.startswith("#")}
    left, kept = list(names), set()
    while left:
        name = left.pop()
        if name not in words:
            sys.exit(f"cut.py: crates.txt has no crate {name}")
        if name not in kept:
            kept.add(name)
            left += [it for it in words[name].split(":", 1)[1].split() if it in words]
    with open(f"{folder}/crates.txt", "w", encoding="utf-8") as it:
        it.write("".join(f"{line}\n" for name, line in words.items() if name in kept))
    for part in ("crates", "tests/wrong", "tests/controls"):
        for name in os.listdir(f"{folder}/{part}"):
            if name not in kept:
                shutil.rmtree(f"{folder}/{part}/{name}")


main(sys.argv[1], sys.argv[2:])
