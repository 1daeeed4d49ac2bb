#!/usr/bin/env python3
"""Gives the libraries that `rt ci` proved and left in this tree the stamps by which the toolchain knows them as built, so that `rt lib` of a
crate above proves that crate alone, and tests/wrong.py finds them. A library that has a stamp keeps it, and one that is older than a source
of its crate, or of one below, gets none.

    cd TREE && stamps.py KIT          KIT is the toolchain's folder

Status 1 where the toolchain writes its stamps in another way."""
import os
import sys


def main():
    sys.path.insert(0, os.path.join(sys.argv[1], "bin"))
    try:
        import rtlib

        for crate in rtlib.crates_below(os.path.abspath("crates")):
            stamp = os.path.join(crate.folder, "out", "rlib", "stamp")
            if os.path.isdir(crate.rlib) and not os.path.exists(stamp):
                sources = [file for it in [crate, *crate.below()] for file in rtlib.files_of(it.folder)]
                if max(map(os.path.getmtime, sources)) > os.path.getmtime(crate.rlib):
                    print(f"stamps: {crate.name} has a source that is newer than its library", file=sys.stderr)
                    continue
                with open(stamp, "w", encoding="utf-8") as it:
                    it.write(crate.stamp())
    except (ImportError, AttributeError, OSError, TypeError, ValueError) as fault:
        print(f"stamps: {fault}", file=sys.stderr)
        return 1
    return 0


if __name__ == "__main__":
    sys.exit(main())
