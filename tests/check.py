#!/usr/bin/env python3
"""Checks one crate over libraries that `rt ci` built, and proves none of them again: seconds for a function, where `rt check` in a new clone
first proves all crates below.

    tests/check.py CRATE --only F --short-goals     a function and what it calls: the last line, `only=N proved=M`, tells how many are proved
    tests/check.py CRATE                            the whole crate; any words of `rattle check` may follow
    LIBS=FOLDER tests/check.py CRATE ..             over the libraries of another clone

CRATE is a name, as sw_set. Libraries that were not built of their text are told, and then nothing is checked; with LIBS that is the text of
the other clone. What was checked stays in the crate's out/once, so that the next check is faster. Status as `rattle check` has it, and 2 where
it cannot begin."""
import os
import sys

from bodies import TOP
from wrong import kit


def main():
    name, flags = sys.argv[1], sys.argv[2:]
    rtlib = kit()
    crates = {it.name: it for it in rtlib.crates_below(f"{os.environ.get('LIBS', TOP)}/crates")}
    if name not in crates or not os.path.isdir(f"{TOP}/crates/{name}/src"):
        return f"no crate has the name {name}"
    lacking = [it.name for it in crates[name].below() if not it.is_built()]
    if lacking:
        return f"not built of the text that stands: {' '.join(lacking)}; rt ci {name} builds them"
    os.chdir(f"{TOP}/crates/{name}")
    os.makedirs("out/once", exist_ok=True)
    jobs = [] if "--jobs" in flags else ["--jobs", "2"]
    words = crates[name].words([*jobs, *flags], keeps=False)
    os.execv(rtlib.RATTLE, ["rattle", "check", *words, "--incremental", "out/once"])


if __name__ == "__main__":
    sys.stderr.write(f"check.py: {main()}\n" if len(sys.argv) > 1 else f"{__doc__}\n")
    sys.exit(2)
