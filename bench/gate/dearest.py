#!/usr/bin/env python3
"""Which functions of a crate are dear to prove, by what `rt check` kept of it from nothing: the time between one file that it saved and the
next counts for the later one, and the files of a function are added up. Wall time, so beside other work it says more than it should; with
several jobs it says nothing.

    bench/gate/dearest.py [--most N] CRATE.."""
import argparse
import re
from collections import defaultdict
from pathlib import Path

TOP = Path(__file__).resolve().parents[2]


def saved(crate):
    """The files that a check kept, in the order in which they were saved: when, and of which part of the crate."""
    files = (TOP / "crates" / crate / "out/incremental").glob("*/*.oantt")
    return sorted((it.stat().st_mtime, it.name.removesuffix(".oantt").removeprefix(f"Rattle-{crate}-")) for it in files)


def parts(crate):
    """Seconds by function and by kind of file."""
    seconds, last = defaultdict(lambda: defaultdict(float)), None
    for at, name in saved(crate):
        where = re.sub(r"^(specs\.contracts|specs\.declared|proofs|specs)\.", "", name)
        function, _, kind = where.rpartition(".")
        if name.startswith("specs."):
            function, kind = where, "contract"
        if last is not None:
            seconds[function or where][kind] += at - last
        last = at
    return seconds


def main():
    parser = argparse.ArgumentParser(description=__doc__, formatter_class=argparse.RawDescriptionHelpFormatter)
    parser.add_argument("--most", type=int, default=12)
    parser.add_argument("crates", nargs="+")
    given = parser.parse_args()
    for crate in given.crates:
        all_parts = parts(crate)
        whole = sum(sum(it.values()) for it in all_parts.values())
        print(f"{crate}: {whole:.0f} s")
        for function, kinds in sorted(all_parts.items(), key=lambda it: -sum(it[1].values()))[: given.most]:
            told = ", ".join(f"{kind} {spent:.1f}" for kind, spent in sorted(kinds.items(), key=lambda it: -it[1])[:3])
            print(f"  {sum(kinds.values()):6.1f}  {function}: {told}")


if __name__ == "__main__":
    main()
