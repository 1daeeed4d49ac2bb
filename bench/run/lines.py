#!/usr/bin/env python3
"""A run of CALLS selects over four rows, whose lines go out as calls are answered, beside the same with `--threads`, whose lines go out when
all have ended. By turns; prints the medians of the seconds by the clock and of processors, the greatest memory, and the seconds until a reader
like `head -1` has its line, with what the run spends that ends then.

    python3 bench/run/lines.py [--program crates/sideways/out/sideways] [--calls 1000000] [--rounds 3]

Ends with 1 where both do not write the same."""
import argparse, hashlib, statistics, subprocess, sys, tempfile, time
from pathlib import Path

TOP = Path(__file__).resolve().parents[2]
sys.path.insert(0, str(TOP / "bench"))
from timed import Begun


def whole(words):
    """What a run spends whose lines are all taken, and the sum of these."""
    run, lines = Begun(words, stdout=subprocess.PIPE), hashlib.sha256()
    for part in iter(lambda: run.child.stdout.read(1 << 16), b""):
        lines.update(part)
    spent = run.ended()
    assert spent.status == 0, spent
    return spent, lines.digest()


def first(words):
    """The seconds until the first line of a run was taken, and what it spends when its reader is gone then."""
    begun = time.perf_counter()
    run = Begun(words, stdout=subprocess.PIPE, stderr=subprocess.DEVNULL)
    assert run.child.stdout.readline().endswith(b"\n")
    taken = time.perf_counter() - begun
    run.child.stdout.close()
    spent = run.ended()
    assert spent.status == 3, spent
    return taken, spent


def middle(spent):
    """The medians of the seconds and the processor's, and the greatest memory in MB."""
    return (statistics.median(one.seconds for one in spent), statistics.median(one.processor for one in spent),
            max(one.kilobytes for one in spent) * 1024 // 10**6)


def main():
    parser = argparse.ArgumentParser(description=__doc__, formatter_class=argparse.RawDescriptionHelpFormatter)
    parser.add_argument("--program", default=TOP / "crates/sideways/out/sideways")
    for name, number in (("calls", 1000000), ("rounds", 3)):
        parser.add_argument("--" + name, type=int, default=number)
    given = parser.parse_args()
    with tempfile.TemporaryDirectory() as folder:
        script = Path(folder) / "s.txt"
        script.write_text("select b where a >= 10\n" * given.calls)
        run = [given.program, "run", "--table", TOP / "examples/t.csv", "--script", script, "--quiet"]
        sides = [("in turn", run, []), ("with threads", run + ["--threads"], [])]
        for _ in range(given.rounds):
            for _, words, found in sides:
                found.append((*whole(words), *first(words)))
    if len({one[1] for _, _, found in sides for one in found}) != 1:
        sys.exit("the sides write different lines")
    for name, _, found in sides:
        spent, _, taken, left = zip(*found)
        print("%-12s %.2f s, %.2f of processors, %d MB; one line after %.2f s, and the end after %.2f s, %.2f of processors, %d MB" % (
            name, *middle(spent), statistics.median(taken), *middle(left)))


if __name__ == "__main__":
    main()
