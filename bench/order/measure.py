#!/usr/bin/env python3
"""How long `sideways order` takes, and what it names of logs in which one reply or one call is wrong.

    python3 bench/order/measure.py [--program crates/sideways/out/sideways] [--part wide|many|open|wrong] [--seeds 3]

Prints a line for each search: the seconds of its processor time and of the clock, the memory that it held at most, its
status; then, for each kind of wrong log, how often the call that is named is the one that was made wrong or one that shows
it, up to the first that no order has."""
import argparse, subprocess, sys, tempfile
from pathlib import Path

import making

TOP = Path(__file__).resolve().parent.parent.parent
sys.path.insert(0, str(TOP / "bench"))
from timed import Begun

# sessions, calls of each, rows, the share of its time that a session spends in calls, the width of ranges; seconds, megabytes
PARTS = {
    "wide": (8, 12500, 10000, 0.15, 2000, 3, 400),
    "many": (16, 1250, 10000, 0.15, 2000, 1, 400),
    "open": (32, 625, 2000, 0.94, 20000, 30, 400),
}


def order(program, folder, logs, flags=()):
    """Runs `order` over logs; answers its status, standard error, seconds of processor time and of the clock, and megabytes."""
    words = [str(program), "order", "--table", str(folder / "t.csv"), "--where", str(folder / "where.csv"), *flags, *map(str, logs)]
    with open(folder / "h.json", "wb") as out, open(folder / "errors", "wb") as errors:
        spent = Begun(words, stdout=out, stderr=errors).ended()
    return spent.status, (folder / "errors").read_text(), spent.processor, spent.seconds, spent.kilobytes / 1024


def checked(program, folder):
    """What `check` says of the history that was found."""
    return subprocess.run([str(program), "check", str(folder / "h.json")], capture_output=True, text=True).stdout.strip()


def timed(program, part, seed):
    sessions, calls, rows, share, width, seconds, megabytes = PARTS[part]
    with tempfile.TemporaryDirectory() as name:
        folder = Path(name)
        opening, made = making.logs(seed, sessions, calls, rows, share, width)
        logs, _ = making.write(folder, opening, made)
        status, told, used, clock, held = order(program, folder, logs)
        verdict = checked(program, folder) if status == 0 else told.splitlines()[0]
        good = status == 0 and clock <= seconds and held <= megabytes
        print("%-5s seed %d: %d calls of %d sessions: %.2f s of processor, %.2f s (bar %d), %d MB (bar %d): status %d, %s%s" % (
            part, seed, len(made), sessions, used, clock, seconds, held, megabytes, status, verdict, "" if good else "  OVER"), flush=True)
    return good


def may_be_named(calls, at, replies, right):
    """The places of the calls that may be named where the one at a place was made wrong: that one, and those whose replies differ from a right
    store's, up to the first, by its end, that no order has. One that overlapped the wrong call may stand before it, and shows nothing there."""
    shown = [place for place in range(len(calls)) if place == at or replies[place] != right[place]]
    sure = [calls[place][2] for place in shown if replies[place] != right[place] and (place == at or calls[place][1] > calls[at][2])]
    return [place for place in shown if not sure or calls[place][2] <= min(sure)]


def wrong_logs(rng_seed, opening, calls):
    """Logs with one thing wrong: what it is, the place of the call, and all replies."""
    rng = making.random.Random(rng_seed)
    right = [call[4] for call in calls]

    def some(test):
        return rng.choice([place for place in range(len(calls) // 10, len(calls) * 9 // 10) if test(calls[place])])

    for name, wrong, test in [
        ("lost insert", making.lost_insert, lambda c: c[3][0] == "insert"),
        ("lost delete", making.lost_delete, lambda c: c[3][0] == "delete" and c[4] == "removed"),
        ("doubled insert", making.doubled_insert, lambda c: c[3][0] == "insert"),
    ]:
        at = some(test)
        yield name, at, making.replayed(opening, calls, at, wrong)
    at = some(lambda c: c[3][0] == "count")
    yield "count too high", at, right[:at] + [str(int(right[at]) + 1)] + right[at + 1 :]
    for _ in range(1000):
        at = some(lambda c: c[3][0] in ("rows", "count", "sum"))
        old = making.stale_read(opening, calls, at)
        if old is not None:
            yield "stale read", at, right[:at] + [old] + right[at + 1 :]
            return


def named(told):
    """The call that is named as the next: its file and record."""
    for line in told.splitlines():
        if line.startswith("the next is "):
            words = line[len("the next is ") :].split(" record ")
            return Path(words[0]).name, int(words[1].split(",")[0])
    return None


def wrong(program, seeds):
    counts = {}
    for seed in range(1, seeds + 1):
        opening, calls = making.logs(seed, 8, 250, 300, 0.5, 50000)
        right = [call[4] for call in calls]
        for name, at, replies in wrong_logs(seed, opening, calls):
            with tempfile.TemporaryDirectory() as folder:
                logs, origins = making.write(Path(folder), opening, calls, replies)
                status, told, _, clock, _ = order(program, Path(folder), logs)
            first = may_be_named(calls, at, replies, right)
            is_named = status == 1 and named(told) in [origins[place] for place in first]
            total = counts.setdefault(name, [0, 0, 0])
            total[0] += 1
            total[1] += status == 1
            total[2] += is_named
            if not is_named:
                print("  %s, seed %d: status %d in %.1f s, named %s, wrong %s" % (
                    name, seed, status, clock, named(told), [origins[place] for place in first]), flush=True)
    for name, (all_of, found, is_named) in counts.items():
        print("%-15s %d logs: %d without an order, %d named at the wrong call or one that shows it" % (name, all_of, found, is_named))
    return all(found == all_of for all_of, found, _ in counts.values())


def main():
    words = argparse.ArgumentParser(description=__doc__, formatter_class=argparse.RawDescriptionHelpFormatter)
    words.add_argument("--program", default=TOP / "crates/sideways/out/sideways")
    words.add_argument("--part", choices=[*PARTS, "wrong"])
    words.add_argument("--seeds", type=int, default=3)
    given = words.parse_args()
    good = True
    for part in [given.part] if given.part else [*PARTS, "wrong"]:
        if part == "wrong":
            good &= wrong(given.program, given.seeds)
        else:
            for seed in range(1, given.seeds + 1):
                good &= timed(given.program, part, seed)
    return 0 if good else 1


if __name__ == "__main__":
    sys.exit(main())
