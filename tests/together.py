#!/usr/bin/env python3
"""Counts that four blocks make in threads, over a head that they share, stand in the history sixteen behind one another, and soon 64, but for the first
ones of a block: so where the file of the history goes over to another block, that one goes on with a sixteenth call of its own, and each time with one
that is as many calls above a multiple of 64. Made one by one they go over at any call. A run in which blocks do not come in turns tells nothing; it makes
ten at most until one tells, and says where none does.
With --times, which tells what each call takes, they are made one by one. Ends with 1 where they are not, or where without it they are, or never
more than sixteen together, where the file is not legal, where a reply is another one, or where a call has no line of its time.

    python3 tests/together.py PROGRAM
"""
import json, subprocess, sys, tempfile
from collections import Counter
from pathlib import Path

BLOCKS, CALLS, STRIDE, MOST, SKIPPED, TRIES, ENOUGH = 4, 40_000, 16, 64, 128, 10, 20


def places(program, folder, more):
    """A block, and at which of its calls it goes on, each time that the history goes over to it, but for its first ones."""
    words = ["run", "--table", "t.csv", "--script", "s.txt", "--threads", "--quiet", "--history", "h.json", *more]
    ran = subprocess.run([program, *words], cwd=folder, capture_output=True, text=True, check=True)
    reply = f"{sum(k % 97 >= 10 for k in range(1000))}\n"
    if ran.stdout != "---\n".join([reply * CALLS] * BLOCKS):
        sys.exit("together: WRONG: a reply is another one")
    numbers = sorted(int(line.split()[0]) for line in ran.stderr.splitlines())
    if numbers != (list(range(1, BLOCKS * CALLS + 1)) if more else []):
        sys.exit("together: WRONG: not each call has a line of its time")
    subprocess.run([program, "check", "h.json"], cwd=folder, stdout=subprocess.DEVNULL, check=True)
    made, last = {}, None
    for entry in json.loads((folder / "h.json").read_text())["entries"]:
        session = entry["session"]
        place = made[session] = made.get(session, -1) + 1
        if session != last and place >= SKIPPED:
            yield session, place
        last = session


def found_of(program, folder, *more):
    """The places of the first run whose blocks come in turns often enough, or of the last."""
    for _ in range(TRIES):
        found = list(places(program, folder, more))
        if len(found) >= ENOUGH:
            break
    return found


def main():
    program = Path(sys.argv[1]).resolve()
    with tempfile.TemporaryDirectory() as home:
        folder = Path(home)
        (folder / "t.csv").write_text("a:int,b:int\n" + "".join(f"{k % 97},{k}\n" for k in range(1000)))
        (folder / "s.txt").write_text("---\n".join(["count where a >= 10\n" * CALLS] * BLOCKS))
        found, timed = found_of(program, folder), found_of(program, folder, "--times")
    if min(len(found), len(timed)) < ENOUGH:
        print("together: the blocks did not come in turns, which tells nothing")
        return
    sixteenth, of_timed = (sum(place % STRIDE == 0 for _, place in them) for them in (found, timed))
    above = Counter((session, place % MOST) for session, place in found)
    alike = sum(max(above[session, k] for k in range(MOST)) for session in range(1, BLOCKS + 1))
    print(f"together: of {len(found)} times a block goes on {sixteenth} times with a sixteenth call, and {alike} times as far above a multiple of {MOST}; "
          f"with --times of {len(timed)} {of_timed}")
    if sixteenth < 0.9 * len(found):
        sys.exit("together: WRONG: calls in a row are made one by one")
    if alike < 0.9 * len(found):
        sys.exit("together: WRONG: never more than sixteen are made together")
    if of_timed > 0.5 * len(timed):
        sys.exit("together: WRONG: with --times calls are made together")


main()
