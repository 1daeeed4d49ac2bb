#!/usr/bin/env python3
"""Runs that are ended by SIGKILL at random moments, as a system ends them that promised more memory than it has. What stands in the output's
file is a beginning of the output. Under the asked name stands the history that stood there, or, where the output is whole, the whole new one; what
was begun of that may stand beside it. The table and the script are as they were."""
import random, subprocess, time
from running import Holder, ended, options, wrong

ROWS, SELECTS, KILLS = 3000, 3000, 400
OLD = b"what stood there"


def files(dice):
    """A table and a script whose output takes some megabytes, as its history does."""
    table = "a:int,b:int\n" + "".join("%d,%d\n" % (dice.randrange(1000), dice.randrange(1000)) for _ in range(ROWS))
    lines = []
    for _ in range(SELECTS):
        low = dice.randrange(980)
        lines.append("select b where a >= %d and a < %d\n" % (low, low + 20))
    return {"t.csv": table.encode(), "s.txt": "".join(lines).encode(), "h.json": OLD}


def one(program, folder, words, wait):
    """A run that is killed after so many seconds, if it is not at its end: its status."""
    with open(folder / "out.txt", "wb") as out:
        child = subprocess.Popen([program] + words, cwd=folder, stdin=subprocess.DEVNULL, stdout=out, stderr=subprocess.DEVNULL)
        try:
            child.wait(wait)
        except subprocess.TimeoutExpired:
            child.kill()
        return child.wait()


def main():
    given = options(__doc__)
    dice, holder = random.Random(given.seed), Holder(given.program)
    made = files(dice)
    folder = holder.fresh("killed", made)
    words = ["run", "--table", "t.csv", "--script", "s.txt", "--history", "h.json"]
    began = time.time()
    status = one(given.program, folder, words, 300)
    lasts = time.time() - began
    output, history = (folder / "out.txt").read_bytes(), (folder / "h.json").read_bytes()
    assert status == 0 and len(output) > 1_000_000 and len(history) > 1_000_000 and history != OLD
    counts = {}
    for _ in range(KILLS * given.times):
        (folder / "h.json").write_bytes(OLD)
        status = one(given.program, folder, words, dice.uniform(0, 1.05 * lasts))
        out, kept = (folder / "out.txt").read_bytes(), (folder / "h.json").read_bytes()
        whole = (status, out == output, kept == history)
        begun = [path for path in folder.iterdir() if path.name.endswith(".part")]
        right = output.startswith(out) and (kept == OLD or (out == output and kept == history)) and len(begun) <= (out == output and kept == OLD)
        right = right and status in (0, -9) and (status != 0 or whole[1:] == (True, True))
        right = right and all((folder / name).read_bytes() == made[name] for name in ("t.csv", "s.txt"))
        if not right:
            wrong("a run that was killed", made, words, "beginnings", (status, len(out), len(kept)))
        kind = ("ended" if status == 0 else "killed, no output" if not out else "killed within the output" if out != output else
                "killed, a whole history" if whole[2] else "killed beside the old history" if begun else "killed, the old history")
        for path in begun:
            path.unlink()
        counts[kind] = counts.get(kind, 0) + 1
    print("as expected: " + ", ".join("%d %s" % (many, kind) for kind, many in sorted(counts.items())))


if __name__ == "__main__":
    ended(main)
