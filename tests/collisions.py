#!/usr/bin/env python3
"""Texts, and keys, that are picked so that they collide under the hash of a dictionary with a fixed seed: a table, a script and a history
file of such texts, and a store's log with such keys, may take no more than three times the processor time that others of the same length take.
Ends with 1 where one takes more. Keys are picked by colliding.c, some seconds; without a C compiler they are left out, which is told.

    python3 tests/collisions.py PROGRAM
"""
import itertools, os, random, resource, string, struct, subprocess, sys, tempfile
from pathlib import Path

TOP = Path(__file__).resolve().parents[1]

# How many texts there are in a table, and in the lines of a script.
ROWS, LINES = 80_000, 20_000
# How many keys inserts were given, in a table of 2^10 groups, and how many replies have all rows.
KEYS, BITS, SHOWN = 5_000, 10, 40
MOST_TIMES, TURNS, PATIENCE = 3.0, 3, 120

LETTERS = string.ascii_letters + string.digits
MASK = 2**64 - 1

# The hash of the kit's default `FoldHasher`, which `IndexSet::new` has, of texts of 32 bytes.
SEED, MULTIPLIER = 0x243F6A8885A308D3, 0x9E3779B97F4A7C15


def folded(a, b):
    product = a * b
    return product & MASK ^ product >> 64


def step(state, sixteen):
    low, high = struct.unpack("<QQ", sixteen)
    return folded(low ^ state, high ^ MULTIPLIER)


def hash_of(text):
    assert len(text) == 32
    return step(step(SEED + len(text) & MASK, text[:16]), text[16:])


def collisions(many, rng):
    """Texts of 32 bytes with the hash 0. The third word is the state after the first two, so that the last product is one with 0,
    whatever the fourth word is."""
    while True:
        front = "".join(rng.choices(LETTERS, k=16)).encode()
        word = struct.pack("<Q", step(SEED + 32 & MASK, front))
        if all(chr(byte) in LETTERS for byte in word):
            break
    texts = [front + word + "".join(end).encode() for end in itertools.islice(itertools.product(LETTERS, repeat=8), many)]
    assert all(hash_of(text) == 0 for text in texts)
    return texts


def others(many, rng):
    texts = list({"".join(rng.choices(LETTERS, k=32)).encode() for _ in range(many)})
    assert len(texts) == many
    return texts


def timed(program, folder, words):
    """The least processor time of some runs, in seconds: other work on the machine does not count."""
    least = None
    for _ in range(TURNS):
        before = resource.getrusage(resource.RUSAGE_CHILDREN)
        done = subprocess.run([program] + words, cwd=folder, stdout=subprocess.DEVNULL, stderr=subprocess.PIPE, timeout=PATIENCE)
        after = resource.getrusage(resource.RUSAGE_CHILDREN)
        if done.returncode != 0:
            sys.exit(f"{words}: status {done.returncode}, {done.stderr.decode()}")
        took = after.ru_utime - before.ru_utime + after.ru_stime - before.ru_stime
        least = took if least is None else min(least, took)
    return least


def times(program, folder, texts):
    """The times of a table, of a script and of a history file of these texts."""
    put = lambda name, lines: (folder / name).write_bytes(b"\n".join(lines) + b"\n")
    put("table.csv", [b"t:text"] + texts)
    put("small.csv", [b"t:text,n", b"x,1"])
    put("count.txt", [b"count"])
    put("lines.txt", [b"count where t = '%s'" % text for text in texts[:LINES]])
    table = timed(program, folder, ["run", "--table", "table.csv", "--script", "count.txt"])
    script = timed(program, folder, ["run", "--table", "small.csv", "--script", "lines.txt", "--history", "history.json"])
    history = timed(program, folder, ["check", "history.json"])
    return {"table": table, "script": script, "history": history}


def picked_keys(folder):
    """Keys that collide; None without a C compiler."""
    try:
        subprocess.run([os.environ.get("CC", "cc"), "-O2", "-o", folder / "colliding", TOP / "tests/colliding.c"], check=True)
    except (OSError, subprocess.CalledProcessError):
        return None
    made = subprocess.run([folder / "colliding", str(KEYS), str(BITS)], stdout=subprocess.PIPE, text=True, check=True)
    return made.stdout.split()


def other_keys(rng):
    return [str(key) for key in rng.sample(range(2**62, 2**62 + 2**58), KEYS)]


def time_of_keys(program, folder, keys):
    """The time of looking for an order of a log in which inserts were given these keys, and replies show them."""
    rows = "".join("%s: %d\n" % (key, i) for i, key in enumerate(keys)) + "(%d rows)" % len(keys)
    with open(folder / "log.csv", "w") as log:
        log.write("session,start,end,call,reply\n")
        for i, key in enumerate(keys):
            log.write("1,%d,%d,insert %d,key %s\n" % (2 * i, 2 * i + 1, i, key))
        for i in range(len(keys), len(keys) + SHOWN):
            log.write('1,%d,%d,select a,"%s"\n' % (2 * i, 2 * i + 1, rows))
    (folder / "empty.csv").write_text("a:int\n")
    return timed(program, folder, ["order", "--table", "empty.csv", "--keys", "any", "log.csv"])


def main():
    program = str(Path(sys.argv[1]).resolve())
    rng = random.Random(24)
    with tempfile.TemporaryDirectory() as home:
        plain = times(program, Path(home), others(ROWS, rng))
        keys = picked_keys(Path(home))
        if keys:
            plain["log"] = time_of_keys(program, Path(home), other_keys(rng))
        else:
            print("no C compiler: keys that collide are left out")
        try:
            picked = times(program, Path(home), collisions(ROWS, rng))
            if keys:
                picked["log"] = time_of_keys(program, Path(home), keys)
        except subprocess.TimeoutExpired as late:
            sys.exit(f"of those that collide: {late}; others: {plain}")
    wrong = False
    for name, other in plain.items():
        ratio = picked[name] / other
        wrong = wrong or ratio > MOST_TIMES
        print(f"{name}: {picked[name]:.3f} s where they collide, {other:.3f} s of others, {ratio:.2f} times")
    sys.exit(1 if wrong else 0)


if __name__ == "__main__":
    main()
