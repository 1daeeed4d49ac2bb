"""sessions.py PROGRAM FOLDER ROUNDS CALLS RANGES [KIND]: what sessions.sh measures, over the table FOLDER/t.csv."""
import os, random, statistics, subprocess, sys
from typing import NamedTuple

PROGRAM, FOLDER = sys.argv[1], sys.argv[2]
ROUNDS, CALLS, RANGES = (int(word) for word in sys.argv[3:6])
KIND = sys.argv[6] if len(sys.argv) > 6 else ""
MOST = 1 << 30
FREE = 1.15  # processors are free where none takes more times as long as one that computed alone
TRIES = 8  # of a run before or after which they are not
FEW = 3  # as many runs on free processors are told
R = random.Random(7)


class Phase(NamedTuple):
    """Of a program, when its sessions' threads began and the last one ended, and the seconds of processors meanwhile."""
    begun: float
    ended: float
    work: float


class Ran(NamedTuple):
    """Of programs that run beside one another the seconds of the longest phase, those of processors, and for which part of it all ran at once."""
    took: float
    work: float
    at_once: float


def asked(what, width):
    low = R.randrange(int(MOST * (1 - width)) + 1)
    return f"{what} where a >= {low} and a < {low + int(MOST * width)}"


class Processors:
    """Looks whether processors are free."""

    def __init__(self):
        self.alone = float("inf")

    def are_free(self):
        looked = subprocess.run([FOLDER + "/free"], stdout=subprocess.PIPE, check=True).stdout.split()
        alone, most = map(float, looked)
        self.alone = min(self.alone, alone)
        return most < FREE * self.alone


def phase(notes):
    with open(notes) as file:
        notes = [(what, float(when), float(work)) for what, when, work in (line.split() for line in file)]
    # nothing takes longer between two notes than the reading of the script, behind which the sessions begin
    _, begun, had = max((now - before, now, work) for (_, before, _), (what, now, work) in zip(notes, notes[1:]) if what == "+")
    _, ended, has = notes[-1]
    return Phase(begun, ended, has - had)


def run(name, programs):
    """What so many programs took that ran beside one another, and the texts that they wrote."""
    words = [PROGRAM, "run", "--table", FOLDER + "/t.csv", "--script", f"{FOLDER}/{name}.txt", "--threads"]
    children, texts = [], set()
    for k in range(programs):
        noted = dict(os.environ, LD_PRELOAD=FOLDER + "/threads.so", THREADS_TO=f"{FOLDER}/threads{k}")
        with open(f"{FOLDER}/out{k}", "wb") as out:
            children.append(subprocess.Popen(words, stdout=out, stderr=subprocess.DEVNULL, env=noted))
    for k, child in enumerate(children):
        assert child.wait() == 0, words
        with open(f"{FOLDER}/out{k}", "rb") as out:
            texts.add(out.read().replace(b"---\n", b""))
    phases = [phase(f"{FOLDER}/threads{k}") for k in range(programs)]
    longest = max(it.ended - it.begun for it in phases)
    at_once = min(it.ended for it in phases) - max(it.begun for it in phases)
    return Ran(longest, sum(it.work for it in phases), at_once / longest), texts


def write(name, blocks):
    with open(f"{FOLDER}/{name}.txt", "w") as script:
        # (comments make each script take long to read)
        script.write("---\n".join("".join(line + "\n" for line in lines) for lines in blocks) + "# nothing\n" * 1_000_000)


def tell(kind, many, found):
    middle = {way: Ran(*map(statistics.median, zip(*runs))) for way, runs in found.items()}
    load, loads = middle["load"], middle["loads"]
    one, turn, four, eight = (middle[way].took - load.took for way in ("one", "turn", "four", "eight"))
    apart = middle["apart"].took - loads.took
    work = (middle["four"].work - load.work) / (middle["turn"].work - load.work)
    print(f"{kind}: {many} calls of one session {one:.3f} s, of each of four {four:.3f} s, by one thread {turn:.3f} s, of eight the half {eight:.3f} s; "
          f"calls a second {4 * one / four:.2f} times one session's; beside one thread {four / turn:.2f}, of processors {work:.2f}; eight beside four "
          f"{eight / four:.2f}; of one session in each of four programs {apart:.3f} s, {4 * one / apart:.2f} times (all at once for "
          f"{middle['apart'].at_once:.2f} of it); {min(map(len, found.values()))} runs of each", flush=True)


def measure(kind, lines, load):
    """`lines` are those of four sessions, one after the other, and `load` those of a session beside them; what that takes alone is taken off."""
    many = len(lines) // 4
    blocks = {"load": [load], "one": [lines[:many]], "turn": [lines], "four": [lines[k * many:(k + 1) * many] for k in range(4)],
              "eight": [lines[k * many // 2:(k + 1) * many // 2] for k in range(8)]}
    for name, these in blocks.items():
        write(name, [load, *these])
    ways = {**{name: (name, 1) for name in blocks}, "loads": ("load", 4), "apart": ("one", 4)}
    first, free, same, processors = {way: [] for way in ways}, {way: [] for way in ways}, {}, Processors()
    for _ in range(ROUNDS):
        for way, (name, programs) in ways.items():
            for attempt in range(TRIES):
                before = processors.are_free()
                ran, texts = run(name, programs)
                texts |= same.setdefault(name if name in ("load", "one") else "all", texts)
                assert len(texts) == 1, (kind, way)
                if attempt == 0:
                    first[way].append(ran)
                if before and processors.are_free():
                    free[way].append(ran)
                    break
    tell(kind, many, first)
    if min(map(len, free.values())) >= FEW:
        tell("  on free processors", many, free)


counts = [asked("count", 0.001) for _ in range(RANGES)]
sums = [asked("sum b", 0.1) for _ in range(RANGES)]
kinds = {"counts of ranges that recur": ([R.choice(counts) for _ in range(20 * CALLS)], counts),
         "sums of ranges that recur": ([R.choice(sums) for _ in range(CALLS)], sums),
         "counts of ranges that crack": ([asked("count", 0.001) for _ in range(4 * CALLS)], counts)}
for kind, (lines, load) in kinds.items():
    if KIND in kind:
        measure(kind, lines, load)
