#!/usr/bin/env bash
# Times a run of inserts and deletes with one count at their end beside the C++ peer in scan mode, by turns over the same
# files, and prints the ratio of the medians. Then times ten times as many calls, and prints how many times as long the
# calls took, without what the table took.
# Usage: bench/run/updates.sh [ROWS [CALLS [ROUNDS]]]
set -euo pipefail
. "$(dirname "$0")/../program.sh"
rows=${1:-1000000}
calls=${2:-100000}
rounds=${3:-9}
peer
PYTHONPATH=$top/bench PYTHONDONTWRITEBYTECODE=1 python3 - "$program" "$work" "$rows" "$calls" "$rounds" <<'PY'
import random, statistics, sys
from timed import timed
program, work = sys.argv[1], sys.argv[2]
rows, calls, rounds = int(sys.argv[3]), int(sys.argv[4]), int(sys.argv[5])
bound, most = 1 << 30, 1048576
def table(name, rows):
    draw = random.Random(7)
    with open(work + "/" + name, "w") as out:
        out.write("a:int,b:int,c:int\n")
        for _ in range(rows):
            out.write("%d,%d,%d\n" % tuple(draw.randrange(bound) for _ in range(3)))
def script(name, rows, calls):
    # Two inserts of five calls; the other calls delete keys that were given, some of them twice.
    draw, made = random.Random(8), rows
    with open(work + "/" + name, "w") as out:
        for i in range(calls):
            if i % 5 < 2:
                out.write("insert %d, %d, %d\n" % tuple(draw.randrange(bound) for _ in range(3)))
                made += 1
            else:
                out.write("delete %d\n" % draw.randint(1, made))
        out.write("count\n")
    assert made <= most, "more rows than a table may have"
def ours(table, script):
    return timed([program, "run", "--table", work + "/" + table, "--script", work + "/" + script])
table("t.csv", rows)
script("s.txt", rows, calls)
times, peers, memory = [], [], 0
for _ in range(rounds):
    a, kilobytes, mine = ours("t.csv", "s.txt")
    b, _, theirs = timed([work + "/peer", "scan", work + "/t.csv", work + "/s.txt"])
    assert mine == theirs, "the outputs differ"
    times.append(a); peers.append(b); memory = max(memory, kilobytes)
print("%d rows, %d calls and a count: sideways %.3f s, peer %.3f s (medians of %d), ratio %.2f, memory %d MB" %
      (rows, calls, statistics.median(times), statistics.median(peers), rounds, statistics.median(times) / statistics.median(peers), memory // 1024))
half = rows // 2
table("h.csv", half)
script("none.txt", half, 0)
script("one.txt", half, calls)
script("ten.txt", half, 10 * calls)
took = {"none.txt": [], "one.txt": [], "ten.txt": []}
for _ in range(rounds):
    for name in took:
        took[name].append(ours("h.csv", name)[0])
none, one, ten = (statistics.median(took[name]) for name in ("none.txt", "one.txt", "ten.txt"))
print("%d rows: count alone %.3f s, with %d calls %.3f s, with %d calls %.3f s; ten times the calls take %.1f times the time" %
      (half, none, calls, one, 10 * calls, ten, (ten - none) / (one - none)))
PY
