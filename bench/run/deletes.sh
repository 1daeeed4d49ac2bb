#!/usr/bin/env bash
# Times one `delete where` of 1 in 10 rows, half way of sums over random ranges, and the next sum, which pays one restart, beside the C++ peer in crack
# mode, by turns over the same files; both outputs are compared. Prints the medians of the first sum, of the sum before, of that call, and of the sums
# after it, by the times that both sides tell of their calls, then the whole runs, and how often heads began anew (`--stats`).
# Usage: bench/run/deletes.sh [ROWS [ROUNDS [CALLS]]]
set -euo pipefail
. "$(dirname "$0")/../program.sh"
rows=${1:-1000000}
rounds=${2:-9}
calls=${3:-1000}
peer
python3 "$top/bench/peers/gen.py" "$work" --rows "$rows" --calls "$calls" --mix delwhere
PYTHONPATH=$top/bench PYTHONDONTWRITEBYTECODE=1 python3 - "$program" "$work" "$rounds" <<'PY'
import statistics, subprocess, sys
from timed import timed
program, work, rounds = sys.argv[1], sys.argv[2], int(sys.argv[3])
files = [work + "/t.csv", work + "/s.txt"]
lines = open(files[1]).read().splitlines()
[at] = [place for place, line in enumerate(lines) if line.startswith("delete where")]
words = [program, "run", "--table", files[0], "--script", files[1], "--quiet"]
peer = [work + "/peer", "crack", *files]
def told(words):
    """What a run writes, and the nanoseconds of each of its calls."""
    done = subprocess.run(words, capture_output=True, check=True)
    times = [line.split() for line in done.stderr.decode().splitlines()]
    return done.stdout, [int(took[1]) for took in times if took[0].isdigit()]
ours, peers, whole, theirs = [], [], [], []
for _ in range(rounds):
    (a, mine), (b, other) = told([*words, "--times"]), told([*peer, "times"])
    assert a == b and len(mine) == len(other) == len(lines), (a[:80], b[:80])
    ours.append(mine); peers.append(other)
    whole.append(timed(words)[0]); theirs.append(timed(peer)[0])
gone = a.decode().splitlines()[at]
print(f"{len(lines)} calls, {lines[at]}: {gone}")
named = (("the first sum", 0), ("the sum before", at - 1), ("the delete", at), ("the next sum", at + 1), ("the second sum after it", at + 2), ("the last sum", len(lines) - 1))
for name, place in named:
    a, b = ([took[place] / 1e6 for took in runs] for runs in (ours, peers))
    print(f"{name:24} sideways {statistics.median(a):8.3f} ms, peer {statistics.median(b):8.3f} ms, ratio {statistics.median(a) / statistics.median(b):.2f} (least {min(a) / min(b):.2f})")
print(f"whole runs: sideways {statistics.median(whole):.2f} s, peer {statistics.median(theirs):.2f} s, ratio {statistics.median(whole) / statistics.median(theirs):.2f} (least {min(whole) / min(theirs):.2f})")
stats = subprocess.run([*words, "--stats"], stdout=subprocess.DEVNULL, stderr=subprocess.PIPE, check=True).stderr.decode().splitlines()
print("restarts by head:", ", ".join(f"{line.split()[0]} {line.split()[5]}" for line in stats[1:]))
PY
