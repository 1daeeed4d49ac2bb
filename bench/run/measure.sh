#!/usr/bin/env bash
# Times a run of one count over a table of random ints beside the C++ peer in scan mode, by turns, and prints the ratio of
# the medians and the greatest memory. Usage: bench/run/measure.sh [ROWS [ROUNDS]]
set -euo pipefail
. "$(dirname "$0")/../program.sh"
rows=${1:-1000000}
rounds=${2:-9}
peer
python3 "$top/bench/peers/gen.py" "$work" --rows "$rows" --attrs 3 --calls 1 --mix count
PYTHONPATH=$top/bench PYTHONDONTWRITEBYTECODE=1 python3 - "$program" "$work" "$rounds" <<'PY'
import statistics, sys
from timed import timed
program, work, rounds = sys.argv[1], sys.argv[2], int(sys.argv[3])
table, script = work + "/t.csv", work + "/s.txt"
ours = [program, "run", "--table", table, "--script", script]
peer = [work + "/peer", "scan", table, script]
times, peers, memory = [], [], 0
for _ in range(rounds):
    a, kilobytes, mine = timed(ours)
    b, _, theirs = timed(peer)
    assert mine == theirs, (mine[:80], theirs[:80])
    times.append(a); peers.append(b); memory = max(memory, kilobytes)
print("sideways %.3f s, peer %.3f s (medians of %d), ratio %.2f, memory %d MB" %
      (statistics.median(times), statistics.median(peers), rounds, statistics.median(times) / statistics.median(peers), memory // 1024))
PY
