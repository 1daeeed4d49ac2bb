#!/usr/bin/env bash
# Times whole runs of the program over 10,000, 100,000 and 1,000,000 rows, medians of ROUNDS, and prints for each mix of calls how many times the time
# ten times the rows take. Widths are such that a range has as many rows in each table.
# Usage: bench/run/rows.sh [ROUNDS]
set -euo pipefail
. "$(dirname "$0")/../program.sh"
rounds=${1:-9}
for mix in one count sum select multi insert update; do
  for size in 10000:0.1 100000:0.01 1000000:0.001; do
    IFS=: read -r rows width <<< "$size"
    python3 "$top/bench/peers/gen.py" "$work/$rows" --rows "$rows" --calls 1000 --mix "${mix/one/count}" --width "$width"
    if [ "$mix" = one ]; then echo count > "$work/$rows/s.txt"; fi
  done
  PYTHONPATH=$top/bench PYTHONDONTWRITEBYTECODE=1 python3 - "$program" "$work" "$rounds" "$mix" <<'PY'
import statistics, sys
from timed import timed
program, work, rounds, mix = sys.argv[1], sys.argv[2], int(sys.argv[3]), sys.argv[4]
sizes = ("10000", "100000", "1000000")
times = {size: [] for size in sizes}
for _ in range(rounds):
    for size in sizes:
        seconds, _, _ = timed([program, "run", "--table", f"{work}/{size}/t.csv", "--script", f"{work}/{size}/s.txt"])
        times[size].append(seconds)
a, b, c = (statistics.median(times[size]) for size in sizes)
print(f"| {mix} | {a:.3f} | {b:.3f} | {c:.3f} | {b / a:.1f} | {c / b:.1f} |", flush=True)
PY
done
