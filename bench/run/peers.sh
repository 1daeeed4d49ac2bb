#!/usr/bin/env bash
# Counts, sums, selects of two attributes, second conditions, and updates among sums: what they take of the program, of the C++ peer in its three
# modes, and of whatever of SQLite, ClickHouse (clickhouse-server), numpy and pandas is installed, over the same table of random ints. Prints one table
# in Markdown, of the seconds of the calls alone; bench/run/peers.py says how these are taken. All replies are compared; the first that differs ends it.
# PYTHON names a Python that has modules which python3 lacks; that of the system is tried too.
# Usage: bench/run/peers.sh [ROWS [ROUNDS [CALLS]]]
set -euo pipefail
. "$(dirname "$0")/../program.sh"
rows=${1:-1000000}
rounds=${2:-5}
calls=${3:-1000}
if command -v g++ > /dev/null; then peer; fi
: > "$work/none.txt"
for mix in count sum select multi update; do
  python3 "$top/bench/peers/gen.py" "$work" --rows "$rows" --calls "$calls" --mix "$mix"
  mv "$work/s.txt" "$work/$mix.txt"
done
PYTHONPATH=$top/bench PYTHONDONTWRITEBYTECODE=1 python3 "$top/bench/run/peers.py" "$program" "$work" "$rounds"
