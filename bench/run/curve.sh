#!/usr/bin/env bash
# Draws docs/curve.svg: the time of the k-th query, for the program, the C++ peer in its three modes, and SQLite with and without an index, all over
# the same table of random ints and the same sums over random ranges, on one thread each. Each side runs ROUNDS times, and the median of a query's
# times is drawn; SQLite without an index is asked the first 200 only. All replies are compared.
# Usage: bench/run/curve.sh [ROWS [CALLS [ROUNDS]]]
set -euo pipefail
. "$(dirname "$0")/../program.sh"
rows=${1:-1000000}
calls=${2:-10000}
rounds=${3:-3}
peer
python3 "$top/bench/peers/gen.py" "$work" --rows "$rows" --calls "$calls" --mix sum --width 0.001
PYTHONDONTWRITEBYTECODE=1 python3 "$top/bench/run/curve.py" "$program" "$work" "$rounds" "$top/docs/curve.svg"
