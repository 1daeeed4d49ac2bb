#!/usr/bin/env bash
# Times sessions that ask one head, each in a thread of its own (`--threads`), beside one session, and beside one that makes the calls of all: counts (five
# times CALLS), and sums over a tenth of the rows (a fourth), of RANGES ranges that recur, which soon change nothing any more; and counts of ranges that
# crack. For each it prints how many times one session's calls a second four sessions make; their time, and that of processors, beside one thread that
# makes all; the time of eight sessions beside that of four that make the same calls; and, as what the machine gives, the time of four programs that run
# beside one another, each with one session. Time is from the beginning of the sessions' threads to the end of the last (threads.c), less that of a
# session beside them, which loads the head and makes one call for each range. Medians are told of all rounds, and once more of runs before and after
# which the processors were free (free.c): where they were not, a run is made again, up to eight times a round. All outputs are compared. With KIND those
# kinds alone in whose names it stands, as `counts of ranges that recur`.
# Usage: bench/run/sessions.sh [ROWS [ROUNDS [CALLS [RANGES [KIND]]]]]
set -euo pipefail
. "$(dirname "$0")/../program.sh"
rows=${1:-1000000}
rounds=${2:-9}
calls=${3:-20000}
ranges=${4:-64}
python3 "$top/bench/peers/gen.py" "$work" --rows "$rows" --calls 1
cc -O2 -pthread -o "$work/free" "$top/bench/run/free.c"
cc -O2 -shared -fPIC -o "$work/threads.so" "$top/bench/run/threads.c" -ldl
PYTHONDONTWRITEBYTECODE=1 python3 "$top/bench/run/sessions.py" "$program" "$work" "$rounds" "$calls" "$ranges" "${5:-}"
