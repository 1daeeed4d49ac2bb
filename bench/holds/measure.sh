#!/usr/bin/env bash
# How long others wait for an engine's lock: the longest visit of one session while another makes calls of one kind.
#
#     bench/holds/measure.sh [ROWS [ROUNDS [CALLS]]]
#
# Copies the crates up to sw_engine with a program of its own into a folder under TMPDIR, and proves and builds them there; with PROGRAM=FILE
# it runs that one. The program makes ROWS random rows of three ints (by default 1,000,000). Of each kind of call it runs it ROUNDS times (by
# default 5) and prints what a call took, and the longest visit of the other session: medians and the greatest, in microseconds. A call's time
# holds all its visits, and what is done between them; the other's longest visit holds the longest of them, and what the system took.
#
# Both threads need a processor each and nothing beside them; RUN='chrt -f 10' (as root) runs them at real-time priority.
# It needs rt and python3. Nothing of the repository is written.
set -euo pipefail
here=$(cd "$(dirname "$0")" && pwd)
. "$here/../proved.sh"
sizes "$@"
if [ -z "${PROGRAM:-}" ]; then
  proofs holds "$here"
  build program holds "$here/holds.rt.txt" \
    sw_table sw_query sw_rows sw_lang sw_kernel sw_load sw_tape sw_budget sw_map sw_bits sw_slots sw_set sw_spine sw_tie sw_chunks sw_versions sw_engine anyhow
fi

python3 - "${PROGRAM:-$work/crates/holds/out/holds}" "$rows" "$rounds" "$calls" "${RUN:-}" <<'END'
import statistics, subprocess, sys
program, rows, rounds, calls, run = sys.argv[1], int(sys.argv[2]), int(sys.argv[3]), int(sys.argv[4]), sys.argv[5].split()
median = statistics.median

def told(kind, many, backlog, viewers):
    """What each call took, and the longest visit of the other session, in microseconds."""
    words = map(str, (kind, rows, many, backlog, viewers))
    done = subprocess.run([*run, program, *words], capture_output=True, encoding="utf-8")
    nanos = [int(line) / 1000 for line in done.stdout.split()]
    assert done.returncode == 0 and len(nanos) == many, (kind, done.returncode, done.stderr)
    return nanos, int(done.stderr.split()[0]) / 1000

# what is called, how often, behind how many deletes, and while how many viewers are open
KINDS = {
    "one more session": ("session", min(calls, 1000), 0, 0),
    "a select of a hot range": ("select", calls, 0, 0),
    "an insert": ("insert", 10 * calls, 0, 0),
    "a delete": ("delete", 10 * calls, 0, 0),
    "a `delete where`": ("where", min(calls, 20), 0, 0),
    "the first viewer": ("viewer", 1, 0, 0),
    "the first viewer, behind 100,000 deletes": ("viewer", 1, 100000, 0),
    "an insert, with a viewer open": ("insert", 10 * calls, 0, 1),
    "a publish": ("publish", calls, 0, 1),
    "a meeting": ("meet", calls, 0, 1),
    "the first select of a head": ("cold", 1, 0, 0),
    "the first select of a head, behind 100,000 deletes": ("cold", 1, 100000, 0),
}
print(f"{'':>50} a call: median, greatest; the other's longest visit: median, greatest (us)")
for name, words in KINDS.items():
    both = [told(*words) for _ in range(rounds)]
    nanos, longest = [one for times, _ in both for one in times], [most for _, most in both]
    print(f"{name:>50} {median(nanos):12.1f} {max(nanos):12.1f} {median(longest):12.1f} {max(longest):12.1f}", flush=True)
END
