#!/usr/bin/env bash
# Leases of sw_budget against a plain Rust atomic that makes the same steps.
#
#     bench/budget/measure.sh [ROUNDS]
#
# Builds both programs in a folder of its own under TMPDIR, outside the repository, runs them in turn ROUNDS times
# (by default 21), and prints the medians of nanoseconds a call, for one thread and for four, and their ratio.
# It needs rt and rustc. Nothing of the repository is written.
set -euo pipefail
rounds=${1:-21}
here=$(cd "$(dirname "$0")" && pwd)
. "$here/../proved.sh"
build program leases "$here/leases.rt.txt" sw_table sw_query sw_budget
rustc -C opt-level=3 -o "$work/plain" "$here/plain.rs"

for _ in $(seq "$rounds"); do
  "$work/plain" | sed 's/^/plain /' >> "$work/times"
  "$work/crates/leases/out/leases" | sed 's/^/leases /' >> "$work/times"
done

python3 - "$work/times" <<'END'
import statistics, sys
calls, answered = {}, {}
for line in open(sys.argv[1]):
    who, threads, made, leases, nanoseconds = line.split()
    calls.setdefault((threads, who), []).append(int(nanoseconds) / int(made))
    answered.setdefault((threads, who), []).append(int(leases) / int(made))
for threads in ("1", "4"):
    ours, plain = calls[threads, "leases"], calls[threads, "plain"]
    a, b = statistics.median(ours), statistics.median(plain)
    print(f"{threads} thread(s): sw_budget {a:.1f} ns a call ({min(ours):.1f} to {max(ours):.1f}), "
          f"plain {b:.1f} ({min(plain):.1f} to {max(plain):.1f}), ratio of medians {a / b:.2f}, "
          f"of the least {min(ours) / min(plain):.2f}; answered with a lease "
          f"{statistics.median(answered[threads, 'leases']):.2f} and {statistics.median(answered[threads, 'plain']):.2f}")
END
