#!/usr/bin/env bash
# A map of a million pairs through a thousand random ranges, beside plain C++.
#
#     bench/maps/measure.sh [ROUNDS]
#
# Builds both programs in a folder of its own under TMPDIR, outside the repository, runs them in turn ROUNDS times
# (by default 9), compares the sums of what both maps hold, and prints the times and their ratio. It needs rt and g++. Nothing
# of the repository is written.
set -euo pipefail
rounds=${1:-9}
here=$(cd "$(dirname "$0")" && pwd)
. "$here/../proved.sh"
build program steps "$here/steps.rt.txt" sw_table sw_query sw_load sw_kernel sw_tape sw_budget sw_map test_maps
g++ -O3 -march=native -o "$work/peer" "$here/peer.cpp"

for _ in $(seq "$rounds"); do
  "$work/peer" | sed 's/^/peer /' >> "$work/times"
  "$work/crates/steps/out/steps" | sed 's/^/steps /' >> "$work/times"
done

python3 - "$work/times" <<'END'
import statistics, sys
steps, looks, sums = {}, {}, set()
for line in open(sys.argv[1]):
    who, whole, cursor, step, look, total = line.split()
    assert whole == "true" and cursor == "1001", line
    steps.setdefault(who, []).append(int(step) / 1e6)
    looks.setdefault(who, []).append(int(look) / 1e6)
    sums.add(total)
print("the maps hold the same" if len(sums) == 1 else f"the maps differ: {sums}")
for what, of in (("ranges", steps), ("tails by place", looks)):
    a, b = of["steps"], of["peer"]
    print(f"{what}: sw_map {statistics.median(a):.2f} ms ({min(a):.2f} at least), C++ {statistics.median(b):.2f} ms ({min(b):.2f}), "
          f"ratio of medians {statistics.median(a) / statistics.median(b):.2f}, of the least {min(a) / min(b):.2f}")
END
