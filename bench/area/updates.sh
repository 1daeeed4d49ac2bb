#!/usr/bin/env bash
# A head without cuts, which is one area of a table's rows, under updates beside a C++ peer that merges them into the same maps, over the same calls.
#
#     bench/area/updates.sh [ROWS [ROUNDS [CALLS]]]
#
# Copies the crates up to test_heads with a program of its own into a folder under TMPDIR, proves and builds them there, makes a
# table of random ints of three attributes and, for each mix of calls, two scripts: CALLS (by default 1,000) and ten times as many.
# The mixes are those of MIXES, by default `insert log update`: of ten calls 5 inserts and 5 sums at width one thousandth; the same
# where the inserted values rise above all and the sums are of the newest rows; 3 inserts, 2 removals and 5 sums. It runs the program
# and bench/peers/peer.cpp in crack mode by turns ROUNDS times (by default 5) over each script, compares both outputs, and prints the
# medians of the seconds that the calls took, texts of replies included, with their ratio, how much of it the head took, and what ten
# times the calls cost.
# Maps are aligned in threads, which on a busy machine wait for a processor: RUN='chrt -f 10' (as root) runs both sides at
# real-time priority, so that a started thread gets one as it would on a quiet machine.
# It needs rt, g++ and python3. Nothing of the repository is written.
set -euo pipefail
here=$(cd "$(dirname "$0")" && pwd)
. "$here/../proved.sh"
sizes "$@"
area updates "$here/updates.rt.txt"
program=$work/crates/updates/out/updates

mixes=${MIXES:-insert log update}
for mix in $mixes; do
  for many in "$calls" "${calls}0"; do
    python3 "$top/bench/peers/gen.py" "$work/$mix-$many" --rows "$rows" --attrs 3 --calls "$many" --mix "$mix" --width 0.001
  done
done
python3 - "$work" "$program" "$rounds" "$calls" "${RUN:-}" "$mixes" <<'END'
import statistics, subprocess, sys
work, program, rounds, calls, run = sys.argv[1], sys.argv[2], int(sys.argv[3]), sys.argv[4], sys.argv[5].split()
def ran(words):
    done = subprocess.run([*run, *words], capture_output=True)
    assert done.returncode == 0, (words, done.returncode, done.stderr)
    return done.stdout, done.stderr.decode().split()
for mix in sys.argv[6].split():
    took = []
    for many in (calls, calls + "0"):
        files = [f"{work}/{mix}-{many}/t.csv", f"{work}/{mix}-{many}/s.txt"]
        ours, updates, queries, peers = [], [], [], []
        for _ in range(rounds):
            text, told = ran([program, *files])
            peer_text, peer_told = ran([f"{work}/peer", "crack", *files])
            assert text == peer_text, (mix, many, text[:80], peer_text[:80])
            assert told[7] == "0", told
            ours.append(int(told[1]) / 1e9); updates.append(int(told[3]) / 1e9); queries.append(int(told[5]) / 1e9)
            peers.append(float(peer_told[1]))
        a, b = statistics.median(ours), statistics.median(peers)
        took.append((a, b))
        print(f"{mix} {many:>6} calls: sideways {a:.3f} s (updates {statistics.median(updates):.3f}, queries with merges {statistics.median(queries):.3f}), peer {b:.3f} s, ratio {a / b:.2f}, of the least {min(ours) / min(peers):.2f}", flush=True)
    print(f"{mix}: ten times the calls: sideways {took[1][0] / took[0][0]:.1f} times the time, peer {took[1][1] / took[0][1]:.1f} times", flush=True)
END
