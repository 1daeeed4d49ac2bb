#!/usr/bin/env bash
# A head without cuts, which is one area of a table's rows, beside a C++ peer that cracks the same maps, over the same calls.
#
#     bench/area/measure.sh [ROWS [ROUNDS [CALLS]]]
#
# Copies the crates up to test_heads with a program of its own into a folder under TMPDIR, proves and builds them there, makes a
# table of random ints of three attributes and scripts of CALLS (by default 1,000) random calls at width one thousandth:
# counts, sums, selects of two tails, and sums with a second condition; a fifth as many sums over half of the rows (`wide`); and
# sums over ranges that stand side by side, from left to right (`moving`). It runs the program and bench/peers/peer.cpp in
# crack mode by turns ROUNDS times (by default 5) over each script, compares both outputs, and prints the medians of the
# seconds that the calls took, texts of replies included, with their ratio, and how much of it the head took.
# Maps are aligned in threads, which on a busy machine wait for a processor: RUN='chrt -f 10' (as root) runs both sides at
# real-time priority, so that a started thread gets one as it would on a quiet machine.
# It needs rt, g++ and python3. Nothing of the repository is written.
set -euo pipefail
here=$(cd "$(dirname "$0")" && pwd)
. "$here/../proved.sh"
sizes "$@"
area replies "$here/replies.rt.txt"
program=$work/crates/replies/out/replies

made() {
  python3 "$top/bench/peers/gen.py" "$work/$1" --rows "$rows" --attrs 3 --mix "$2" --calls "$3" --width "$4"
}
for mix in count sum select multi moving; do
  made "$mix" "$mix" "$calls" 0.001
done
made wide sum "$((calls / 5))" 0.5
python3 - "$work" "$program" "$rounds" <<'END'
import os, statistics, subprocess, sys
before = os.environ.get("RUN", "").split()
work, program, rounds = sys.argv[1], sys.argv[2], int(sys.argv[3])
def ran(words):
    done = subprocess.run(before + words, capture_output=True)
    assert done.returncode == 0, (words, done.returncode, done.stderr)
    return done.stdout, done.stderr.decode().split()
for mix in ("count", "sum", "select", "multi", "wide", "moving"):
    files = [f"{work}/{mix}/t.csv", f"{work}/{mix}/s.txt"]
    ours, areas, peers = [], [], []
    for _ in range(rounds):
        text, told = ran([program, *files])
        peer_text, peer_told = ran([f"{work}/peer", "crack", *files])
        assert text == peer_text, (mix, text[:80], peer_text[:80])
        assert told[5] == "0", told
        ours.append(int(told[1]) / 1e9); areas.append(int(told[3]) / 1e9); peers.append(float(peer_told[1]))
    a, b, c = statistics.median(ours), statistics.median(peers), statistics.median(areas)
    print(f"{mix:>6}: sideways {a:.3f} s (the head alone {c:.3f}), peer {b:.3f} s, ratio {a / b:.2f}, of the least {min(ours) / min(peers):.2f}")
END
