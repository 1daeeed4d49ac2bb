#!/usr/bin/env bash
# Times whole runs of the program, file in and replies out, beside the C++ peer in crack mode, by turns over the same files; both outputs are
# compared. For each mix of calls it prints the medians of both, their ratio, the greatest memory of both, and, of one run more with --stats, the
# seconds that the heads' queries took beside those that the peer's calls took.
# Usage: bench/run/whole.sh [ROWS [ROUNDS [MIX:CALLS[:WIDTH]..]]]
set -euo pipefail
. "$(dirname "$0")/../program.sh"
rows=${1:-1000000}
rounds=${2:-9}
peer
some="one:1 count:1000 sum:1000 select:1000 multi:1000 sum:200:0.5 moving:1000 count:10000 count:50000 insert:1000 insert:10000 log:1000 log:10000 update:1000 update:10000"
for mix in ${*:3:99} $([ $# -gt 2 ] || echo "$some"); do
  IFS=: read -r kind calls width <<< "$mix"
  rm -f "$work"/*.csv "$work"/*.txt
  python3 "$top/bench/peers/gen.py" "$work" --rows "$rows" --calls "$calls" --mix "${kind/one/count}" --width "${width:-0.001}"
  if [ "$kind" = one ]; then echo count > "$work/s.txt"; fi
  PYTHONPATH=$top/bench PYTHONDONTWRITEBYTECODE=1 python3 - "$program" "$work" "$rounds" "$mix" <<'PY'
import statistics, subprocess, sys
from timed import timed
program, work, rounds, mix = sys.argv[1], sys.argv[2], int(sys.argv[3]), sys.argv[4]
files = [work + "/t.csv", work + "/s.txt"]
ours = [program, "run", "--table", files[0], "--script", files[1]]
peer = [work + "/peer", "crack", *files]
times, peers, memory, theirs = [], [], 0, 0
for _ in range(rounds):
    a, kilobytes, mine = timed(ours)
    b, kilobytes_too, text = timed(peer)
    assert mine == text, (mix, mine[:80], text[:80])
    times.append(a); peers.append(b)
    memory, theirs = max(memory, kilobytes), max(theirs, kilobytes_too)
told = lambda words: subprocess.run(words, stdout=subprocess.DEVNULL, stderr=subprocess.PIPE, check=True).stderr.decode()
heads = sum(int(line.split()[-1]) for line in told([*ours, "--stats", "--quiet"]).splitlines()[1:]) / 1000
calls = float(told(peer).split()[1])
a, b = statistics.median(times), statistics.median(peers)
print(f"{mix:18} sideways {a:.2f} s, peer {b:.2f} s, ratio {a / b:.2f} (least {min(times) / min(peers):.2f}); "
      f"{memory // 1024} and {theirs // 1024} MB; heads {heads:.3f} s, the peer's calls {calls:.3f} s, {heads / calls:.2f}", flush=True)
PY
done
