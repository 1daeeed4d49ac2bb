#!/usr/bin/env bash
# Runs a script of counts with a history file and without, and checks that file, by turns. Prints the median seconds, the
# greatest memory beside the size of the file, and how many times as long the check takes as the run that writes.
# Usage: bench/history/measure.sh [ENTRIES [ROUNDS]]
set -euo pipefail
. "$(dirname "$0")/../program.sh"
entries=${1:-1000000}
rounds=${2:-5}
python3 - "$program" "$top/examples/t.csv" "$work" "$entries" "$rounds" <<'PY'
import os, statistics, subprocess, sys, time
program, table, work = sys.argv[1:4]
entries, rounds = int(sys.argv[4]), int(sys.argv[5])
script, history = work + "/counts.txt", work + "/h.json"
with open(script, "w") as out:
    out.write("count\n" * entries)
def timed(words, wanted):
    start = time.perf_counter()
    child = subprocess.Popen(words, stdout=subprocess.PIPE, stderr=subprocess.DEVNULL)
    text = child.stdout.read()
    _, status, usage = os.wait4(child.pid, 0)
    assert status == 0, status
    assert text == wanted, "another output"
    return time.perf_counter() - start, usage.ru_maxrss * 1024
lines, verdict = b"4\n" * entries, b"legal: %d entries\n" % entries
run = [program, "run", "--table", table, "--script", script]
plain, writes, checks = [], [], []
for _ in range(rounds):
    plain.append(timed(run, lines))
    writes.append(timed(run + ["--history", history], lines))
    checks.append(timed([program, "check", history], verdict))
size = os.path.getsize(history)
print("%d entries, a file of %.1f MB, medians of %d" % (entries, size / 1e6, rounds))
for name, found in (("run", plain), ("run --history", writes), ("check", checks)):
    most = max(bytes for _, bytes in found)
    print("%s: %.2f s, %d MB, %.1f times the file" % (name, statistics.median(s for s, _ in found), most // 1000000, most / size))
print("check to run --history: %.2f" % (statistics.median(s for s, _ in checks) / statistics.median(s for s, _ in writes)))
PY
