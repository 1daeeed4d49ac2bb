#!/usr/bin/env bash
# Viewers of an engine: an answer over no rows, a count of all rows, and what open viewers cost who writes.
#
#     bench/viewers/measure.sh [ROWS [ROUNDS [CALLS]]]
#
# Copies the crates up to sw_engine with a program of its own into a folder under TMPDIR, and proves and builds them there. The program
# makes random rows of three ints. It runs the sides by turns ROUNDS times (by default 5), compares what they write, and prints medians
# and ratios:
#   an answer of a viewer over no rows, and a load of an atomic word in C;
#   a viewer's count by one range over ROWS rows (by default 1,000,000), and the same scan in C, without and with a flag a row: ranges of
#   one thousandth and of one half of the rows;
#   ten times CALLS inserts of a session (by default ten thousand) over 10,000 rows and over ROWS: with no viewer, with one, with four open;
#   ten times CALLS inserts and deletes by turns over 10 rows, a hundred times as many and so on up to ROWS, beside one viewer, three and four
#   that answer a count all the time in threads of their own: with no viewer, with as many idle ones, with idle ones beside as many processes
#   in C that scan lists of their own all the time, and with those that answer. Sums of twice ROUNDS runs.
# On a busy machine RUN='chrt -f 10' (as root) runs all but the last at real-time priority. Beside four viewers there are five threads, which four
# processors have to share, and which at that priority they do not: there BESIDE='nice -n -20' serves.
# It needs rt, cc and python3. Nothing of the repository is written.
set -euo pipefail
here=$(cd "$(dirname "$0")" && pwd)
. "$here/../proved.sh"
sizes "$@"
proofs viewers "$here"
build program viewers "$here/viewers.rt.txt" \
  sw_table sw_query sw_rows sw_lang sw_kernel sw_load sw_tape sw_budget sw_map sw_bits sw_slots sw_set sw_spine sw_tie sw_chunks sw_versions sw_engine anyhow
cc -O3 -o "$work/peer" "$here/peer.c"

python3 - "$work" "$rows" "$rounds" "$calls" "${RUN:-}" "${BESIDE:-}" <<'END'
import statistics, subprocess, sys, time
work, rows, rounds, calls = sys.argv[1], int(sys.argv[2]), int(sys.argv[3]), int(sys.argv[4])
run, beside, median = sys.argv[5].split(), sys.argv[6].split(), statistics.median

def told(words, before=run):
    """What a side wrote, its nanoseconds, and how many answers viewers gave."""
    done = subprocess.run([*before, *map(str, words)], capture_output=True)
    assert done.returncode == 0 and done.stderr, (words, done.returncode, done.stderr)
    numbers = [int(word) for word in done.stderr.split()]
    return int(done.stdout), numbers[0], numbers[-1]

def viewers(*words, before=run):
    return told((f"{work}/crates/viewers/out/viewers", *words), before)

def peer(*words):
    return told((f"{work}/peer", *words))

def by_turns(many, *sides):
    """Runs all sides so many times, every other time in the opposite order."""
    all_told = [[] for _ in sides]
    for turn in range(many):
        for i in range(len(sides)) if turn % 2 == 0 else reversed(range(len(sides))):
            all_told[i].append(sides[i]())
    return all_told

def each(side, calls):
    """The median and the least of the nanoseconds a call."""
    nanos = [it[1] / calls for it in side]
    return median(nanos), min(nanos)

def against(a, b):
    return f"ratio {a[0] / b[0]:.2f}, of the least {a[1] / b[1]:.2f}"

ANSWERS, LOADS = 2_000_000, 200_000_000
answer, load = by_turns(rounds, lambda: viewers("answer", "insert", 0, ANSWERS, 1, 500), lambda: peer("load", LOADS))
assert {it[0] for it in answer + load} == {0}
a, b = each(answer, ANSWERS), each(load, LOADS)
print(f"an answer over no rows {a[0]:.1f} ns, a load of an atomic {b[0]:.3f} ns: {against(a, b)}", flush=True)

COUNTS = 20
for width in (1, 500):
    count, scan, live = by_turns(rounds, lambda: viewers("answer", "insert", rows, COUNTS, 1, width),
                                 lambda: peer("scan", rows, COUNTS, width), lambda: peer("live", rows, COUNTS, width))
    assert len({it[0] for it in count + scan + live}) == 1 and count[0][0] > 0
    a, b, c = each(count, COUNTS), each(scan, COUNTS), each(live, COUNTS)
    print(f"a count of {count[0][0] // COUNTS} of {rows} rows {a[0] / 1e6:.3f} ms, the scan in C {b[0] / 1e6:.3f} ms: {against(a, b)}; "
          f"with a flag a row {c[0] / 1e6:.3f} ms: {against(a, c)}", flush=True)

inserts = 10 * calls
for many in (10_000, rows):
    few = min(inserts, 1_048_576 - many)
    none, one, four = by_turns(rounds, *(lambda open=open: viewers("idle", "insert", many, few, open, 500) for open in (0, 1, 4)))
    assert {it[0] for it in none + one + four} == {many + few}
    a, b, c = each(none, few), each(one, few), each(four, few)
    print(f"{few} inserts over {many} rows: no viewer {a[0]:.0f} ns each, one open {b[0]:.0f}: {against(b, a)}; four open {c[0]:.0f}: {against(c, a)}", flush=True)

def beside_others(open, many, few, before):
    """The session's calls with so many idle viewers, while as many processes in C scan lists of as many rows."""
    words = [*before, f"{work}/peer", "live", str(many), str(10 ** 15), "500"]
    others = [subprocess.Popen(words, stdout=subprocess.DEVNULL, stderr=subprocess.DEVNULL) for _ in range(open)]
    time.sleep(0.1)
    try:
        return viewers("idle", "update", many, few, open, 500, before=before)
    finally:
        for other in others:
            other.kill()
            other.wait()

sizes = [many for many in (10, 1000, 100_000) if many < rows] + [rows]
for open, before in ((1, run), (3, run), (4, beside)):
    for many in sizes:
        few = min(inserts, 1_048_576 - many)
        none, still, others, busy = by_turns(
            2 * rounds, lambda: viewers("idle", "update", many, few, 0, 500, before=before), lambda: viewers("idle", "update", many, few, open, 500, before=before),
            lambda: beside_others(open, many, few, before), lambda: viewers("busy", "update", many, few, open, 500, before=before))
        assert {it[0] for it in none + still + others + busy} == {many + few % 2}
        a, b, c, d = (sum(it[1] for it in side) / len(side) / few for side in (none, still, others, busy))
        print(f"{few} updates over {many} rows, {open} viewers: none open {a:.0f} ns each, all idle {b:.0f}, idle beside scans in C {c:.0f}, all answering {d:.0f}: "
              f"{a / d:.2f} of the rate with none, {b / d:.2f} of that with idle ones, {c / d:.2f} of that beside scans in C; "
              f"{sum(it[2] for it in busy) / sum(it[1] for it in busy) * 1000:.3f} answers a microsecond", flush=True)
END
