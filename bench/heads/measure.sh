#!/usr/bin/env bash
# A head without cuts beside the area alone, and a head by 15 cuts beside one without, over the same rows and queries.
#
#     bench/heads/measure.sh [ROWS [ROUNDS [CALLS]]]
#
# Copies the crates up to sw_chunks with a program of its own into a folder under TMPDIR, and proves and builds them there. The program
# makes ROWS random rows of four ints (by default 1,000,000) and CALLS random queries (by default 1,000) at width one thousandth. It
# runs both sides by turns ROUNDS times (by default 5), compares the texts of their replies, and prints the medians of the seconds in
# which the queries were answered, texts not included, and their ratio:
#   a head without cuts, and the area alone: counts, sums, selects of two tails, and sums with a second condition;
#   a head with cuts and one without, all queries within one area: the first query;
#   the same under a budget of a quarter of what whole maps of three tails need: sums of random tails, 9 of 10 within the first tenth
#   of the domain. Here it also prints how many queries scanned, and how many of these lay in that tenth.
# Maps are aligned in threads, which on a busy machine wait for a processor: RUN='chrt -f 10' (as root) runs both sides at
# real-time priority, so that a started thread gets one as it would on a quiet machine.
# It needs rt and python3. Nothing of the repository is written.
set -euo pipefail
here=$(cd "$(dirname "$0")" && pwd)
. "$here/../proved.sh"
sizes "$@"
proofs heads "$here"
build program heads "$here/heads.rt.txt" \
  sw_table sw_query sw_rows sw_lang sw_kernel sw_load sw_tape sw_budget sw_map sw_bits sw_slots sw_set sw_spine sw_tie sw_chunks anyhow

python3 - "$work/crates/heads/out/heads" "$rows" "$rounds" "$calls" "${RUN:-}" <<'END'
import statistics, subprocess, sys
program, rows, rounds, calls, run = sys.argv[1], int(sys.argv[2]), int(sys.argv[3]), sys.argv[4], sys.argv[5].split()
AMPLE = 1 << 40

def ran(side, mix, cells):
    done = subprocess.run([*run, program, side, mix, str(rows), calls, str(cells)], capture_output=True)
    assert done.returncode == 0 and done.stderr, (side, mix, done.returncode, done.stderr)
    words = done.stderr.decode().split()
    return done.stdout, {words[i]: int(words[i + 1]) for i in range(0, len(words), 2)}

def turns(one, other, mix, cells):
    """What both sides told, round by round."""
    told = {one: [], other: []}
    for turn in range(rounds):
        texts = set()
        for side in (one, other) if turn % 2 == 0 else (other, one):
            text, said = ran(side, mix, cells)
            texts.add(text); told[side].append(said)
        assert len(texts) == 1 and texts != {b""}, (mix, "the replies differ")
    return told

def line(what, told, one, other, field):
    a, b = [t[field] / 1e9 for t in told[one]], [t[field] / 1e9 for t in told[other]]
    x, y = statistics.median(a), statistics.median(b)
    print(f"{what}: {one} {x:.4f} s, {other} {y:.4f} s, ratio {x / y:.3f}, of the least {min(a) / min(b):.3f}", flush=True)

for mix in ("count", "sum", "select", "multi"):
    told = turns("head", "area", mix, AMPLE)
    assert all(t["scans"] == 0 for side in told.values() for t in side), told
    line(f"{mix:>6}", told, "head", "area", "all")

told = turns("cuts", "head", "within", AMPLE)
line("the first query", told, "cuts", "head", "first")
line("all queries within one area", told, "cuts", "head", "all")
line("the head's making", told, "cuts", "head", "made")

quarter = 3 * (-(-rows // 64) * 64) // 4
told = turns("cuts", "head", "tenth", quarter)
line(f"a budget of {quarter} cells", told, "cuts", "head", "all")
for side in ("cuts", "head"):
    said = told[side][0]
    print(f"  {side}: {said['scans']} of {calls} queries scanned, {said['tenth']} of them in the tenth")
END
