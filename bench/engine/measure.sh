#!/usr/bin/env bash
# Sessions of an engine beside a head alone, beside one another, and beside C++ peers that crack the same maps.
#
#     bench/engine/measure.sh [ROWS [ROUNDS [CALLS]]]
#
# Copies the crates up to sw_engine with a program of its own into a folder under TMPDIR, and proves and builds them there. The program
# makes ROWS random rows of four ints (by default 1,000,000) and random calls at width one thousandth, and makes these by sessions, each
# on a thread of its own. It runs the sides by turns ROUNDS times (by default 5), compares the texts of their replies, and prints medians
# and ratios:
#   one session, and a head alone, CALLS calls (by default 1,000): counts, sums, selects of two tails, and sums with a second condition.
#   Both make the head within the time; beside it stands the ratio without their first calls, in which that is done;
#   counts a second of four sessions, each on a head of its own, to those of one, ten times CALLS each; and the same of
#   bench/peers/peer.cpp in crack mode, as processes side by side;
#   counts a second of two sessions on one head, ten times CALLS each, to those of one that makes all of them;
#   inserts and deletes a second of four sessions to those of one, over half the rows, a thousand times CALLS in all;
#   the greatest memory of one session with CALLS counts on one head, beside rows of 72 bytes, and beside the opening rows, packed.
# Four threads need four processors: on a busy machine RUN='chrt -f 10' (as root) runs all sides at real-time priority.
# It needs rt, g++, python3 and /usr/bin/time. Nothing of the repository is written.
set -euo pipefail
here=$(cd "$(dirname "$0")" && pwd)
. "$here/../proved.sh"
sizes "$@"
proofs engine "$here"
build program engine "$here/engine.rt.txt" \
  sw_table sw_query sw_rows sw_lang sw_kernel sw_load sw_tape sw_budget sw_map sw_bits sw_slots sw_set sw_spine sw_tie sw_chunks sw_versions sw_engine anyhow
g++ -O3 -march=native -o "$work/peer" "$top/bench/peers/peer.cpp"

python3 - "$work" "$rows" "$rounds" "$calls" "${RUN:-}" <<'END'
import statistics, subprocess, sys
work, rows, rounds, calls, run = sys.argv[1], int(sys.argv[2]), int(sys.argv[3]), int(sys.argv[4]), sys.argv[5].split()
program, median = f"{work}/crates/engine/out/engine", statistics.median

class Told:
    """What a run told: the text, and in seconds the whole, each session's first call and each session's calls."""
    def __init__(self, side, mix, rows, calls, sessions, heads):
        done = subprocess.run([*run, program, side, mix, *map(str, (rows, calls, sessions, heads))], capture_output=True)
        assert done.returncode == 0 and done.stderr, (side, mix, done.returncode, done.stderr)
        times = [int(word) / 1e9 for word in done.stderr.split()]
        self.text, self.whole, self.firsts, self.alls = done.stdout, times[0], times[1::2], times[2::2]
        self.rest = max(a - f for a, f in zip(self.alls, self.firsts))

def by_turns(*sides):
    """Runs all sides ROUNDS times, every other time in the opposite order."""
    told = [[] for _ in sides]
    for turn in range(rounds):
        for i in range(len(sides)) if turn % 2 == 0 else reversed(range(len(sides))):
            told[i].append(sides[i]())
    return told

def rate(many, told, one_many, one, what="whole"):
    """How many times the calls a second of the one, by medians and by the least."""
    a, b = [getattr(t, what) for t in told], [getattr(t, what) for t in one]
    return f"{many / median(a) / (one_many / median(b)):.2f} (of the least {many / min(a) / (one_many / min(b)):.2f})"

for mix in ("count", "sum", "select", "multi"):
    engine, head = by_turns(lambda: Told("engine", mix, rows, calls, 1, 1), lambda: Told("head", mix, rows, calls, 1, 1))
    assert len({t.text for t in engine + head}) == 1 and head[0].text, mix
    a, b = [t.whole for t in engine], [t.whole for t in head]
    c, d = [t.rest for t in engine], [t.rest for t in head]
    print(f"{mix:>6}: a session {median(a):.3f} s, a head alone {median(b):.3f} s, ratio {median(a) / median(b):.3f}, of the least "
          f"{min(a) / min(b):.3f}; without the first call {median(c):.3f} s, {median(d):.3f} s, ratio {median(c) / median(d):.3f}", flush=True)

def tables():
    """The table and four scripts of counts, as the program makes them."""
    mask, x, width, domain = (1 << 64) - 1, 88_172_645_463_325_252, 1_073_741, 1 << 30
    with open(f"{work}/t.csv", "w") as out:
        out.write("a:int,b:int,c:int,d:int\n")
        for _ in range(rows):
            cells = []
            for _ in range(4):
                x ^= x << 13 & mask; x ^= x >> 7; x ^= x << 17 & mask
                cells.append(str(x >> 34))
            out.write(",".join(cells) + "\n")
    for name in "abcd":
        with open(f"{work}/{name}.txt", "w") as out:
            for _ in range(10 * calls):
                x ^= x << 13 & mask; x ^= x >> 7; x ^= x << 17 & mask
                low = (x >> 34) % (domain - width)
                out.write(f"count where {name} >= {low} and {name} < {low + width}\n")

class Peers:
    """What so many peers told that ran side by side."""
    def __init__(self, many):
        started = [subprocess.Popen([*run, f"{work}/peer", "crack", f"{work}/t.csv", f"{work}/{name}.txt"], stdout=subprocess.PIPE,
                                    stderr=subprocess.PIPE) for name in "abcd"[:many]]
        ended = [one.communicate() for one in started]
        assert all(one.returncode == 0 for one in started)
        self.text = b"".join(text for text, _ in ended)
        self.whole = max(float(said.split()[1]) for _, said in ended)

tables()
four, one, peers, peer = by_turns(lambda: Told("engine", "count", rows, 10 * calls, 4, 4), lambda: Told("engine", "count", rows, 10 * calls, 1, 1),
                                  lambda: Peers(4), lambda: Peers(1))
assert len({t.text for t in four + peers}) == 1 and len({t.text for t in one + peer}) == 1 and one[0].text
print(f"four sessions, each on a head of its own, {median(t.whole for t in four):.3f} s, one {median(t.whole for t in one):.3f} s: "
      f"{rate(4, four, 1, one)} times the counts a second; without first calls {rate(4, four, 1, one, 'rest')}")
print(f"four peers side by side {median(t.whole for t in peers):.3f} s, one {median(t.whole for t in peer):.3f} s: {rate(4, peers, 1, peer)} times; "
      f"four sessions to four peers {rate(4, four, 4, peers)}", flush=True)

two, one = by_turns(lambda: Told("engine", "count", rows, 10 * calls, 2, 1), lambda: Told("engine", "count", rows, 20 * calls, 1, 1))
assert len({t.text for t in two + one}) == 1 and one[0].text
print(f"two sessions on one head {median(t.whole for t in two):.3f} s, one {median(t.whole for t in one):.3f} s: {rate(1, two, 1, one)} times the counts a second", flush=True)

four, one = by_turns(lambda: Told("engine", "update", rows // 2, 250 * calls, 4, 1), lambda: Told("engine", "update", rows // 2, 1000 * calls, 1, 1))
assert len({b"".join(sorted(t.text.splitlines(True))) for t in four[:1] + one[:1]}) == 1 and one[0].text
print(f"inserts and deletes of four sessions {median(t.whole for t in four):.3f} s, of one {median(t.whole for t in one):.3f} s: {rate(1, four, 1, one)} times the calls a second", flush=True)

def memory():
    done = subprocess.run(["/usr/bin/time", "-f", "%M", program, "engine", "count", str(rows), str(calls), "1", "1"], capture_output=True)
    return int(done.stderr.split()[-1]) * 1024

most, table, packed = median([memory() for _ in range(3)]), 72 * rows, 32 * rows
print(f"greatest memory {most / 1e6:.1f} MB, rows of 72 bytes {table / 1e6:.1f} MB: {most / table:.2f} times; the opening rows, packed, "
      f"{packed / 1e6:.1f} MB: {most / packed:.2f} times")
END
