#!/usr/bin/env bash
# Times what the rules leave as the least work (floors.cpp) beside the program and the C++ peer, by turns over the same files; the replies of all are
# compared. For each mix of calls it prints the medians of the heads' seconds, of the peer's calls and of the floor: by blocks without branches, by
# AVX-512, by the peer's two cursors; by blocks where a key map grows in a merge, where maps ask for blocks of 1,024 cells, where a tape has no end,
# where the threads of maps sleep in place of spinning, where besides two maps are cracked together if a thread is not worth its start, and where two
# threads make the calls by turns. Then the load of an attribute of texts beside that of numbers, and the floor of one thread and of four for both; the
# memory of a million entries; and, on four processors, visits of one lock by one thread and by four. What follows the mixes is left out where mixes are
# named.
# Usage: bench/floors/measure.sh [ROWS [ROUNDS [MIX:CALLS..]]]
set -euo pipefail
. "$(dirname "$0")/../program.sh"
rows=${1:-1000000}
rounds=${2:-5}
peer
g++ -std=c++20 -O3 -march=native -pthread -o "$work/floors" "$top/bench/floors/floors.cpp"
some="update:1000 update:10000 count:10000 log:10000 select:1000"
for mix in ${*:3:99} $([ $# -gt 2 ] || echo "$some"); do
  IFS=: read -r kind calls <<< "$mix"
  python3 "$top/bench/peers/gen.py" "$work" --rows "$rows" --calls "$calls" --mix "$kind"
  PYTHONPATH=$top/bench PYTHONDONTWRITEBYTECODE=1 python3 - "$program" "$work" "$rounds" "$mix" <<'PY'
import statistics, subprocess, sys
from timed import timed
program, work, rounds, mix = sys.argv[1], sys.argv[2], int(sys.argv[3]), sys.argv[4]
files = [work + "/t.csv", work + "/s.txt"]
ours, peer = [program, "run", "--table", files[0], "--script", files[1]], [work + "/peer", "crack", *files]
ways = {"blocks": [], "wide": ["wide"], "cursors": ["cursors"], "grows": ["blocks", "grows"], "1,024": ["blocks", "1024"], "endless": ["blocks", "rules", "1000000000"],
        "sleeps": ["blocks", "rules", "4096", "1", "1", "100000"], "sleeps, together": ["blocks", "together", "4096", "1", "1", "100000"], "turns of 1": ["blocks", "rules", "4096", "2", "1"],
        "turns of 8": ["blocks", "rules", "4096", "2", "8"]}
if not mix.startswith("update"):
    del ways["grows"], ways["1,024"], ways["sleeps"], ways["sleeps, together"]
if not mix.startswith("count"):
    del ways["turns of 1"], ways["turns of 8"]
def both(words):
    run = subprocess.run(words, stdout=subprocess.PIPE, stderr=subprocess.PIPE, check=True)
    return run.stdout, run.stderr.decode()
found, last = {}, {}
for _ in range(rounds):
    a, _, mine = timed(ours)
    b, _, text = timed(peer)
    assert mine == text, mix
    found.setdefault("run", []).append(a); found.setdefault("peer", []).append(b)
    heads = both([*ours, "--stats", "--quiet"])[1].splitlines()
    found.setdefault("heads", []).append(sum(int(line.split()[-1]) for line in heads[1:]) / 1000)
    found.setdefault("its calls", []).append(float(both(peer)[1].split()[1]))
    for name, words in ways.items():
        text, told = both([work + "/floors", "maps", *files, *words])
        assert text == mine, (mix, name)
        found.setdefault(name, []).append(float(told.split()[1]))
        last[name] = told.strip()
of = {name: statistics.median(times) for name, times in found.items()}
least = {name: min(times) for name, times in found.items()}
calls = of["its calls"]
print(f"{mix}: sideways {of['run']:.3f} s, heads {of['heads']:.3f} s; the peer {of['peer']:.3f} s, its calls {calls:.3f} s; heads to its calls {of['heads'] / calls:.2f} (of the least {least['heads'] / least['its calls']:.2f})")
print("  head a of the program:", " ".join(f"{name} {value}" for name, value in zip(heads[0].split()[1:], heads[1].split()[1:])))
for name in ways:
    print(f"  floor, {name}: {of[name]:.3f} s, to the peer's calls {of[name] / calls:.2f}, heads to it {of['heads'] / of[name]:.2f} (of the least {least[name]:.3f} s, {least[name] / least['its calls']:.2f}, {least['heads'] / least[name]:.2f}); {last[name].split('; ', 1)[1]}", flush=True)
PY
done
[ $# -lt 3 ] || exit 0
for bytes in 4-8 16; do
  PYTHONPATH=$top/bench PYTHONDONTWRITEBYTECODE=1 python3 - "$program" "$work" "$rows" "$rounds" "$bytes" <<'PY'
import random, statistics, subprocess, sys
from timed import timed
program, work, rows, rounds, lengths = sys.argv[1], sys.argv[2], int(sys.argv[3]), int(sys.argv[4]), sys.argv[5]
R = random.Random(7)
least, most = (int(n) for n in (lengths.split("-") * 2)[:2])
names = set()
while len(names) < 10000:
    names.add("".join(R.choice("abcdefghijklmnopqrstuvwxyz") for _ in range(R.randint(least, most))))
names, codes = sorted(names), {}
with open(work + "/text.csv", "w") as texts, open(work + "/code.csv", "w") as numbers:
    texts.write("city:text,n:int\n"); numbers.write("city:int,n:int\n")
    for _ in range(rows):
        name, n = R.choice(names), R.randrange(1 << 30)
        texts.write(f"{name},{n}\n"); numbers.write(f"{codes.setdefault(name, len(codes) + 1)},{n}\n")
open(work + "/one.txt", "w").write("count\n")
found = {}
for _ in range(rounds):
    for side in ("text", "code"):
        found.setdefault(side, []).append(timed([program, "run", "--table", f"{work}/{side}.csv", "--script", work + "/one.txt"])[0])
    for kind in ("sip", "weak", "cut", "ints"):
        words = [work + "/floors", "texts", f"{work}/{'code' if kind == 'ints' else 'text'}.csv", kind]
        found.setdefault(kind, []).append(float(subprocess.run(words, stdout=subprocess.PIPE, check=True).stdout.split()[0]) / 1000)
    for kind in ("near", "sip", "ints"):
        words = [work + "/floors", "loads", f"{work}/{'code' if kind == 'ints' else 'text'}.csv", kind, "4"]
        found.setdefault("load " + kind, []).append(float(subprocess.run(words, stdout=subprocess.PIPE, check=True).stdout.split()[0]) / 1000)
of = {name: statistics.median(times) for name, times in found.items()}
more = {name: statistics.median(a - b for a, b in zip(found[name], found[numbers])) for name, numbers in [("load near", "load ints"), ("load sip", "load ints"), ("text", "code")]}
print(f"texts of {lengths} bytes: load {of['text']:.3f} s, codes {of['code']:.3f} s, ratio {of['text'] / of['code']:.2f}; one thread reads the records in {of['sip']:.3f} s under SipHash-1-3, "
      f"{of['weak']:.3f} s under a hash without a key, {of['cut']:.3f} s without codes, numbers in {of['ints']:.3f} s; four threads load texts in {of['load near']:.3f} s by their ends, in "
      f"{of['load sip']:.3f} s under the key, numbers in {of['load ints']:.3f} s; texts take {more['load near']:.3f}, {more['load sip']:.3f} and in the program {more['text']:.3f} s more than numbers, "
      f"so the floor of the ratio is {1 + min(more['load near'], more['load sip']) / of['code']:.2f}", flush=True)
PY
done
for bytes in "120 176 1000000" "120 176 8192" "24 48 8192"; do
  read -r call entry given <<< "$bytes"
  "$work/floors" entries 1000000 "$call" "$entry" "$given"
done
[ "$(nproc)" -ge 4 ] || exit 0
for given in "0 1" "3 1" "5 1" "2 16" "2 16 new"; do
  read -ra words <<< "$given"
  "$work/floors" lock 1 100000 176 300 "${words[@]}"
  "$work/floors" lock 4 100000 176 300 "${words[@]}"
done
