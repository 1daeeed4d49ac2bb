#!/usr/bin/env bash
# Times whole runs over a table with an attribute of TEXTS different texts and one of whole numbers, beside the same table with the texts' codes as
# whole numbers in their place, by turns; medians of ROUNDS. The first script is one count, so that it times the load; the second has 20,000 counts of
# one text each, of which the time of the first is taken off. Texts are of 4 to 8 bytes, and then of 16. The load is also timed of codes with so many
# zeros before them that they have a text's bytes: what is left above that is what texts cost but for their length. Each text comes RUN times in
# a row (1).
# Usage: bench/run/texts.sh [ROWS [ROUNDS [TEXTS [RUN]]]]
set -euo pipefail
. "$(dirname "$0")/../program.sh"
rows=${1:-1000000}
rounds=${2:-9}
texts=${3:-10000}
run=${4:-1}
for bytes in 4-8 16; do
  PYTHONPATH=$top/bench PYTHONDONTWRITEBYTECODE=1 python3 - "$program" "$work" "$rows" "$rounds" "$texts" "$bytes" "$run" <<'PY'
import random, statistics, sys
from timed import timed
program, work, rows, rounds, many, lengths, run = sys.argv[1], sys.argv[2], int(sys.argv[3]), int(sys.argv[4]), int(sys.argv[5]), sys.argv[6], int(sys.argv[7])
R = random.Random(7)
least, most = (int(n) for n in (lengths.split("-") * 2)[:2])
names = set()
while len(names) < many:
    names.add("".join(R.choice("abcdefghijklmnopqrstuvwxyz") for _ in range(R.randint(least, most))))
names = sorted(names)
codes = {}
with open(work + "/text.csv", "w") as texts, open(work + "/code.csv", "w") as numbers, open(work + "/wide.csv", "w") as wide:
    texts.write("city:text,n:int\n"); numbers.write("city:int,n:int\n"); wide.write("city:int,n:int\n")
    for row in range(rows):
        name, n = name if row % run else R.choice(names), R.randrange(1 << 30)
        code = str(codes.setdefault(name, len(codes) + 1))
        texts.write(f"{name},{n}\n"); numbers.write(f"{code},{n}\n"); wide.write(f"{code.zfill(len(name))},{n}\n")
asked = [R.choice(list(codes)) for _ in range(20000)]
for script, text, code in [("one", "count\n", "count\n"),
                           ("equal", "".join(f"count where city = '{a}'\n" for a in asked), "".join(f"count where city = {codes[a]}\n" for a in asked))]:
    open(f"{work}/{script}.text", "w").write(text); open(f"{work}/{script}.code", "w").write(code)
runs = [("one", "text", "text"), ("one", "code", "code"), ("one", "wide", "code"), ("equal", "text", "text"), ("equal", "code", "code")]
times = {(script, table): [] for script, table, _ in runs}
for _ in range(rounds):
    told = {}
    for script, table, asked in runs:
        seconds, _, replies = timed([program, "run", "--table", f"{work}/{table}.csv", "--script", f"{work}/{script}.{asked}"])
        times[script, table].append(seconds)
        assert told.setdefault(script, replies) == replies, (script, table)
of = {key: statistics.median(values) for key, values in times.items()}
load, plain = of["one", "text"], of["one", "code"]
by_rounds = statistics.median(a / b for a, b in zip(times["one", "text"], times["one", "code"]))
counts, numbers = of["equal", "text"] - load, of["equal", "code"] - plain
print(f"texts of {lengths} bytes: load {load:.3f} s, codes {plain:.3f} s, ratio {load / plain:.2f} (median of the rounds' own {by_rounds:.2f}; least "
      f"{min(times['one', 'text']) / min(times['one', 'code']):.2f}), to codes of as many bytes {load / of['one', 'wide']:.2f}; 20,000 counts {counts:.3f} s, over numbers {numbers:.3f} s, ratio {counts / numbers:.2f}", flush=True)
PY
done
