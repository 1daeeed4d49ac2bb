#!/usr/bin/env bash
# The proved partition beside C: two cursors, blocks of 64, and blocks with a rest that is listed too.
#
#     bench/kernel/measure.sh [REPEATS]
#
# Copies sw_table, sw_query and sw_kernel with a static library of its own into a folder under TMPDIR, proves and builds them there,
# builds the C with the kit's clang at the flags that the kit compiles with, runs all by turns on the same pairs REPEATS
# times (by default 9), compares every byte, and prints the least nanoseconds a pair, with the ratios that matter, and of two pairs of lists with the
# same heads that of parting both together to one after the other.
# Nothing of the repository is written.
set -euo pipefail
repeats=${1:-9}
here=$(cd "$(dirname "$0")" && pwd)
kit=${KIT:-$(dirname "$(rt doc)")}
. "$here/../proved.sh"
build library split_c "$here/split.rt.txt" sw_table sw_query sw_kernel

"$kit/toolchain/bin/clang" -O3 -march=x86-64-v2 -c -o "$work/peers.o" "$here/peers.c" 2> "$work/clang.log" ||
  clang -O3 -march=x86-64-v2 -c -o "$work/peers.o" "$here/peers.c"
cc -O2 -o "$work/main" "$here/main.c" "$work/peers.o" "$work/crates/split_c/out/libsplit_c.a" -lm -lpthread

for pairs in 1048576 16777216; do
  "$work/main" "$pairs" "$repeats" 50 "$pairs" >> "$work/times"
done
for piece in 30 100 300 1000; do
  "$work/main" 1000000 "$repeats" 50 "$piece" >> "$work/times"
done

for share in 0.1 1 5 95 99 99.9; do
  "$work/main" 1048576 "$repeats" "$share" 1048576 >> "$work/times"
done

python3 - "$work/times" <<'END'
import sys
least = {}
for line in open(sys.argv[1]):
    pairs, piece, share, name, low, _ = line.split()
    least.setdefault((int(pairs), int(piece), float(share)), {})[name] = float(low)
print(f"{'pairs':>10} {'piece':>10} {'% left':>6} {'two cursors':>12} {'blocks':>8} {'listed':>8} {'proved':>8}   proved/blocks proved/listed proved/two cursors twins together")
for (pairs, piece, share), t in least.items():
    p = t["proved"]
    print(f"{pairs:>10} {piece:>10} {share:>6g} {t['two_cursors']:>12.2f} {t['blocks']:>8.2f} {t['blocks_listed']:>8.2f} {p:>8.2f}   "
          f"{p / t['blocks']:>13.2f} {p / t['blocks_listed']:>13.2f} {p / t['two_cursors']:>18.2f} {t['together'] / t['one_after_another']:>14.2f}")
END
