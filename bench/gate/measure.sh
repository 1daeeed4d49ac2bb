#!/usr/bin/env bash
# What the gate takes: the processor seconds of each crate's proof, of its tests and of its wrong bodies.
#
#     bench/gate/measure.sh [CRATE..]
#
# Clones the repository as it is committed into a folder of its own under TMPDIR, runs rt ci there, and looks at its processes
# from outside twice a second (watch.py); then tests/wrong.py, which counts for itself. With names of crates the clone keeps
# only those and what they stand on. RT_JOBS and the like are passed on to rt.
# It prints the table as Markdown and the sums of tests/wrong.py on standard output, and ends with the status of the two. The
# folder stays, and has rt's own lines (ci.log, written while it runs), the table (table.md) and each process of rt (jobs.tsv).
# It needs git, rt, python3 and /proc. Nothing of the repository is written.
set -euo pipefail
here=$(cd "$(dirname "$0")" && pwd)
top=$(cd "$here/../.." && pwd)
work=$(mktemp -d)
git clone -q "$top" "$work/clone"
if [ $# -gt 0 ]; then
  python3 "$here/cut.py" "$work/clone" "$@"
fi
echo "the gate of $(git -C "$work/clone" rev-parse --short HEAD) runs in $work; its lines: $work/ci.log" >&2
cd "$work/clone"
status=0
processors=$(nproc)
export RT_JOBS=${RT_JOBS:-$((processors < 4 ? processors : 4))}
python3 "$here/watch.py" "$work" rt ci || status=$?
cat "$work/table.md"
tail -n 1 "$work/ci.log" >&2
[ "$status" = 0 ] && [ -n "$(ls tests/wrong)" ] || exit "$status"
python3 bench/stamps.py "$(dirname "$(rt doc)")"
python3 tests/wrong.py --anew --jobs "$RT_JOBS" >"$work/wrong.log" || status=$?
grep ' of a processor$' "$work/wrong.log"
exit "$status"
