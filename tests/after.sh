#!/usr/bin/env bash
# What the gate runs after `rt ci`, over the programs and libraries that it built (tests/README.md): wrong bodies of crates
# that are dear to prove, two of each and all that are feared, and beside them the steps, one after another.
# Some minutes; ends with 1 at the first step that fails, or where a wrong body is not refused.
#
#     tests/after.sh
set -u
top=$(cd "$(dirname "$0")/.." && pwd)
program() { echo "$top/crates/$1/out/$1"; }

step() {
    local begun=$SECONDS
    echo "after: $*" >&2
    "$@" || { echo "after: FAILED: $*" >&2; exit 1; }
    echo "after: that took $((SECONDS - begun)) s" >&2
}

# (its checks end when it is ended)
trying=
room=$(mktemp -d) || exit
trap '[ -z "$trying" ] || kill "$trying" 2>/dev/null; rm -rf "$room"' EXIT
trap 'exit 130' HUP INT TERM
(cd "$top" && step python3 bench/stamps.py "$(dirname "$(rt doc)")") || exit
echo "after: tests/wrong.py, beside the other steps" >&2
TMPDIR=$room nice -n 5 python3 "$top/tests/wrong.py" --most 2 &
trying=$!

step sh "$top/tests/crates.sh"
step python3 "$top/tests/examples.py"
step python3 "$top/tests/rules.py"
step python3 "$top/tests/links.py"
step python3 "$top/tests/lemmas.py"
step python3 "$top/tests/clauses.py"
step python3 "$top/tests/unused.py"
step python3 "$top/tests/drivers.py"
step python3 "$top/tests/by_tests.py" --texts
step bash "$top/bench/build.sh"
step python3 "$top/bench/claims.py" --check
step python3 "$top/bench/pages.py" --check
step sh "$top/tests/statuses.sh"
step python3 "$top/tests/cases.py"
step python3 "$top/tests/words.py"
step python3 "$top/tests/shells.py"
step python3 "$top/tests/headers.py"
step sh "$top/tests/embed.sh"
step python3 "$top/tests/imports.py" "$(program sideways)"
step python3 "$top/tests/ends.py"
step python3 "$top/tests/logs.py"
step sh "$top/tests/packages.sh" "$(program sideways)"
step python3 "$top/tests/collisions.py" "$(program sideways)"
step python3 "$top/tests/long_records.py" "$(program sideways)"
step python3 "$top/tests/most_texts.py" "$(program sideways)"
step python3 "$top/tests/gone.py" "$(program sideways)"
step python3 "$top/tests/loads.py" "$(program sideways)"
step python3 "$top/tests/room.py" "$(program sideways)"
step python3 "$top/tests/together.py" "$(program sideways)"
step python3 "$top/tests/hostile/calls.py" --program "$(program test_calls)"
step python3 "$top/tests/hostile/sessions.py" --program "$(program test_sessions)"
step python3 "$top/tests/hostile/growths.py" --program "$(program sideways)"
echo "after: waiting for tests/wrong.py" >&2
wait "$trying"
status=$?
trying=
[ "$status" = 0 ] || { echo "after: FAILED: tests/wrong.py" >&2; exit 1; }
echo "after: all passed, in $SECONDS s" >&2
