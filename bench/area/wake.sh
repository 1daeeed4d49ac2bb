#!/usr/bin/env bash
# What a started thread costs: work that is done twice in turn, beside work that is done once here and once in a started thread.
#
#     bench/area/wake.sh [TURNS]
#
# Prints, for several lengths of work, the medians and means of both in microseconds, and how long after its start the thread began,
# over TURNS (by default 100). Both at ordinary and, as root, at real-time priority (chrt). On an idle machine it tells what it costs to
# wake a processor, on a busy one how long a thread waits for one.
set -euo pipefail
here=$(cd "$(dirname "$0")" && pwd)
made=$(mktemp -d "${TMPDIR:-/tmp}/wake.XXXXXX")
trap 'rm -rf "$made"' EXIT
cc -O2 -o "$made/wake" "$here/wake.c" -lpthread
uptime
for run in "" "chrt -f 10"; do
  echo "priority: ${run:-ordinary}"
  for work in 0 100 500 1000 2000 4000; do
    $run "$made/wake" "${1:-100}" "$work"
  done
done
