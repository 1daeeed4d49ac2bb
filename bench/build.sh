#!/usr/bin/env bash
# Tells whether the drivers below this folder that have a program of their own still stand on the crates as they are: reads the types and
# clauses of each, over the libraries that `rt ci` left in this tree, which it links, and proves nothing. Up to four at a time, of some 15 to 60
# processor seconds and up to 1.1 GB each; a step of tests/after.sh.
#
#     bench/build.sh
#
# Status 1 where one does not stand. Nothing of the repository is written.
set -euo pipefail
here=$(cd "$(dirname "$0")" && pwd)
processors=$(nproc)
printf '%s\n' {engine,holds,viewers,heads}/measure.sh area/{updates,measure}.sh {maps,kernel,budget}/measure.sh |
  STANDS=1 xargs -P "$((processors < 4 ? processors : 4))" -I{} bash "$here/{}" || exit 1
