# What the drivers of the whole program share; they source it. It sets `top`, the repository, `program`, which it builds unless PROGRAM in the
# environment names another, and `work`, a folder under TMPDIR that goes when the driver ends, and it has `peer`.
top=$(cd "$(dirname "${BASH_SOURCE[0]}")/.." && pwd)
work=$(mktemp -d "${TMPDIR:-/tmp}/bench.XXXXXX")
trap 'rm -rf "$work"' EXIT
program=${PROGRAM:-$top/crates/sideways/out/sideways}
[ -n "${PROGRAM:-}" ] || "$top/sideways" prove > "$work/build.log" 2>&1 || { tail -n 20 "$work/build.log"; exit 1; }
export GLIBC_TUNABLES="${GLIBC_TUNABLES-glibc.malloc.hugetlb=1:glibc.malloc.mmap_threshold=1048576:glibc.malloc.top_pad=33554432}" # as `./sideways` has it, for both sides

# Builds the C++ peer as $work/peer.
peer() {
  g++ -O3 -march=native -o "$work/peer" "$top/bench/peers/peer.cpp"
}
