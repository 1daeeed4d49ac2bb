# What the drivers below this folder share; they source it. It sets `top`, the repository, and `work`, a folder under TMPDIR that goes
# when the driver ends (with WORK=FOLDER it is that one, and stays, with what was built there), and it has `sizes`, `proofs`, `build`
# and `area`.
top=$(cd "$(dirname "${BASH_SOURCE[0]}")/.." && pwd)
work=${WORK:-$(mktemp -d "${TMPDIR:-/tmp}/bench.XXXXXX")}
[ -n "${WORK:-}" ] || trap 'rm -rf "$work"' EXIT

# sizes [ROWS [ROUNDS [CALLS]]]
# Sets `rows`, `rounds` and `calls`.
sizes() {
  rows=${1:-1000000}
  rounds=${2:-5}
  calls=${3:-1000}
}

# proofs NAME FOLDER
# Puts the proofs of the driver's program NAME into its crate in the work folder: the lemmas that drivers share, and each F.antt.txt of
# FOLDER as the answers of its function F, where it names goals, else as the invariants.
proofs() {
  local to=$work/crates/$1/proofs proof name file
  mkdir -p "$to"
  echo "pub mod Lemmas" > "$to/Lib.antt"
  cp "$top/bench/lemmas.antt.txt" "$to/Lemmas.antt"
  for proof in "$2"/*.antt.txt; do
    name=$(basename "$proof" .antt.txt)
    file=Invariants
    if grep -q 'Goals as goal' "$proof"; then
      file=Answers
    fi
    mkdir -p "$to/$name"
    cp "$proof" "$to/$name/$file.antt"
  done
}

# build KIND NAME SOURCE LIBRARY..
# Proves and builds SOURCE in the work folder over copies of the repository's crates among the libraries, which are listed lowest
# first. KIND is `program`: crates/NAME/out/NAME, which is also run once with no words; or `library`: crates/NAME/out/libNAME.a.
build() {
  local kind=$1 name=$2 source=$3 uses=${*:4}
  local root=main.rt command=run line="$name: $uses" made=$work/crates/$name/out/$name library
  if [ "$kind" = library ]; then
    root=lib.rt command=lib line="$name staticlib: $uses" made=$work/crates/$name/out/lib$name.a
  fi
  if [ -e "$made" ]; then
    return
  fi
  mkdir -p "$work/crates/$name/src"
  cp "$top/HANDLES" "$work/"
  echo "$line" > "$work/crates.txt"
  cp "$source" "$work/crates/$name/src/$root"
  for library in $uses; do
    if [ -d "$top/crates/$library" ]; then
      grep -E "^$library\b" "$top/crates.txt" >> "$work/crates.txt"
      bring "$library"
    fi
  done
  if [ -n "${STANDS:-}" ]; then
    stands "$name"
  fi
  (cd "$work/crates/$name" && rt "$command" > "$work/build.log" 2>&1) || { tail -n 20 "$work/build.log"; exit 1; }
}

# bring LIBRARY
# Copies a crate with its library into the work folder; where a driver is only read (STANDS), links it, but for its stamp.
bring() {
  local to=$work/crates/$1
  if [ -n "${STANDS:-}" ]; then
    mkdir -p "$to/out"
    cp -rp "$top/crates/$1"/[!o]* "$to/"
    [ -d "$top/crates/$1/out/rlib/$1.rlib" ] || { echo "$1 has no library here: run rt ci"; exit 1; }
    cp -al "$top/crates/$1/out/rlib" "$to/out/rlib" 2> /dev/null || cp -rp "$top/crates/$1/out/rlib" "$to/out/"
    rm -f "$to/out/rlib/stamp"
  else
    cp -rp "$top/crates/$1" "$work/crates/"
  fi
}

# stands NAME
# Reads the driver's types and clauses over the libraries that the gate left, proves nothing, and ends the script.
stands() {
  (cd "$work" && python3 "$top/bench/stamps.py" "$(dirname "$(rt doc)")") || exit 1
  (cd "$work/crates/$1" && rt check --jobs 1 --only '' > "$work/build.log" 2>&1) || { tail -n 20 "$work/build.log"; exit 1; }
  echo "$1 stands"
  exit 0
}

# area NAME SOURCE
# Builds SOURCE as a program over the crates up to heads, and the C++ peer as $work/peer.
area() {
  build program "$1" "$2" \
    sw_table sw_query sw_rows sw_lang sw_kernel sw_load sw_tape sw_budget sw_bits sw_slots sw_map test_maps sw_set test_areas sw_tie sw_chunks test_words test_heads anyhow
  g++ -O3 -march=native -o "$work/peer" "$top/bench/peers/peer.cpp"
}
