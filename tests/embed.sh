#!/bin/sh
# What `./sideways library` makes, as one has it who has a C compiler and Python alone: the header by the compilers, its functions
# against the library's, every function with wrong uses and refused memory, threads, the package of Python, and the examples.
#
#     tests/embed.sh [PROGRAM [ARCHIVE]]
#
# PROGRAM is the built program, by default crates/sideways/out/sideways, ARCHIVE crates/sideways_c/out/libsideways_c.a. What is wanted
# for a test and not there (the archive, a C++ compiler, valgrind, a Python with numpy) is told, and its tests are left out. Ends with 1
# at the first that is wrong.
set -u
top=$(cd "$(dirname "$0")/.." && pwd)
program=$(readlink -f "${1:-$top/crates/sideways/out/sideways}")
archive=$(readlink -f "${2:-$top/crates/sideways_c/out/libsideways_c.a}")
tests=$top/tests/embed
work=$(mktemp -d) || exit 1
trap 'rm -rf "$work"' EXIT
cc=${CC:-cc}

wrong() {
    echo "embed: WRONG: $*" >&2
    exit 1
}

has() {
    command -v "$1" >/dev/null 2>&1 && return 0
    echo "embed: LEFT OUT, there is no $1: $2" >&2
    return 1
}

# Runs what has to end with 0, and shows what it told where it does not.
quietly() {
    "$@" >"$work/told" 2>&1 || {
        cat "$work/told" >&2
        wrong "$*"
    }
}

# Compiles a test of one file to $work/NAME.
compile() {
    name=$1
    shift
    quietly "$cc" -std=c11 -g -Wall -Wextra -Wpedantic -Wconversion -Wno-sign-conversion -I"$lib" "$@" "$tests/$name.c" \
        "$lib/libsideways.a" -lpthread -o "$work/$name"
}

has "$cc" "nothing can be tried" || exit 1
# The headers, alone and as each standard has them.
every="-Wall -Wextra -Wpedantic -Wshadow -Wconversion -Wsign-conversion -Wundef -Wcast-align -Werror"
for header in sideways sideways_codes sideways_locked; do
    printf '#include "%s.h"\n#include "%s.h"\n' "$header" "$header" >"$work/one.c"
    echo 'sideways h = SIDEWAYS_CLOSED; sideways_options o = SIDEWAYS_OPTIONS; sideways_cond c = SIDEWAYS_BELOW(0, -5);' >>"$work/one.c"
    echo 'void end(void); void end(void) { sideways_free(h); }' >>"$work/one.c"
    [ "$header" != sideways_codes ] || printf '#include "%s.h"\nextern int none;\n' "$header" >"$work/one.c"
    for standard in c99 c11; do
        quietly "$cc" -std=$standard $every -Wstrict-prototypes -Wmissing-prototypes -I"$top/bindings/c" -c "$work/one.c" -o "$work/one.o"
    done
    if has "${CXX:-c++}" "the headers as C++17"; then
        cp "$work/one.c" "$work/one.cc"
        quietly "${CXX:-c++}" -std=c++17 $every -I"$top/bindings/c" -c "$work/one.cc" -o "$work/one.o"
    fi
done
for part in codes heap locked; do
    quietly "$cc" -std=c99 $every -c "$top/bindings/c/sideways_$part.c" -o "$work/one.o"
done
if [ ! -f "$archive" ]; then
    echo "embed: LEFT OUT, there is no archive, as ./sideways library leaves one: all but the headers" >&2
    exit 0
fi

export COMMIT="commit of a test"
lib=$work/lib
quietly "$top/bench/library.sh" "$archive" "$lib"
quietly "$top/bench/library.sh" "$archive" "$work/again"
diff -r "$lib" "$work/again" >&2 || wrong "other bytes a second time"
"$top/bench/library.sh" "$archive" 2>/dev/null
[ $? -eq 2 ] || wrong "no folder is not refused"
"$top/bench/library.sh" "$archive" "$lib/VERSION/x" >/dev/null 2>&1
[ $? -eq 3 ] || wrong "a folder that cannot be made is not refused"

quietly python3 "$tests/exports.py" "$lib"

# Every function, its wrong uses, and memory.
compile calls -O1 -fsanitize=address,undefined -fno-sanitize-recover=all
quietly "$work/calls"
compile calls -O1
quietly "$work/calls"
compile refusing -O1
quietly "$work/refusing"
compile growing -O2
quietly "$work/growing"
compile threads -O1
for turn in 1 2 3; do
    quietly "$work/threads" 2000 "$work/h.json" "$work/log"
    quietly python3 "$tests/told.py" "$work/h.json" "$work/log"
    "$program" check "$work/h.json" >"$work/told" 2>&1 || wrong "the history of threads: $(cat "$work/told")"
done
if has valgrind "memory and threads under it"; then
    quietly valgrind -q --leak-check=full --error-exitcode=9 "$work/calls"
    quietly valgrind -q --tool=helgrind --error-exitcode=9 "$work/threads" 20 "$work/h.json" "$work/log"
fi

# The package, as pip puts it there.
python=
for one in python3 /usr/bin/python3; do
    [ -n "$python" ] || ! "$one" -c 'import numpy' 2>/dev/null || python=$one
done
if [ -n "$python" ]; then
    if "$python" -m pip --version >/dev/null 2>&1; then
        quietly "$python" -m pip install --quiet --no-index --no-deps --find-links "$lib" --target "$work/python" sideways
    else
        quietly "$python" -m zipfile -e "$lib"/sideways-*.whl "$work/python"
    fi
    export PYTHONPATH="$work/python"
    quietly "$python" "$tests/tables.py"
    echo 'unsigned sideways_version(void); unsigned sideways_version(void) { return 2; }' >"$work/old.c"
    quietly "$cc" -shared -fPIC "$work/old.c" -o "$work/old.so"
    SIDEWAYS_LIBRARY="$work/old.so" "$python" -c 'import sideways' 2>"$work/told" && wrong "a library of another version is taken"
    grep -q '^ImportError: .* has version 2, wanted ' "$work/told" || wrong "a library of another version is not told: $(cat "$work/told")"
    quietly "$python" "$lib/examples/curve.py" "$top/tests/embed/ages.csv" age
    [ "$(grep -c '<polyline points="[0-9]' "$work/told")" = 2 ] || wrong "another picture"
else
    echo "embed: LEFT OUT, there is no Python with numpy: the package of Python" >&2
fi

# The programs of the page, as one copies them.
page=$lib/docs/EMBEDDING.md
sed -n '/^    #include "sideways.h"/,/^    }/s/^    //p' "$page" >"$work/demo.c"
quietly "$cc" -std=c11 -Wall -Wextra -Wpedantic "$work/demo.c" -I"$lib" "$lib/libsideways.a" -o "$work/demo"
[ "$("$work/demo")" = 2 ] || wrong "the page's program in C prints another number"
quietly "$cc" "$work/demo.c" -I"$lib" -L"$lib" -lsideways -Wl,-rpath,"$lib" -o "$work/demo"
[ "$("$work/demo")" = 2 ] || wrong "the page's program in C prints another number with the shared library"
if [ -n "$python" ]; then
    sed -n '/^    import sideways/,/^    print/s/^    //p' "$page" >"$work/demo.py"
    "$python" "$work/demo.py" >"$work/told" 2>&1 || wrong "the page's program in Python: $(cat "$work/told")"
    [ "$(cat "$work/told")" = legal ] || wrong "the page's program in Python tells: $(cat "$work/told")"
fi

# The other examples, as their first lines have them.
for example in oracle pool; do
    quietly "$cc" -O2 -Wall -Wextra "$lib/examples/$example.c" -I"$lib" "$lib/libsideways.a" -lpthread -o "$work/$example"
    quietly "$work/$example"
done
"$work/oracle" 10000 5000 >"$work/told"
[ $? -eq 1 ] || wrong "a store that loses a row is not found"
grep -q "the store says" "$work/told" || wrong "what differs is not told"
echo "embed: all passed"
