#!/bin/sh
# What `./sideways package` and examples/curve.sh make: both packages have the program byte for byte, what starts it as `./sideways` does,
# the manual, the completions, the examples and the README, the sums are theirs, a second time gives the same bytes; a picture is drawn
# of a run's times.
#
#     tests/packages.sh [PROGRAM]
#
# PROGRAM is the built program, by default crates/sideways/out/sideways. Ends with 1 at the first that is wrong.
set -u
top=$(cd "$(dirname "$0")/.." && pwd)
program=$(readlink -f "${1:-$top/crates/sideways/out/sideways}")
work=$(mktemp -d) || exit 1
trap 'rm -rf "$work"' EXIT

wrong() {
    echo "packages: WRONG: $*" >&2
    exit 1
}

# How a package below a folder starts its program: by a link too and by PATH, with these words and that status, file sizes without a signal,
# and what the C library is told, unless it was told.
started() {
    rm -rf "$work/moved" && mkdir "$work/moved" && cp -R "$1/bin" "$1/lib" "$work/moved" || wrong "no copy of $1"
    printf '%s\n' '#!/bin/sh' 'printf "%s|" "$GLIBC_TUNABLES" "$@"' 'kill -XFSZ $$' 'exit 7' >"$work/moved/lib/sideways/sideways"
    ln -sf "$work/moved/bin/sideways" "$work/linked"
    usual=$(sed -n 's/.*GLIBC_TUNABLES-\(.*\)}"$/\1/p' "$top/sideways")
    for way in "$work/moved/bin/sideways" "$work/linked" sideways; do
        is=$(unset GLIBC_TUNABLES && PATH=$work/moved/bin:$PATH && "$way" 'a  b' '' c; echo $?)
        [ "$is" = "$usual|a  b||c|7" ] || wrong "$way of $1 starts with $is"
    done
    is=$(GLIBC_TUNABLES=other "$work/linked")
    [ "$is" = "other|" ] || wrong "what was told to the C library is $is"
    is=$(ulimit -s 200 && "$work/linked" 2>&1; echo $?)
    [ "$is" = "$(printf 'sideways: refused 1\n3')" ] || wrong "$is with stacks of 200 KiB"
}

# A folder below which the files lie as they are installed, and where zsh looks there.
see() {
    cmp "$program" "$1/lib/sideways/sideways" || wrong "another program in $1"
    "$1/bin/sideways" run --table "$1/share/doc/sideways/examples/t.csv" -e count | grep -qx 4 || wrong "the program in $1 does not answer"
    started "$1"
    zcat "$1/share/man/man1/sideways.1.gz" | cmp - "$top/docs/sideways.1" || wrong "another manual in $1"
    cmp "$top/docs/sideways.bash" "$1/share/bash-completion/completions/sideways" || wrong "another completion in $1"
    cmp "$top/docs/_sideways" "$1/share/zsh/$2/_sideways" || wrong "another completion of zsh in $1"
    cmp "$top/README.md" "$1/share/doc/sideways/README.md" || wrong "another README in $1"
    diff -r "$top/examples" "$1/share/doc/sideways/examples" || wrong "other examples in $1"
    grep -qx "commit of a test" "$1/share/doc/sideways/VERSION" || wrong "another commit in $1"
}

export COMMIT="commit of a test"
"$top/bench/package.sh" "$program" "$work/one" >"$work/names" || wrong "nothing was packed"
"$top/bench/package.sh" "$program" "$work/two" >/dev/null || wrong "nothing was packed a second time"
diff -r "$work/one" "$work/two" || wrong "other bytes a second time"
(cd "$work/one" && sha256sum -c --quiet SHA256SUMS) || wrong "other sums"
mkdir "$work/tar" && tar -xzf "$work"/one/*.tar.gz -C "$work/tar" --strip-components=1 || wrong "the tarball cannot be unpacked"
see "$work/tar" site-functions
dpkg-deb -x "$work"/one/*.deb "$work/deb" || wrong "the package of Debian cannot be unpacked"
see "$work/deb/usr" vendor-completions

# A refusal: its status, the last line on standard error, and the command.
refused() {
    status=$1 line=$2
    shift 2
    "$@" >/dev/null 2>"$work/told"
    is=$?
    [ "$is" = "$status" ] || wrong "status $is, wanted $status: $*"
    [ "$(tail -n 1 "$work/told")" = "$line" ] || wrong "$(cat "$work/told"): wanted $line"
}
mkdir "$work/tree" "$work/tools" && cp "$top/sideways" "$work/tree/" && cp "$top/crates.txt" "$work/tree/" && mkdir "$work/tree/crates"
printf '#!/bin/sh\nexit 1\n' >"$work/tools/dpkg" && cp "$work/tools/dpkg" "$work/tools/mute" && chmod 755 "$work/tools"/*
refused 2 "use: ./sideways package FOLDER" "$top/bench/package.sh" "$program"
refused 2 "use: ./sideways package FOLDER" "$top/bench/package.sh" "$program" ""
refused 2 "use: ./sideways package FOLDER" "$top/bench/package.sh" "$program" "$work/one" "$work/two"
refused 3 "sideways: not packed: $work/names/x cannot be made" "$top/bench/package.sh" "$program" "$work/names/x"
refused 3 "sideways: not packed: $work/tools/mute does not tell its version" "$top/bench/package.sh" "$work/tools/mute" "$work/one"
refused 3 "sideways: not packed: the tools of Debian (dpkg, dpkg-deb) are wanted" \
    env PATH="$work/tools:$PATH" "$top/bench/package.sh" "$program" "$work/one"
refused 3 "sideways: the program is not proved as the sources are, and so not packed; ./sideways prove makes it" \
    "$work/tree/sideways" package "$work/one"

"$program" run --table "$top/examples/t.csv" --script "$top/examples/ranges_twice.txt" --times 2>"$work/times.txt" >/dev/null || wrong "no times"
sh "$top/examples/curve.sh" "$work/times.txt" >"$work/curve.svg" || wrong "no picture"
[ "$(grep -c '<polyline points="[0-9]' "$work/curve.svg")" = 1 ] && [ "$(tail -n 1 "$work/curve.svg")" = "</svg>" ] || wrong "another picture"
sh "$top/examples/curve.sh" "$top/examples/t.csv" >/dev/null 2>&1
[ $? -eq 2 ] || wrong "a file without times is not refused"
echo "packages: all passed"
