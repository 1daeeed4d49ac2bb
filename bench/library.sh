#!/bin/sh
# Makes the library for programs in other languages of a built archive: headers, a static and a shared library, Python's package as
# a wheel, the examples and their pages. The same sources and archive give the same bytes with the same compiler.
#
#     bench/library.sh ARCHIVE FOLDER         as `./sideways library FOLDER` calls it, with the proved archive
#
# ARCHIVE is crates/sideways_c/out/libsideways_c.a. `COMMIT` in the environment is the line that tells the commit, `CC` the compiler.
# Status 2 where the words are wrong, 3 where something fails.
set -u
[ $# -eq 2 ] && [ -n "$2" ] || { echo "use: ./sideways library FOLDER" >&2; exit 2; }
archive=$(readlink -f -- "$1") folder=$2
top=$(cd "$(dirname "$0")/.." && pwd) || exit 3
umask 022

fail() {
    echo "sideways: no library was made: $*" >&2
    exit 3
}

for tool in ar "${CC:-cc}" python3; do
    command -v "$tool" >/dev/null 2>&1 || fail "$tool is wanted"
done
work=$(mktemp -d) || exit 3
trap 'rm -rf "$work"' EXIT
trap 'exit 130' HUP INT TERM
made=$work/made
mkdir -p "$made/docs" "$made/examples" || fail "a folder cannot be made"

# The archive's members and ours as one. `ar -M` reads plain names alone, and tells faults without a status.
for part in sideways_codes sideways_heap sideways_locked; do
    "${CC:-cc}" -std=c99 -O2 -fPIC -Wall -Wextra -c "$top/bindings/c/$part.c" -o "$work/$part.o" || fail "$part.c cannot be compiled"
done
cp "$archive" "$work/engine.a" || fail "the archive cannot be copied"
printf '%s\n' 'create all.a' 'addlib engine.a' 'addmod sideways_codes.o' 'addmod sideways_heap.o' 'addmod sideways_locked.o' save end >"$work/members"
(cd "$work" && ar -MD <members && ranlib -D all.a) >"$work/log" 2>&1 || fail "$(cat "$work/log")"
mv "$work/all.a" "$made/libsideways.a" || fail "$(cat "$work/log")"

# What begins with another word than sideways_ is no business of who links the shared library.
echo '{ global: sideways_*; local: *; };' >"$work/exports"
"${CC:-cc}" -shared -o "$made/libsideways.so" -Wl,-soname,libsideways.so -Wl,--version-script="$work/exports" \
    -Wl,--whole-archive "$made/libsideways.a" -Wl,--no-whole-archive -lpthread >"$work/log" 2>&1 || fail "$(cat "$work/log")"

python3 "$top/bindings/python/wheel.py" "$made/libsideways.so" "$made" >"$work/log" 2>&1 || fail "$(cat "$work/log")"
cp "$top"/bindings/c/*.h "$made/" && cp "$top"/examples/embed/* "$made/examples/" || fail "a file cannot be copied"
for page in EMBEDDING.md FORMATS.md HISTORIES.md; do
    cp "$top/docs/$page" "$made/docs/" || fail "a page cannot be copied"
done
echo "${COMMIT:-commit unknown}" >"$made/VERSION"

mkdir -p "$folder" || fail "$folder cannot be made"
(cd "$made" && find . -type f | sort) >"$work/names"
while read -r file; do
    mkdir -p "$folder/$(dirname "$file")" && cp "$made/$file" "$folder/$file.part" && mv -f "$folder/$file.part" "$folder/$file" ||
        fail "$folder/$file cannot be written"
    echo "$folder/${file#./}"
done <"$work/names"
