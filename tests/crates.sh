#!/bin/sh
# Holds pages against crates.txt, and tells what differs, a line each; status 1 where something does:
#
# - docs/ARCHITECTURE.md has the crates by layers, each above all that it stands on
# - docs/GLOSSARY.md has a line for each crate, with its name and what it is
# - each crate has a README of at most 60 lines, with the same five heads
#
#     tests/crates.sh [--write]
#
# With --write it puts the layers into docs/ARCHITECTURE.md first.
set -u
top=$(cd "$(dirname "$0")/.." && pwd) || exit 3
cd "$top" || exit 3

# The name of each crate.
listed() {
    awk -F: '/^[ \t]*#/ || NF < 2 { next } { split($1, head, " "); print head[1] }' crates.txt | sort
}

# The layers from the lowest, a line each: the number, and the crates in the order of crates.txt.
layers() {
    awk -F: '
        /^[ \t]*#/ || NF < 2 { next }
        { split($1, head, " "); names[++many] = head[1]; below[head[1]] = $2 }
        function layer(name, words, n, i, at, least) {
            if (name in found) return found[name]
            n = split(below[name], words, " ")
            for (i = 1; i <= n; i++) if (words[i] in below) { at = layer(words[i]) + 1; if (at > least) least = at }
            return found[name] = least + 0
        }
        END {
            for (i = 1; i <= many; i++) { at = layer(names[i]); line[at] = line[at] " " names[i]; if (at > top) top = at }
            for (at = 0; at <= top; at++) printf "%2d %s\n", at, line[at]
        }' crates.txt
}

# The layers that the page has.
drawn() {
    awk '/^ 0  / { on = 1 } on && /^```/ { exit } on' docs/ARCHITECTURE.md
}

# The names of the glossary's list, which begins with sw_table, where a line says what the crate is.
told() {
    awk '/^sw_table / { on = 1 } on && /^```/ { exit } on && NF > 1 { print $1 }' docs/GLOSSARY.md | sort
}

# The heads of a README, in order.
heads="## What it is for
## A caller's example
## What it promises
## What is by tests alone
## Where to change what"

work=$(mktemp -d) || exit 3
trap 'rm -rf "$work"' EXIT
layers >"$work/layers"
if [ "${1-}" = --write ]; then
    awk -v made="$work/layers" '
        /^ 0  / { while ((getline line <made) > 0) print line; skip = 1 }
        /^```/ { skip = 0 }
        !skip' docs/ARCHITECTURE.md >"$work/page" && cat "$work/page" >docs/ARCHITECTURE.md || exit 3
fi
listed >"$work/listed"
told >"$work/told"
drawn >"$work/drawn"
differs=no
diff "$work/listed" "$work/told" >"$work/diff" || {
    differs=yes
    sed -n 's/^< /crates.txt alone has: /p; s/^> /docs\/GLOSSARY.md alone has: /p' "$work/diff"
}
diff "$work/layers" "$work/drawn" >"$work/diff" || {
    differs=yes
    echo "docs/ARCHITECTURE.md has other layers than crates.txt: run tests/crates.sh --write"
}
for name in $(cat "$work/listed"); do
    lines=0
    [ -f "crates/$name/README.md" ] && lines=$(wc -l <"crates/$name/README.md")
    if [ "$lines" -eq 0 ] || [ "$lines" -gt 60 ]; then
        differs=yes
        echo "crates/$name/README.md has $lines lines"
    fi
    if [ "$lines" -gt 0 ] && [ "$(grep '^## ' "crates/$name/README.md")" != "$heads" ]; then
        differs=yes
        echo "crates/$name/README.md has other heads"
    fi
done
[ "$differs" = no ] && echo "crates, pages and READMEs are in order"
[ "$differs" = no ]
