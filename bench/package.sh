#!/bin/sh
# Packs a built program with the script that starts it, its manual, its completions, the examples, the README and the pages that a user
# reads: a tarball, a package of Debian and the SHA-256 sums of both. The same sources and program give the same bytes.
#
#     bench/package.sh PROGRAM FOLDER         as `./sideways package FOLDER` calls it, with the proved program
#
# `COMMIT` in the environment is the line that tells the commit. Status 2 where the words are wrong, 3 where something fails.
set -u
[ $# -eq 2 ] && [ -n "$2" ] || { echo "use: ./sideways package FOLDER" >&2; exit 2; }
program=$1 folder=$2
top=$(cd "$(dirname "$0")/.." && pwd) || exit 3
umask 022

fail() {
    echo "sideways: not packed: $*" >&2
    exit 3
}

work=$(mktemp -d) || exit 3
trap 'rm -rf "$work"' EXIT
trap 'exit 130' HUP INT TERM
"$program" --version >"$work/version" 2>/dev/null || fail "$program does not tell its version"
echo "${COMMIT:-commit unknown}" >>"$work/version"
version=$(awk 'NR == 1 { print $2 }' "$work/version")
[ -n "$version" ] || fail "$program does not tell its version"
SOURCE_DATE_EPOCH=$(git -C "$top" log -1 --format=%ct 2>/dev/null) || SOURCE_DATE_EPOCH=0
export SOURCE_DATE_EPOCH

# The script that starts the program, wherever it is installed or linked: as `./sideways` of the sources does, by the same lines.
starting() {
    cat <<'END' && sed -n '/^# Small stacks/,/^fi/p; /^# Runs the proved program/,/^}/p' "$top/sideways" && echo 'run_proved "$@"'
#!/bin/sh
here=$0
[ ! -L "$0" ] || here=$(readlink -f -- "$0") || exit 3
program=${here%/*}/../lib/sideways/sideways
END
}

# Puts the files below a folder, as they lie below a prefix; zsh looks for its functions where the second word says.
stage() {
    to=$1 doc=$1/share/doc/sideways
    mkdir -p "$to/bin" "$to/lib/sideways" "$to/share/man/man1" "$to/share/bash-completion/completions" "$to/share/zsh/$2" "$doc/docs" || return 1
    cp "$program" "$to/lib/sideways/sideways" && starting >"$to/bin/sideways" || return 1
    chmod 755 "$to/lib/sideways/sideways" "$to/bin/sideways" || return 1
    gzip -9n <"$top/docs/sideways.1" >"$to/share/man/man1/sideways.1.gz" || return 1
    cp "$top/docs/sideways.bash" "$to/share/bash-completion/completions/sideways" || return 1
    cp "$top/docs/_sideways" "$to/share/zsh/$2/_sideways" || return 1
    cp "$top/README.md" "$doc/README.md" && cp "$work/version" "$doc/VERSION" || return 1
    for page in GUIDE.md FORMATS.md HISTORIES.md RULES.md curve.svg; do
        cp "$top/docs/$page" "$doc/docs/" || return 1
    done
    cp -R "$top/examples" "$doc/examples" && chmod -R u=rwX,go=rX "$doc"
}

# The tarball: unpacked below a prefix it is installed, as by tar -xzf FILE -C /usr/local --strip-components=1.
name=sideways-$version
stage "$work/$name" site-functions || fail "a file cannot be copied"
tar -C "$work" --sort=name --owner=0 --group=0 --numeric-owner --mtime="@$SOURCE_DATE_EPOCH" -cf "$work/tar" "$name" ||
    fail "the tarball cannot be made"
tarball=$name-$(uname -m)-linux.tar.gz
gzip -9n <"$work/tar" >"$work/$tarball" || fail "the tarball cannot be made"

# The package of Debian.
architecture=$(dpkg --print-architecture 2>/dev/null) || fail "the tools of Debian (dpkg, dpkg-deb) are wanted"
stage "$work/deb/usr" vendor-completions || fail "a file cannot be copied"
mkdir "$work/deb/DEBIAN" || fail "the package cannot be made"
libc=$(grep -ao 'GLIBC_2\.[0-9.]*' "$program" | sort -Vu | tail -n 1)
cat >"$work/deb/DEBIAN/control" <<END
Package: sideways
Version: $version
Architecture: $architecture
Maintainer: $(git -C "$top" log -1 --format='%an <%ae>' 2>/dev/null || echo "unknown <unknown@localhost>")
Installed-Size: $(du -sk "$work/deb/usr" | cut -f1)
Depends: libc6${libc:+ (>= ${libc#GLIBC_})}
Section: database
Priority: optional
Description: column engine in memory, by database cracking
 Conjunctive range selections over a table of up to eight columns, which are
 answered without preparation and faster with each query, and a history of
 each run that can be checked.
 .
$(sed 's/^/ /' "$work/version")
END
deb=sideways_${version}_$architecture.deb
dpkg-deb --root-owner-group -Zxz --build "$work/deb" "$work/$deb" >"$work/log" 2>&1 || fail "$(cat "$work/log")"

(cd "$work" && sha256sum "$tarball" "$deb" >SHA256SUMS) || fail "the sums cannot be made"
mkdir -p "$folder" || fail "$folder cannot be made"
for file in "$tarball" "$deb" SHA256SUMS; do
    cp "$work/$file" "$folder/$file.part" && mv -f "$folder/$file.part" "$folder/$file" || fail "$folder/$file cannot be written"
    echo "$folder/$file"
done
