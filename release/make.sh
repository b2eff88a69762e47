#!/usr/bin/env bash
# Makes the release, release/sisal and release/NOTE, of the program of these sources that stands in crates/sisal_main/out, as a
# whole `rt ci` leaves it there; where there is none, ./sisal --build makes it first. Commit both files.
#   release/make.sh [COMMIT]    COMMIT names the sources in the line that a launcher of others prints; without it, HEAD
cd -- "$(dirname -- "$(readlink -f -- "${BASH_SOURCE[0]}")")/.." || exit 1
program=crates/sisal_main/out/sisal_main

fail() {
    echo "release/make.sh: $1" >&2
    exit 1
}
./sisal --build || exit 1
commit=${1:-$(git rev-parse --short HEAD)} || fail "name the commit"
[ -n "$1" ] || git diff --quiet HEAD -- crates crates.txt || fail "crates/ has changes that no commit has: name the commit, or commit them"
glibc=$(grep -ao 'GLIBC_[0-9.]*' "$program" | cut -d _ -f 2 | sort -V | tail -n 1)
cp -- "$program" release/sisal.new || exit 1
chmod 755 release/sisal.new
{
    echo "sources $(release/sources.sh)"
    echo "program $(sha256sum <release/sisal.new | cut -d ' ' -f 1)"
    echo "toolchain $(rt version)"
    echo "glibc $glibc"
    echo "commit $commit"
} >release/NOTE.new || exit 1
mv -- release/sisal.new release/sisal && mv -- release/NOTE.new release/NOTE
cat release/NOTE
