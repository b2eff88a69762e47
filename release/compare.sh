#!/usr/bin/env bash
# Compares the release, byte by byte, with the program that a whole `rt ci` has just built. Where the release is of other
# sources or of another toolchain, it says so and passes.
cd -- "$(dirname -- "$(readlink -f -- "${BASH_SOURCE[0]}")")/.." || exit 1
program=crates/sisal_main/out/sisal_main
value() { sed -n "s/^$1 //p" release/NOTE; }

say() {
    echo "release: $1" >&2
    exit "$2"
}
[ -e release/NOTE ] || say "there is none" 0
[ "$(sha256sum <release/sisal | cut -d ' ' -f 1)" = "$(value program)" ] || say "release/sisal is not the file that release/NOTE tells of" 1
sources=$(release/sources.sh) || exit 1
[ "$sources" = "$(value sources)" ] || say "it is of other sources, those of $(value commit): not compared" 0
[ "$(rt version)" = "$(value toolchain)" ] || say "it is of another toolchain, $(value toolchain): not compared" 0
[ -e "$program" ] || say "rt ci left no $program to compare it with" 1
cmp -- release/sisal "$program" >&2 || say "it differs from what rt ci has built of the same sources" 1
say "it is, byte for byte, what rt ci has built of these sources" 0
