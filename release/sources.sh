#!/usr/bin/env bash
# Prints the SHA-256 sum of the program's sources: the files in src/ of the crates that it stands on, each with its path, and
# what each of these crates stands on. Proofs and definitions are no part of it, since they don't change what is compiled.
#   release/sources.sh [FOLDER]            the sum; FOLDER is the top of a checkout, without it the one of this script
#   release/sources.sh --crates [FOLDER]   the lines of crates.txt that count, lowest first
set -o pipefail
only=
[ "$1" = --crates ] && only=1 && shift
top=${1:-$(dirname -- "$(readlink -f -- "${BASH_SOURCE[0]}")")/..}
cd -- "$top" || exit 1

crates() {
    awk '{ sub(/#.*/, "") }
        NF { name = $1; sub(/:.*/, "", name); sub(/^[^:]*:/, ""); $1 = $1; needs[name] = $0 }
        function put(name, i, n, words) {
            if (done[name]++ || !(name in needs)) return
            n = split(needs[name], words, " ")
            for (i = 1; i <= n; i++) put(words[i])
            print name ":" (n ? " " needs[name] : "")
        }
        END { if (!("sisal_main" in needs)) exit 1; put("sisal_main") }' crates.txt
}

lines=$(crates) || { echo "release/sources.sh: crates.txt has no sisal_main" >&2; exit 1; }
if [ -n "$only" ]; then
    echo "$lines"
    exit
fi
sources=()
while IFS=: read -r name _; do sources+=("crates/$name/src"); done <<<"$lines"
{
    echo "$lines" | LC_ALL=C sort
    find "${sources[@]}" -type f -print0 | LC_ALL=C sort -z | xargs -0 sha256sum --
} | sha256sum | cut -d ' ' -f 1
