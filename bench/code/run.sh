#!/bin/bash
# Times the code of units beside reading and checking their texts: the unit of bench/if1; builds of a union of many tags, each
# at the last one; replaces of the last field of a record of many fields. The latter two also at half the size. It prints
# milliseconds, the least of some rounds, the ratio to reading, the bytes of the code for each node and edge, and how much
# longer the whole size takes than the half. Run it at the top of the repository, on an idle machine; the argument is the
# rounds.
set -e
rounds=${1:-5}
build=$(mktemp -d)
trap 'rm -rf "$build"' EXIT
program=$(bench/built.sh units)

# least TEXT: the least times to read the text and to make the code, in nanoseconds, and the bytes of the code
least() {
    local read code best_read= best_code= bytes
    for ((i = 0; i < rounds; i++)); do
        # a step has 40 bytes, an operand 8, a target 4, a collection at most 16, a mark 1, a literal 16
        bytes=$("$program" code <"$1" 2>"$build/times" | tr -d ',' | awk '{ b += NR == 1 ? 40 * $1 + 8 * $3 + 4 * $5 : 16 * $1 + $3 + 16 * $5 } END { print b }')
        read -r read _ code <"$build/times"
        if [ -z "$best_read" ] || [ "$read" -lt "$best_read" ]; then best_read=$read; fi
        if [ -z "$best_code" ] || [ "$code" -lt "$best_code" ]; then best_code=$code; fi
    done
    echo "$best_read $best_code $bytes"
}

# row NAME TEXT [HALF]
row() {
    local parts half=
    parts=$(grep -c '^[NEL] ' "$2")
    read -r read code bytes < <(least "$2")
    [ -z "$3" ] || read -r _ half _ < <(least "$3")
    awk -v n="$1" -v r="$read" -v c="$code" -v b="$bytes" -v p="$parts" -v h="$half" 'BEGIN {
        printf "%s: read %.1f ms, code %.1f ms, ratio %.2f; %.0f bytes a node and edge", n, r / 1e6, c / 1e6, c / r, b / p
        if (h != "") printf "; %.2f times the half", c / h
        printf "\n" }'
}

python3 bench/if1/texts.py "$build/chain.if1" "$build/chain.xml"
row chain "$build/chain.if1"
for kind in union record; do
    python3 bench/if1/late.py "$build/half.if1" "$kind" 10000
    python3 bench/if1/late.py "$build/whole.if1" "$kind" 20000
    row "$kind" "$build/whole.if1" "$build/half.if1"
done
