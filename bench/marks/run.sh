#!/bin/bash
# Times the marks of units beside reading and checking their texts: the unit of bench/if1; a chain of updates; one with a reader
# beside each update; one array with many readers and an update; many arrays with many readers each, in mixed order. Each but the
# first also at half the size, and some with shuffled labels. The marks are made, and those that were made are checked. Then marks
# that texts bring and that are not sound: ordering edges on a cycle behind many that are right, and all on one cycle. It prints
# milliseconds, the least of some rounds, the ratios to reading, and how much longer the whole size takes than the half. Run it
# at the top of the repository, on an idle machine; the argument is the rounds.
set -e
rounds=${1:-5}
build=$(mktemp -d)
trap 'rm -rf "$build"' EXIT
program=$(bench/built.sh units)

# least TEXT: the least times to read the text, to make the marks and to check them, in nanoseconds, and what the program printed
least() {
    local read made checked best_read= best_made= best_checked= printed
    for ((i = 0; i < rounds; i++)); do
        printed=$("$program" marks <"$1" 2>"$build/times")
        read -r read made checked <"$build/times"
        if [ -z "$best_read" ] || [ "$read" -lt "$best_read" ]; then best_read=$read; fi
        if [ -z "$best_made" ] || [ "$made" -lt "$best_made" ]; then best_made=$made; fi
        if [ -z "$best_checked" ] || [ "$checked" -lt "$best_checked" ]; then best_checked=$checked; fi
    done
    echo "$best_read $best_made $best_checked $printed"
}

python3 bench/if1/texts.py "$build/plain.if1" "$build/plain.xml"
read -r read made checked printed < <(least "$build/plain.if1")
awk -v r="$read" -v m="$made" -v c="$checked" -v p="$printed" \
    'BEGIN { printf "no arrays: %s; read %.1f ms, marks %.1f ms, ratio %.2f, check %.1f ms, ratio %.2f\n", p, r / 1e6, m / 1e6, m / r, c / 1e6, c / r }'

# row NAME KIND HALF WHOLE [SEED]
row() {
    local half half_checked
    python3 bench/marks/texts.py "$build/half.if1" "$2" "$3" $5
    python3 bench/marks/texts.py "$build/whole.if1" "$2" "$4" $5
    read -r _ half half_checked _ < <(least "$build/half.if1")
    read -r read made checked printed < <(least "$build/whole.if1")
    awk -v n="$1" -v r="$read" -v m="$made" -v c="$checked" -v h="$half" -v k="$half_checked" -v p="$printed" 'BEGIN {
        printf "%s: %s; read %.1f ms", n, p, r / 1e6
        if (m > 0) printf ", marks %.1f ms, ratio %.2f, of twice the size %.2f times", m / 1e6, m / r, m / h
        printf ", check %.1f ms, ratio %.2f, of twice the size %.2f times\n", c / 1e6, c / r, c / k
    }'
}
row "chain of 65,535 updates" chain 32767 65535
row "chain of 30,000 with readers" read 15000 30000
row "chain of 30,000 with readers, shuffled" read 15000 30000 3
row "one array, 60,000 readers" one 30000 60000
row "one array, 60,000 readers, shuffled" one 30000 60000 3
row "250 arrays, 250 readers each" many 177 250
row "250 arrays, 250 readers each, shuffled" many 177 250 3
row "a cycle behind 60,000 labels" back 30000 60000
row "a cycle among 60,000 labels, shuffled" back 30000 60000 3
row "one cycle of 60,000" ring 30000 60000
row "one cycle of 60,000, shuffled" ring 30000 60000 3
