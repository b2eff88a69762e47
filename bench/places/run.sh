#!/bin/bash
# Times 10 million updates in place of an array beside those of a Vec of an enum of 40 bytes in Rust, in turns, and prints
# nanoseconds a step, the least of some rounds, without the program's start: an element is replaced at one place again and
# again (`v[i] = x`), or added at the end or the front and taken off (`push`, `pop`; of a VecDeque `push_front`,
# `pop_front`), at 4, 4,096 and 4,000,000 elements. Run it at the top of the repository, on an idle machine; the argument is
# the rounds.
set -e
rounds=${1:-10}
build=$(mktemp -d)
trap 'rm -rf "$build"' EXIT
rustc -O -o "$build/peer" bench/places/peer.rs
program=$(bench/built.sh pool)
ours() { "$program" places "$@"; }

nanoseconds() { # the program and its words
    local begin end
    begin=$(date +%s%N)
    "$@" >"$build/printed"
    end=$(date +%s%N)
    echo $((end - begin))
}

declare -A least
keep() { # whose, the work, the size, how much, its time
    [ -n "${least[$1 $2 $3 $4]}" ] && [ "${least[$1 $2 $3 $4]}" -le "$5" ] || least[$1 $2 $3 $4]=$5
}

for work in replace ends front; do
    for size in few some many; do
        for ((i = 0; i < rounds; i++)); do
            for amount in short long; do
                keep ours $work $size $amount "$(nanoseconds ours $work $size $amount)"
                cp "$build/printed" "$build/first"
                keep peer $work $size $amount "$(nanoseconds "$build/peer" $work $size $amount)"
                cmp "$build/first" "$build/printed"
            done
        done
        for whose in ours peer; do
            least[$whose $work $size]=$(((least[$whose $work $size long] - least[$whose $work $size short]) * 1000 / (10000000 - 1000)))
        done
        awk -v what="$work, $size" -v a="${least[ours $work $size]}" -v b="${least[peer $work $size]}" \
            'BEGIN { printf "%s: %.2f ns, a Vec %.2f ns, ratio %.2f\n", what, a / 1000, b / 1000, a / b }'
    done
done
for work in replace ends front; do
    awk -v what=$work -v a="${least[ours $work few]}" -v b="${least[ours $work some]}" -v c="${least[ours $work many]}" 'BEGIN {
        most = a; if (b > most) most = b; if (c > most) most = c
        few = a; if (b < few) few = b; if (c < few) few = c
        printf "%s: the slowest of ours takes %.2f times the fastest\n", what, most / few }'
done
