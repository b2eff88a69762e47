#!/bin/bash
# Times the pool of aggregates beside Box, Arc and Vec of Rust, in turns: 4 million puts and lends, 10,000 arrays of a
# million places that are begun and given up, and 10 that are written and let go, beside a Vec that is filled by index and one
# whose elements are pushed. Prints nanoseconds a call, an array or a place, the least of some rounds, without the program's
# start. Run it at the top of the repository, on an idle machine; the argument is the rounds.
set -e
rounds=${1:-10}
build=$(mktemp -d)
trap 'rm -rf "$build"' EXIT
rustc -O -o "$build/peer" bench/pool/peer.rs
program=$(bench/built.sh pool)
ours() { "$program" pool "$@"; }

nanoseconds() { # the program, the work, how much
    local begin end
    begin=$(date +%s%N)
    "$1" $2 $3 >"$build/printed"
    end=$(date +%s%N)
    echo $((end - begin))
}

declare -A least
keep() { # whose, the work, how much, its time
    [ -n "${least[$1 $2 $3]}" ] && [ "${least[$1 $2 $3]}" -le "$4" ] || least[$1 $2 $3]=$4
}

time_once() { # whose, its program, the work, how much
    keep $1 $3 $4 "$(nanoseconds "$2" $3 $4)"
}
for work in put lend room write; do
    for amount in short long; do
        for ((i = 0; i < rounds; i++)); do
            time_once pool ours $work $amount
            cp "$build/printed" "$build/first"
            time_once peer "$build/peer" $work $amount
            cmp "$build/first" "$build/printed"
            [ $work != write ] || time_once peer "$build/peer" push $amount
        done
    done
done

units() { # the work: how many calls, arrays or places a long run has more than a short one
    case $1 in room) echo 9998 ;; write | push) echo 10000000 ;; *) echo 3999000 ;; esac
}

picoseconds() { # whose, the work: what one takes, without the start of the program
    echo $(((least[$1 $2 long] - least[$1 $2 short]) * 1000 / $(units $2)))
}

say() { # what, its work, the peer, the peer's work
    awk -v what="$1" -v a="$(picoseconds pool $2)" -v peer="$3" -v b="$(picoseconds peer $4)" \
        'BEGIN { if (a < 0) a = 0; printf "%s: %.1f ns, %s %.1f ns, ratio %.2f\n", what, a / 1000, peer, b / 1000, a / b }'
}
say "put and take" put "Box::new and drop" put
say "lend and give_back" lend "Arc::clone and drop" lend
say "an array of 1,000,000 places begun" room "Vec::with_capacity" room
say "a place built, written and sealed" write "of a Vec filled by index" write
say "the same" write "of a Vec by push" push
