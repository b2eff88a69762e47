#!/bin/bash
# Times the command `run` on ten small programs of known benchmarks beside the same programs in Python, whole commands in
# turns, each at a size at which Python takes 0.3 to 1 second: nested sums, a product of matrices, escape times, backtracking
# with appends, the relaxation of a vector in place, counting into places, a sort in place, a doubly recursive function,
# records and unions through a loop, a stream taken apart. It prints seconds, the least of some rounds, without
# the start (that of the size 1), and the ratio. Both must print the same. Run it at the top of the repository, on an idle
# machine; the argument is the rounds.
set -e
rounds=${1:-5}
sisal=${SISAL:-./sisal}
most=1099511627776
build=$(mktemp -d)
trap 'rm -rf "$build"' EXIT
"$sisal" --version >/dev/null

. bench/milliseconds.sh
ours_on() { "$sisal" run --limit $most "$2" <"bench/run/$1.sis"; }
theirs_on() { python3 "bench/run/$1.py" "$2"; }

declare -A least
keep() { [ -n "${least[$1]}" ] && [ "${least[$1]}" -le "$2" ] || least[$1]=$2; }
compare() { # a benchmark, its size
    local i n a b
    for ((i = 0; i < rounds; i++)); do
        for n in 1 "$2"; do
            keep "ours $1 $n" "$(milliseconds ours_on "$1" "$n")"
            mv "$build/printed" "$build/ours"
            keep "theirs $1 $n" "$(milliseconds theirs_on "$1" "$n")"
            cmp "$build/ours" "$build/printed"
        done
    done
    a=$((least[ours $1 $2] - least[ours $1 1]))
    b=$((least[theirs $1 $2] - least[theirs $1 1]))
    awk -v name="$1" -v n="$2" -v a=$a -v b=$b \
        'BEGIN { printf "%s %d: run %.3f s, python %.3f s, ratio %.2f\n", name, n, a / 1000, b / 1000, a / b }'
}

compare sums 2500
compare matrix 160
compare escape 200
compare queens 10
compare relax 2500
compare count 1500000
compare sort 1800
compare fib 31
compare records 800000
compare stream 1000000
