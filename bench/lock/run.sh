#!/bin/bash
# Times 4 million steps of the lock with a history beside as many of std::sync::Mutex, in turns, and prints nanoseconds a
# step, the least of some rounds. Run it at the top of the repository, on an idle machine; the argument is the rounds.
set -e
rounds=${1:-10}
build=$(mktemp -d)
trap 'rm -rf "$build"' EXIT
rustc -O -o "$build/mutex" bench/lock/mutex.rs
program=$(bench/built.sh pool)
ours() { "$program" lock "$@"; }

picoseconds() { # the program, the number of workers
    local begin end
    begin=$(date +%s%N)
    "$1" "$2" long >"$build/printed"
    end=$(date +%s%N)
    echo $(((end - begin) / 4000))
}

for workers in 1 2 4; do
    best_lock= best_mutex=
    for ((i = 0; i < rounds; i++)); do
        a=$(picoseconds ours $workers)
        cp "$build/printed" "$build/first"
        b=$(picoseconds "$build/mutex" $workers)
        cmp "$build/first" "$build/printed"
        [ -n "$best_lock" ] && [ "$best_lock" -le "$a" ] || best_lock=$a
        [ -n "$best_mutex" ] && [ "$best_mutex" -le "$b" ] || best_mutex=$b
    done
    awk -v w=$workers -v a="$best_lock" -v b="$best_mutex" \
        'BEGIN { printf "%d workers: %.1f ns a step, Mutex %.1f ns, ratio %.2f\n", w, a / 1000, b / 1000, a / b }'
done
