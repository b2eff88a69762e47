#!/bin/bash
# Times reading and printing the value text of an array of a million integers beside CPython's json.loads and
# json.dumps on the same list, in turn, and prints milliseconds, the least of some rounds. Both print the length and
# a checksum of the text, which are compared. Then it times the copy of such an array beside `clone` of a Vec of an enum of
# 40 bytes in Rust, in turn, each the least of ten copies of some rounds; freed memory is kept, so that neither waits for the
# system. Run it at the top of the repository, on an idle machine.
set -e
rounds=${1:-5}
build=$(mktemp -d)
trap 'rm -rf "$build"' EXIT
program=$(bench/built.sh pool)
rustc -O -o "$build/peer" bench/values/peer.rs

timed() { # what ours is called, its word, what the peer is called, the peer: both print the same, and their nanoseconds as errors
    local i a b least='' least_peer=''
    for ((i = 0; i < rounds; i++)); do
        "$program" "$2" </dev/null >"$build/printed" 2>"$build/time"
        "${@:4}" >"$build/peer_printed" 2>"$build/peer_time"
        cmp "$build/printed" "$build/peer_printed"
        a=$(<"$build/time") b=$(<"$build/peer_time")
        [ -n "$least" ] && [ "$least" -le "$a" ] || least=$a
        [ -n "$least_peer" ] && [ "$least_peer" -le "$b" ] || least_peer=$b
    done
    awk -v ours="$1" -v peer="$3" -v a="$least" -v b="$least_peer" \
        'BEGIN { printf "%s %.1f ms, %s %.1f ms, ratio %.2f\n", ours, a / 1e6, peer, b / 1e6, a / b }'
}
timed "value text" values-long json python3 bench/values/beside.py long

export MALLOC_MMAP_THRESHOLD_=1000000000 MALLOC_TRIM_THRESHOLD_=2000000000
timed "copy of an array" copy-long "clone of a Vec" "$build/peer"
