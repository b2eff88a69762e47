#!/bin/sh
# Refuses each request for memory of a pool's `reserve` and `build` in turn: the pool's own seven come first, those of
# `reserve` and `build` are the 8th to the 12th. After each refusal the pool holds what it held, and takes another value.
cd "$(dirname "$0")/../../crates/test_pool" || exit 1
failed=0
for n in 8 9 10 11 12; do
    said=$(rt try --test --fail-alloc "$n" 2>&1)
    for test in a_pool_that_is_refused_room_is_as_it_was a_pool_that_is_refused_an_array_is_as_it_was; do
        if echo "$said" | grep -q "^test tests::$test ... ok"; then
            echo "request $n: $test ok"
        else
            echo "request $n: $test FAILED"
            failed=1
        fi
    done
done
exit $failed
