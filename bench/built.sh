#!/bin/bash
# Builds a program that the benches time, bench_pool or bench_units (the argument is what stands behind bench_), and prints its
# path. Where it is built already, the variable BENCH_POOL or BENCH_UNITS may tell the path instead. Run it at the top of the
# repository.
name=bench_$1 folder=crates/bench_$1 told=BENCH_${1^^}
program=${!told}
if [ -z "$program" ]; then
    log=$(mktemp)
    trap 'rm -f "$log"' EXIT
    (cd "$folder" && rt run <stdin) >"$log" 2>&1 || { cat "$log" >&2; exit 1; }
    program=$(find "$folder/out" -type f -perm -u+x -name "$name*" | head -1)
fi
[ -x "$program" ] || { echo "no program $name in $folder/out: set $told" >&2; exit 1; }
echo "$program"
