#!/bin/bash
# Tells what runs take of memory: a loop of 1,000,000 turns that gathers an array of 100 in each and keeps the last one,
# 1,000,000 calls one after another, and a stream of 1,000,000 taken apart to its end (megabytes, of which no run is told fewer
# than the 14 or so of the process that starts it); a call that is open, as the share of all memory of a recursion 1,000,000 deep
# (bytes); and how much longer 3,000,000 updates of one place of an array of 4,194,304 elements take
# than of one of 4, by the processor's time, the array's own left out. Run it at the top of the repository; SISAL may name the
# program.
set -e
sisal=${SISAL:-./sisal}
build=$(mktemp -d)
trap 'rm -rf "$build"' EXIT
"$sisal" --version >/dev/null
cat >"$build/turns.sis" <<'S'
define main
function main(n: integer returns integer)
    for initial
        i := 0;
        a := array [1: 0]
    while i < n repeat
        i := old i + 1;
        a := for j in 1, 100 returns array of i + j end for
    returns value of a[100]
    end for
end function
S
cat >"$build/calls.sis" <<'S'
define main
function f(a: array[integer]; i: integer returns integer) a[1] + array_size(a) + i end function
function main(n: integer returns integer)
    for initial
        i := 0;
        s := 0;
        a := array [1: 1, 2, 3]
    while i < n repeat
        i := old i + 1;
        s := old s + f(a, i)
    returns value of s
    end for
end function
S
cat >"$build/stream.sis" <<'S'
define main
function main(n: integer returns integer)
    for initial
        s := for i in 1, n returns stream of i end for;
        t := 0
    while ~stream_empty(s) repeat
        t := old t + stream_first(old s);
        s := stream_rest(old s)
    returns value of t
    end for
end function
S
cat >"$build/deep.sis" <<'S'
define main
function f(n: integer returns integer) if n = 0 then 0 else 1 + f(n - 1) end if end function
function main(n: integer returns integer) f(n) end function
S
cat >"$build/update.sis" <<'S'
define main
function main(n, m: integer returns integer)
    for initial
        i := 0;
        a := array_fill(1, n, 0)
    while i < m repeat
        i := old i + 1;
        a := old a[2: old a[2] + i]
    returns value of a[2]
    end for
end function
S

# the kilobytes and the processor's seconds that a program takes on these words
took() {
    python3 - "$sisal" "$build/$1.sis" "${@:2}" <<'P'
import resource, subprocess, sys
ran = subprocess.run([sys.argv[1], "run", "--limit", "1099511627776", *sys.argv[3:]], stdin=open(sys.argv[2]), stdout=subprocess.DEVNULL)
used = resource.getrusage(resource.RUSAGE_CHILDREN)
print(used.ru_maxrss, used.ru_utime + used.ru_stime)
sys.exit(ran.returncode)
P
}
for name in turns calls stream; do
    read -r kilobytes _ < <(took $name 1000000)
    awk -v n=$name -v k="$kilobytes" 'BEGIN { printf "%s: %.1f MB\n", n, k * 1024 / 1e6 }'
done
read -r many _ < <(took deep 1000000)
awk -v b="$many" 'BEGIN { printf "an open call: at most %.0f bytes\n", b * 1024 / 1e6 }'
read -r _ made < <(took update 4194304 1)
read -r _ large < <(took update 4194304 3000000)
read -r _ small < <(took update 4 3000000)
awk -v a="$made" -v b="$large" -v c="$small" 'BEGIN { printf "an update of 4,194,304 elements: %.2f times one of 4\n", (b - a) / c }'
