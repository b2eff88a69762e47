#!/bin/bash
# Times translating the 4 MB text of bench/parse and printing its graphs beside lexing, parsing and checking it: the command
# `compile` beside `mean` with an entry that the text does not have, which checks the text and refuses the entry, and bench_units,
# which makes the marks and the code of what `compile` printed. It prints seconds, the least of some rounds; beside them the
# whole command `run` of one of its functions, whose share is small, and its ratio to lexing, parsing and checking; then the
# memory of `compile` a byte of text, beside that of the check alone; then how long loops nested in the clauses of others are
# refused in, 21 deep, and 20 deep with a large phrase inside. Run it at the top of the repository, on an idle machine; the
# argument is the rounds. SISAL and BENCH_UNITS may name programs that are built already.
source bench/long_text.sh
python3 - "$build" <<'PY'
import sys
def nested(phrase, depth):
    for _ in range(depth):
        phrase = f"for initial i := 1 while i < 1 repeat i := old i + 1 returns value of {phrase} end for"
    return f"define main\nfunction main(n: integer returns integer)\n{phrase}\nend function\n"
open(sys.argv[1] + "/few.sis", "w").write(nested("n", 21))
open(sys.argv[1] + "/many.sis", "w").write(nested("array_size(array [1: n" + ", n + 1" * 60000 + "])", 20))
PY

sisal=${SISAL:-./sisal}
units=$(bench/built.sh units)

milliseconds() { # a text, a program and its words
    local begin end text=$1
    shift
    begin=$(date +%s%N)
    "$@" <"$text" >"$build/printed" 2>"$build/refused" || true
    end=$(date +%s%N)
    echo $(((end - begin) / 1000000))
}
peak() { # a program, its words: the bytes that it takes for the long text
    python3 - "$build/long.sis" "$@" <<'PY'
import resource, subprocess, sys
subprocess.run(sys.argv[2:], stdin=open(sys.argv[1]), stdout=subprocess.DEVNULL, stderr=subprocess.DEVNULL)
print(resource.getrusage(resource.RUSAGE_CHILDREN).ru_maxrss * 1024)
PY
}

declare -A least
keep() { [ -n "${least[$1]}" ] && [ "${least[$1]}" -le "$2" ] || least[$1]=$2; }
for ((i = 0; i < rounds; i++)); do
    keep checked "$(milliseconds "$build/long.sis" "$sisal" mean --entry nosuch)"
    keep compiled "$(milliseconds "$build/long.sis" "$sisal" compile)"
    cp "$build/printed" "$build/long.if1"
    "$units" code <"$build/long.if1" >"$build/printed" 2>"$build/times"
    read -r _ marked coded <"$build/times"
    keep marked $((marked / 1000000))
    keep coded $((coded / 1000000))
    keep whole "$(milliseconds "$build/long.sis" "$sisal" run --entry f1 3 "[1: 100]")"
    cat "$build/refused"
    for size in few many; do
        keep "checker $size" "$(milliseconds "$build/$size.sis" "$sisal" mean --entry nosuch)"
        keep "compile $size" "$(milliseconds "$build/$size.sis" "$sisal" compile)"
        cat "$build/refused"
    done
done
awk -v w="${least[compiled]}" -v m="${least[marked]}" -v c="${least[checked]}" 'BEGIN {
    printf "translate and print %.3f s, lex, parse and check %.3f s, ratio %.2f; mark %.3f s\n", (w - m - c) / 1e3, c / 1e3, (w - m - c) / c, m / 1e3 }'
awk -v m="${least[marked]}" -v k="${least[coded]}" -v w="${least[whole]}" -v c="${least[checked]}" 'BEGIN {
    printf "run %.3f s, ratio %.2f: lex, parse and check %.3f s, mark %.3f s, code %.3f s\n", w / 1e3, w / c, c / 1e3, m / 1e3, k / 1e3 }'
awk -v p="$(peak "$sisal" compile)" -v q="$(peak "$sisal" mean --entry nosuch)" -v n="$(stat -c %s "$build/long.sis")" \
    'BEGIN { printf "memory %.1f bytes a byte of text, %.1f for the check alone\n", p / n, q / n }'
echo "nested loops: compile ${least[compile few]} ms, check ${least[checker few]} ms; with a large phrase ${least[compile many]} and ${least[checker many]} ms"
