#!/bin/bash
# Times the type checker beside the lexer and parser on the 4 MB text of bench/parse, in turns: `sisal mean` with an entry that the
# text does not have lexes, parses and checks it, and refuses the entry; of a text whose define list names no function, it is the
# first look at types that refuses, and the difference is the checker's time. It prints seconds, the least of some rounds, and
# the memory of both a byte of text. All times are of the whole program without its start. Run it at the top of the repository,
# on an idle machine; the argument is the rounds. SISAL may name a program that is built already.
source bench/long_text.sh

for size in short long; do sed 's/^define .*/define nosuch/' "$build/$size.sis" >"$build/$size.parse"; mv "$build/$size.sis" "$build/$size.check"; done
program=${SISAL:-./sisal}

milliseconds() { # a text
    local begin end
    begin=$(date +%s%N)
    "$program" mean --entry nosuch <"$1" 2>"$build/refused" || true
    end=$(date +%s%N)
    echo $(((end - begin) / 1000000))
}
peak() { # parse or check: the bytes that it takes for the long text
    python3 - "$program" "$build/long.$1" <<'PY'
import resource, subprocess, sys
subprocess.run([sys.argv[1], "mean", "--entry", "nosuch"], stdin=open(sys.argv[2]), stdout=subprocess.DEVNULL, stderr=subprocess.DEVNULL)
print(resource.getrusage(resource.RUSAGE_CHILDREN).ru_maxrss * 1024)
PY
}

declare -A least
keep() { [ -n "${least[$1]}" ] && [ "${least[$1]}" -le "$2" ] || least[$1]=$2; }
for ((i = 0; i < rounds; i++)); do
    for size in short long; do
        keep "parser $size" "$(milliseconds "$build/$size.parse")"
        keep "checker $size" "$(milliseconds "$build/$size.check")"
    done
done
parsed=$((least[parser long] - least[parser short]))
all=$((least[checker long] - least[checker short]))
awk -v a=$((all - parsed)) -v b=$parsed \
    'BEGIN { printf "check %.3f s, lex and parse %.3f s, ratio %.2f\n", a / 1000, b / 1000, a / b }'
awk -v p="$(peak check)" -v q="$(peak parse)" -v n="$(stat -c %s "$build/long.check")" \
    'BEGIN { printf "memory %.1f bytes a byte of text, %.1f without the check\n", p / n, q / n }'
