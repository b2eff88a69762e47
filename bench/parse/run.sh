#!/bin/bash
# Times lexing and parsing of a SISAL text of 4 MB beside CPython's ast.parse on a Python text of the same size and shape, in
# turns, and prints seconds, the least of some rounds, and the memory of ours a byte of text. Ours is `sisal mean` of a text whose
# define list names no function of it: it is read to its end and parsed, and refused by the first look at its types. Both times
# are of the whole program without its start. Run it at the top of the repository, on an idle machine; the argument is the rounds.
# SISAL may name a program that is built already.
set -e
rounds=${1:-5}
build=$(mktemp -d)
trap 'rm -rf "$build"' EXIT
python3 bench/parse/texts.py "$build/long.sis" "$build/long.py"
sed -i 's/^define .*/define nosuch/' "$build/long.sis"
printf 'define nosuch\n' >"$build/short.sis"
printf 'x = 1\n' >"$build/short.py"
ours=${SISAL:-./sisal}
cat >"$build/theirs.py" <<'PY'
import ast, sys
print(len(ast.parse(open(sys.argv[1]).read()).body))
PY

. bench/milliseconds.sh
ours_on() { "$ours" mean <"$1" 2>"$build/refused" || grep -q "type rule" "$build/refused"; }

declare -A least
keep() { [ -n "${least[$1]}" ] && [ "${least[$1]}" -le "$2" ] || least[$1]=$2; }
for ((i = 0; i < rounds; i++)); do
    for size in short long; do
        keep "ours $size" "$(milliseconds ours_on "$build/$size.sis")"
        keep "theirs $size" "$(milliseconds python3 "$build/theirs.py" "$build/$size.py")"
    done
done
a=$((least[ours long] - least[ours short]))
b=$((least[theirs long] - least[theirs short]))
awk -v a=$a -v b=$b 'BEGIN { printf "lex and parse %.3f s, ast.parse %.3f s, ratio %.2f\n", a / 1000, b / 1000, a / b }'
peak=$(python3 - "$ours" "$build/long.sis" <<'PY'
import resource, subprocess, sys
subprocess.run([sys.argv[1], "mean"], stdin=open(sys.argv[2]), stdout=subprocess.DEVNULL, stderr=subprocess.DEVNULL)
print(resource.getrusage(resource.RUSAGE_CHILDREN).ru_maxrss * 1024)
PY
)
awk -v p="$peak" -v n="$(stat -c %s "$build/long.sis")" 'BEGIN { printf "memory %.1f bytes a byte of text\n", p / n }'
