#!/bin/bash
# Times reading, checking and writing a unit of 65,535 nodes beside CPython's xml.etree, which parses and serialises an XML
# file of as many elements, in turns in one run. Then the same of a record of 60,000 fields, of a function of 60,000
# results, and of 60,000 types in chains 62 deep, with the part of each type before it (first) and behind it (last),
# each beside half as many. Then the answers that marks and machines ask of a unit, found for the first one and for one of
# 13,107 Selects with 65,535 nodes in all, beside reading and checking its text. It prints milliseconds, the least of some
# rounds, without the start of the program (`sisal if1`, and bench_units for the answers). Run it at the top of the repository, on
# an idle machine; the argument is the rounds. SISAL may name a program that is built already.
set -e
rounds=${1:-5}
build=$(mktemp -d)
trap 'rm -rf "$build"' EXIT
python3 bench/if1/texts.py "$build/long.if1" "$build/long.xml"
python3 bench/if1/parts.py "$build/parts.if1" 13107
printf 'T 1 1 3\n' >"$build/short.if1"
for kind in record function; do
    for width in 30000 60000; do
        python3 bench/if1/wide.py "$build/$kind$width.if1" "$kind" "$width"
    done
done
for side in first last; do
    for width in 30000 60000; do
        python3 bench/if1/deep.py "$build/$side$width.if1" "$side" "$width"
    done
done

sisal=${SISAL:-./sisal}
units=$(bench/built.sh units)

milliseconds() { # a text
    local begin end
    begin=$(date +%s%N)
    "$sisal" if1 <"$1" >"$build/printed"
    end=$(date +%s%N)
    echo $(((end - begin) / 1000000))
}
declare -A least
keep() { [ -n "${least[$1]}" ] && awk -v a="${least[$1]}" -v b="$2" 'BEGIN { exit !(a <= b) }' || least[$1]=$2; }
answered() { # a text
    local read found
    "$units" answers <"$build/$1.if1" 2>"$build/times" >"$build/answers $1"
    read -r read found <"$build/times"
    keep "read $1" "$read"
    keep "answers $1" "$found"
}
for ((i = 0; i < rounds; i++)); do
    keep xml "$(python3 bench/if1/beside.py "$build/long.xml" 1)"
    keep short "$(milliseconds "$build/short.if1")"
    keep long "$(milliseconds "$build/long.if1")"
    for wide in {record,function,first,last}{30000,60000}; do
        keep "$wide" "$(milliseconds "$build/$wide.if1")"
    done
    answered long
    answered parts
done
awk -v a="${least[long]}" -v s="${least[short]}" -v b="${least[xml]}" \
    'BEGIN { printf "read, check and write %.1f ms, xml.etree %.1f ms, ratio %.2f\n", a - s, b, (a - s) / b }'
for kind in record function first last; do
    awk -v k="$kind" -v a="${least[${kind}60000]}" -v b="${least[${kind}30000]}" -v s="${least[short]}" \
        'BEGIN { printf "%s of 60,000 %.1f ms, of 30,000 %.1f ms, ratio %.2f\n", k, a - s, b - s, (a - s) / (b - s) }'
done
for text in long parts; do
    awk -v t="$text" -v r="${least[read $text]}" -v a="${least[answers $text]}" -v w="$(paste -sd ' ' "$build/answers $text")" \
        'BEGIN { printf "answers of %s: %s; read %.1f ms, answers %.1f ms, ratio %.2f\n", t, w, r / 1e6, a / 1e6, a / r }'
done
