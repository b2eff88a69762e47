#!/bin/bash
# Runs each example on the command lines that the comments at its head give, and compares what is printed with the file
# beside it, the line and the status of a refusal too. Run it at the top of the repository. The arguments are the program with
# its first words, ./sisal without any.
if [ $# -eq 0 ]; then
    set -- ./sisal
    ./sisal --version >/dev/null || exit 1
fi
difference=$(mktemp)
line=$(mktemp)
trap 'rm -f "$difference" "$line"' EXIT

printed() { # a text, a program: what the text's command lines print, one after another
    local call text=$1 status
    shift
    sed -n 's|^[%C] *\./sisal ||p' "$text" | while IFS= read -r call; do
        eval "\"\$@\" $call" 2>"$line"
        status=$?
        [ $status -eq 0 ] || { tail -n 1 "$line" && echo "status $status"; }
    done
}

right=0 wrong=0
for text in examples/*.sis examples/*.if1; do
    if printed "$text" "$@" | diff - "${text%.*}.out" >"$difference" 2>&1; then
        right=$((right + 1))
    else
        wrong=$((wrong + 1))
        echo "$text: < is printed, > is stored"
        cat "$difference"
    fi
done
echo "$right examples right, $wrong wrong"
[ $wrong -eq 0 ]
