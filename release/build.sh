#!/usr/bin/env bash
# Proves the crates that the program stands on, and no others, side by side, and builds the program into
# crates/sisal_main/out. It works on a copy, in which crates.txt has these crates alone, and keeps the copy, so that after an
# edit only what changed is proved again. The launcher calls it; a line for each crate goes to standard error.
# SISAL_BUILD: the folder of the copy. SISAL_JOBS: how many crates are proved side by side.
top=$(dirname -- "$(readlink -f -- "${BASH_SOURCE[0]}")")/..
cd -- "$top" && top=$PWD || exit 1
if [ -d .git ]; then
    copy=${SISAL_BUILD:-$top/.git/sisal-build} # rt looks at no file in .git, and it goes with the checkout
else
    copy=${SISAL_BUILD:-${XDG_CACHE_HOME:-$HOME/.cache}/sisal-build/$(echo "$top" | sha256sum | cut -c 1-16)}
fi
log=$copy/log

fail() {
    echo "sisal: $1" >&2
    exit 1
}

lines=$(release/sources.sh --crates) || exit 1
{ mkdir -p -- "$copy/crates" && : >"$log"; } 2>/dev/null || fail "$copy can't be written"
: >"$copy/began"
for folder in "$copy"/crates/*/; do
    find "$folder" -mindepth 1 -maxdepth 1 ! -name out -exec rm -rf -- {} + 2>/dev/null
done
names=()
while IFS=: read -r name _; do
    names+=("$name")
    mkdir -p -- "$copy/crates/$name"
    for part in src specs proofs; do
        [ ! -d "crates/$name/$part" ] || cp -R -- "crates/$name/$part" "$copy/crates/$name/" || fail "crates/$name can't be copied"
    done
done <<<"$lines"
for folder in "$copy"/crates/*/; do
    [[ " ${names[*]} " == *" $(basename -- "$folder") "* ]] || rm -rf -- "$folder"
done
echo "$lines" >"$copy/crates.txt"
[ ! -f HANDLES ] || cp -- HANDLES "$copy/HANDLES"
sources=$(release/sources.sh "$copy") || exit 1

# A crate that waits for those below it has a place among these too, so there are twice as many as processors.
jobs=$((2 * $(nproc)))
room=$(($(awk '/^MemAvailable/ { print $2 }' /proc/meminfo 2>/dev/null || echo 8000000) / 2000000))
[ "$room" -ge "$jobs" ] || jobs=$((room > 0 ? room : 1))
jobs=${SISAL_JOBS:-$jobs}

echo "sisal: proving the ${#names[@]} crates of the program, $jobs side by side; the first time takes a while (all is said in $log)" >&2
began=$SECONDS
(cd -- "$copy" && rt all check --jobs "$jobs" </dev/null) 2>&1 | tee -a -- "$log" |
    awk -v all="${#names[@]}" '
        function proved() { printf "sisal: %d of %d crates proved (%s)\n", ++n, all, name; told = 1; fflush() }
        # (of a crate that was proved before nothing is said)
        /^== / { if (name && !told) proved(); name = $2 == "summary" ? "" : $2; told = 0 }
        name && !told && /^logic=proved/ { proved() }
        name && !told && /^logic=|^error|: error[:[]/ { printf "sisal: %s is not proved\n", name; told = 1; fflush() }' >&2
[ "${PIPESTATUS[0]}" -eq 0 ] || {
    sed -n '/^== summary/,$p' "$log" | grep -v ': ok$' >&2
    fail "not all crates are proved; all is said in $log"
}
# rt runs what it has built; it is given no text, and a word that reads none. It leaves its stamp where all is proved.
rm -f -- "$copy/crates/sisal_main/out/sisal_main.stamp"
(cd -- "$copy/crates/sisal_main" && rt run -- --version </dev/null) >>"$log" 2>&1
[ -e "$copy/crates/sisal_main/out/sisal_main.stamp" ] || {
    tail -n 20 -- "$log" >&2
    fail "the program could not be built; all is said in $log"
}
[ "$(release/sources.sh "$copy")" = "$sources" ] || fail "$copy changed while it was built"

program=crates/sisal_main/out/sisal_main
put() {
    mkdir -p -- crates/sisal_main/out && rm -f -- "$program".{built,proved,seen,stamp} &&
        cp -- "$copy/$program" "$program.$$" && mv -- "$program.$$" "$program" &&
        printf 'sources %s\nprogram %s\n' "$sources" "$(sha256sum <"$program" | cut -d ' ' -f 1)" >"$program.built.$$" &&
        mv -- "$program.built.$$" "$program.built" && touch -r "$copy/began" -- "$program.proved"
}
put || fail "crates/sisal_main/out can't be written"
echo "sisal: proved and built in $((SECONDS - began)) seconds" >&2
