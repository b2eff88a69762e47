#!/usr/bin/env bash
# Tries the launcher, the release and .ci/run in every case that docs/PROGRAM.md tells of, in a stand-in for this repository
# with a stand-in for rt: nothing is proved, and it takes half a minute. It needs no toolchain, but python3.
top=$(dirname -- "$(readlink -f -- "${BASH_SOURCE[0]}")")/..
room=$(mktemp -d)
trap 'chmod -R u+w "$room"; rm -rf "$room"' EXIT
chmod 755 "$room"
right=0 wrong=0

# A stand-in for rt. A crate whose sources say so is not proved; the program prints what its source says, its words and its text.
mkdir "$room/bin"
cat >"$room/bin/rt" <<'RT'
#!/usr/bin/env bash
echo "$1 $2" >>"$ROOM/calls"
make() {
    { echo '#!/usr/bin/env bash'; cat src/main.rt; } >out/sisal_main
    chmod +x out/sisal_main
}
proves() { ! grep -rq 'wrong' "crates/$1/src"; }
case $1 in
version) cat "$ROOM/version" ;;
all)
    failed=0
    while IFS=: read -r name _; do
        sleep "$(cat "$ROOM/pause")"
        echo "== $name"
        if proves "$name"; then
            [ "$name" != low ] || echo 'logic=proved'
        else
            echo 'logic=not-proved'
            failed=1 said+="$name: failed (1)"$'\n'
        fi
    done <crates.txt
    printf '== summary\n%s' "$said"
    exit $failed
    ;;
run)
    rm -f out/sisal_main.stamp
    (cd ../.. && proves low && proves sisal_main) || exit 1
    mkdir -p out && make && touch out/sisal_main.stamp
    ;;
ci)
    : >.git/rt-ci.lock
    rm -rf crates/*/out
    proves low && proves sisal_main && cd crates/sisal_main && mkdir out && sleep 0.05 && make || exit 1
    ;;
esac
RT
chmod +x "$room/bin/rt"

new() { # a repository in $repo, with no program
    repo="$room/a place/sisal"
    chmod -R u+w "$room/a place" 2>/dev/null
    rm -rf "$room/a place"
    mkdir -p "$repo"/.git "$repo"/.ci "$repo"/crates/{low,sisal_main,beside}/src "$repo/release"
    cp "$top/sisal" "$repo/"
    cp "$top/.ci/run" "$repo/.ci/"
    cp "$top"/release/*.sh "$repo/release/"
    printf 'low:\nsisal_main: low\nbeside: low # no part of the program\n' >"$repo/crates.txt"
    echo 'one' >"$repo/crates/low/src/lib.rt"
    echo 'other' >"$repo/crates/beside/src/lib.rt"
    say_in_source first
    : >"$room/calls"
    echo 0 >"$room/pause"
    echo 'stand-in 1' >"$room/version"
    sleep 0.05
}
say_in_source() {
    cat >"$repo/crates/sisal_main/src/main.rt" <<P
echo "$1: \$#"
printf '<%s>\n' "\$@"
[ "\$1" != read ] || cat
[ "\$1" != status ] || exit "\$2"
P
    sleep 0.05
}
release_of_it() { # as release/make.sh leaves it, but with no git
    (cd "$repo" && env "${ours[@]}" release/make.sh abc1234) >/dev/null 2>&1
    sleep 0.05
}
unbuilt() { rm -rf "$repo"/crates/*/out "$repo/.git/rt-ci.lock"; }
builds() { grep -c '^all' "$room/calls"; }
is_building() { # waits until rt proves
    local i
    for ((i = 0; i < 100; i++)); do
        grep -q '^all' "$room/calls" && return
        sleep 0.1
    done
}

ours=(PATH="$room/bin:/usr/local/bin:/usr/bin:/bin" ROOM="$room")
without_rt=(PATH="$room/none:/usr/local/bin:/usr/bin:/bin" ROOM="$room")
mkdir "$room/none"
for tool in /usr/local/bin/* /usr/bin/* /bin/*; do
    [ "$(basename "$tool")" = rt ] || ln -sf "$tool" "$room/none/" 2>/dev/null
done
without_rt=(PATH="$room/none" ROOM="$room")

call() { # words of a call; its status, output and errors
    env "${ours[@]}" "$@" >"$room/out" 2>"$room/err" </dev/null
    status=$?
}
expect() { # what is tried, the status, a line of output or -, a pattern of errors or - for none
    local why=
    [ "$status" = "$2" ] || why="status $status, not $2"
    [ "$3" = - ] || grep -qxF -- "$3" "$room/out" || why+=" no line '$3'"
    if [ "$4" = - ]; then
        [ ! -s "$room/err" ] || why+=" something on standard error"
    else
        grep -q -- "$4" "$room/err" || why+=" no '$4' on standard error"
    fi
    tell "$1" "$why"
}
tell() { # what is tried, and what is wrong, if anything
    if [ -z "$2" ]; then
        right=$((right + 1))
        echo "right: $1"
    else
        wrong=$((wrong + 1))
        echo "WRONG: $1: $2"
        sed 's/^/    > /' "$room/out"
        sed 's/^/    ! /' "$room/err"
    fi
}

# A first build, and calls after it
new
call "$repo/sisal" mean 'two words' ''
expect "a first call proves, builds and runs" 0 "first: 3" "2 of 2 crates proved"
expect "words with blanks, and none, are handed on" 0 "<two words>" "proving"
grep -q beside "$room/err" && why="beside was proved" || why=
tell "only the crates of the program are proved" "$why"
call "$repo/sisal" mean
expect "a second call runs at once" 0 "first: 1" -
tell "... and builds nothing" "$([ "$(builds)" = 1 ] || echo "$(builds) builds")"
call "$repo/sisal" status 7
expect "the program's status is handed on" 7 "<7>" -
env "${ours[@]}" "$repo/sisal" read <<<"a text" >"$room/out" 2>"$room/err"
status=$?
expect "the program's text is handed on" 0 "a text" -
ln -s "$repo/sisal" "$room/a place/link"
cd / || exit 1
call "$room/a place/link" mean
expect "a symbolic link, from another folder" 0 "first: 1" -
call "$repo/sisal" --build
expect "--build where all is built" 0 - "built"
tell "... builds nothing" "$([ "$(builds)" = 1 ] || echo "$(builds) builds")"

# Sources that changed
touch "$repo/crates/low/src/lib.rt"
call "$repo/sisal" mean
expect "a source with a new time and the same text" 0 "first: 1" -
echo 'other than before' >"$repo/crates/beside/src/lib.rt"
call "$repo/sisal" mean
expect "a crate that the program doesn't stand on changed" 0 "first: 1" -
tell "... neither builds" "$([ "$(builds)" = 1 ] || echo "$(builds) builds")"
say_in_source second
call "$repo/sisal" mean
expect "a source changed: it is built again" 0 "second: 1" "proving"
echo 'wrong' >"$repo/crates/low/src/lib.rt"
call "$repo/sisal" mean
expect "a source is no longer proved: nothing is run" 126 - "low: failed"
expect "... the crate is named" 126 - "low is not proved"
call "$repo/sisal" mean
expect "... the second time too" 126 - "could not be built"
tell "... and nothing was printed" "$([ ! -s "$room/out" ] || echo "output")"
echo 'one' >"$repo/crates/low/src/lib.rt"
call "$repo/sisal" mean
expect "the text that was built stands again" 0 "second: 1" -
rm "$repo/crates/low/src/lib.rt"
call "$repo/sisal" mean
expect "a source was removed" 0 "second: 1" "proving"
echo 'one' >"$repo/crates/low/src/lib.rt"
sed -i 's/^sisal_main: low/sisal_main: low beside/' "$repo/crates.txt"
call "$repo/sisal" mean
expect "crates.txt changed: it is built again" 0 "second: 1" "3 of 3 crates proved"
cp "$repo/crates/sisal_main/out/sisal_main" "$room/old"
echo 'echo another program' >>"$repo/crates/sisal_main/out/sisal_main"
call "$repo/sisal" mean
expect "the program's file was changed: it is built again" 0 "second: 1" "proving"
rm -f "$repo"/crates/sisal_main/out/sisal_main.built
call "$repo/sisal" mean
expect "a program of which nothing is noted is not run" 0 "second: 1" "proving"

new
mkdir "$repo/crates/low/proofs"
echo 'one' >"$repo/crates/low/proofs/Lib.antt"
call "$repo/sisal" mean
sleep 0.05
echo 'two' >"$repo/crates/low/proofs/Lib.antt"
call "$repo/sisal" mean
expect "a proof changed, and no source: the program is the same" 0 "first: 1" -
call "$repo/sisal" mean
expect "... the second time too" 0 "first: 1" -
tell "... and nothing is built" "$([ "$(builds)" = 1 ] || echo "$(builds) builds")"
call "$repo/sisal" --build
expect "... but --build proves it again" 0 - "2 of 2 crates proved"

# What can't be built
new
env "${without_rt[@]}" "$repo/sisal" mean >"$room/out" 2>"$room/err"
status=$?
expect "no rt on the path" 126 - "rt is not on the path"
new
chmod -R a-w "$repo"
drop=()
[ "$(id -u)" != 0 ] || drop=(setpriv --reuid=65534 --regid=65534 --clear-groups)
call "${drop[@]}" "$repo/sisal" mean
expect "a checkout that can't be written, with no program" 126 - "can't be written"
new
call "$repo/sisal" mean
sleep 0.05
find "$repo/crates" -name '*.rt' -exec touch {} +
chmod -R a-w "$repo"
call "${drop[@]}" "$repo/sisal" mean
expect "a checkout that can't be written, with a program of these texts" 0 "first: 1" -

# Two calls at once, and builds that are cut short
new
echo 0.8 >"$room/pause"
env "${ours[@]}" "$repo/sisal" one >"$room/one" 2>&1 &
is_building
call "$repo/sisal" two
expect "two calls at once: the second waits" 0 "<two>" "waiting"
wait
tell "... the first runs too" "$(grep -q '<one>' "$room/one" || echo "it did not")"
tell "... and one builds" "$([ "$(builds)" = 1 ] || echo "$(builds) builds")"
new
echo 0.8 >"$room/pause"
env "${ours[@]}" "$repo/sisal" one >"$room/out" 2>"$room/err" &
is_building
say_in_source second
wait $!
status=$?
expect "a source changed while it is built" 126 - "changed while they were built"
echo 0 >"$room/pause"
call "$repo/sisal" mean
expect "... the next call builds again" 0 "second: 1" "proving"
new
echo 0.8 >"$room/pause"
env "${ours[@]}" "$repo/sisal" one >"$room/out" 2>"$room/err" &
is_building
touch "$repo/crates/low/src/lib.rt"
wait $!
status=$?
expect "a source with a new time and the same text while it is built" 0 "first: 1" "proving"
for signal in INT TERM KILL; do
    new
    echo 0.8 >"$room/pause"
    # (in Python, since a shell has its own calls ignore an interrupt)
    call python3 -c '
import os, signal, subprocess, sys, time
run = subprocess.Popen([sys.argv[2], "mean"], preexec_fn=lambda: signal.signal(signal.SIGINT, signal.SIG_DFL))
while "all" not in open(sys.argv[3]).read():
    time.sleep(0.1)
run.send_signal(getattr(signal, "SIG" + sys.argv[1]))
status = run.wait()
sys.exit(status if status >= 0 else 128 - status)' "$signal" "$repo/sisal" "$room/calls"
    if [ "$signal" = KILL ]; then
        tell "a build's launcher is killed" "$([ "$status" = 137 ] || echo "status $status")"
    else
        expect "a build is ended by $signal" 126 - "the build was ended"
        sleep 2
        tell "... and nothing of it goes on" "$([ ! -e "$repo/.git/sisal-build/crates/sisal_main/out/sisal_main" ] || echo "it does")"
    fi
    echo 0 >"$room/pause"
    call "$repo/sisal" mean
    expect "... the next call builds and runs" 0 "first: 1" "sisal"
done

# What rt itself has built
new
(cd "$repo" && env "${ours[@]}" rt ci)
call "$repo/sisal" mean
expect "after a whole rt ci its program is run" 0 "first: 1" -
tell "... and nothing is built" "$([ "$(builds)" = 0 ] || echo "$(builds) builds")"
say_in_source second
call "$repo/sisal" mean
expect "... but not once a source has changed" 0 "second: 1" "proving"
new
(cd "$repo" && env "${ours[@]}" rt ci)
say_in_source second
call "$repo/sisal" mean
expect "a source changed behind rt ci, before the first call" 0 "second: 1" "proving"
new
(cd "$repo/crates/sisal_main" && env "${ours[@]}" rt run)
sleep 0.05
call "$repo/sisal" mean
expect "after rt run its program is run" 0 "first: 1" -

# The release
new
release_of_it
unbuilt
: >"$room/calls"
call "$repo/sisal" mean
expect "the release of these sources is run, silently" 0 "first: 1" -
env "${without_rt[@]}" "$repo/sisal" mean >"$room/out" 2>"$room/err"
status=$?
expect "... also where there is no rt" 0 "first: 1" -
call "$repo/sisal" status 5
expect "... its status is handed on" 5 "<5>" -
call "$repo/sisal" mean
expect "... and again" 0 "first: 1" -
say_in_source second
call "$repo/sisal" mean
expect "the release of other sources is run, and a line says so" 0 "first: 1" "^sisal: release of abc1234; ./sisal --build builds these sources$"
tell "... and nothing is built" "$([ "$(builds)" = 0 ] || echo "$(builds) builds")"
call "$repo/sisal" --build
expect "--build builds these sources" 0 - "2 of 2 crates proved"
call "$repo/sisal" mean
expect "... and they are run, silently" 0 "second: 1" -
say_in_source third
call "$repo/sisal" mean
expect "sources that changed behind a build: the release, and a line" 0 "first: 1" "release of abc1234"
echo 'echo more' >>"$repo/release/sisal"
call "$repo/sisal" mean
expect "a release that is damaged is not run" 126 - "not the file"
sed -i 's/^glibc .*/glibc 99.1/' "$repo/release/NOTE"
call "$repo/sisal" mean
expect "a release for a later C library is not run" 126 - "99.1 or later"

# .ci/run
new
call "$repo/.ci/run"
expect ".ci/run with no release" 0 - "there is none"
release_of_it
call "$repo/.ci/run"
expect ".ci/run with the release of what is built" 0 - "byte for byte"
echo 'stand-in 2' >"$room/version"
call "$repo/.ci/run"
expect "... by another toolchain" 0 - "of another toolchain, stand-in 1"
echo 'stand-in 1' >"$room/version"
say_in_source second
call "$repo/.ci/run"
expect "... of other sources" 0 - "of other sources"
say_in_source first
printf '\n' >>"$repo/release/sisal"
call "$repo/.ci/run"
expect "... that is not the file of its note" 1 - "not the file"
sed -i "s/^program .*/program $(sha256sum <"$repo/release/sisal" | cut -d ' ' -f 1)/" "$repo/release/NOTE"
call "$repo/.ci/run"
expect "... that differs in a byte from what is built" 1 - "it differs"
echo wrong >"$repo/crates/low/src/lib.rt"
call "$repo/.ci/run"
expect ".ci/run where a proof fails" 1 - "of other sources"

echo "$right right, $wrong wrong"
[ $wrong = 0 ]
