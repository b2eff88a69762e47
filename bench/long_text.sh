# Sourced by benches of the 4 MB text of bench/parse, at the top of the repository: the rounds (the argument), a folder that goes
# at the end, and in it the long text and one of a single function.
set -e
rounds=${1:-5}
build=$(mktemp -d)
trap 'rm -rf "$build"' EXIT
python3 bench/parse/texts.py "$build/long.sis" "$build/long.py"
printf 'define f\nfunction f(returns integer) 1 end function\n' >"$build/short.sis"
