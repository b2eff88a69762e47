#!/bin/bash
# Times what could be quadratic, each at a size and at half of it, whole commands by turns in one run: a stream taken apart from
# its front to its end, an array taken apart from its front, and one that grows there, by `run`; lines of records,
# each of two of the one before, with a word read at the last one; a `tagcase` over each of many tags of a union. It prints
# seconds and megabytes, the least of some rounds, and how many times those of the half the whole takes (the aim is at most
# 2.5). Run it at the top of the repository, on an idle machine; the argument is the rounds. SISAL may name a program that is
# built already.
set -e
rounds=${1:-3}
export SISAL=${SISAL:-./sisal}
build=$(mktemp -d)
trap 'rm -rf "$build"' EXIT
python3 - "$build" "$rounds" <<'PY'
import os, resource, subprocess, sys, time

folder, rounds = sys.argv[1], int(sys.argv[2])


def loop(first, goes_on, taken):
    return f"""define main
function main(n: integer returns integer)
    for initial
        s := {first};
        t := 0
    while {goes_on} repeat
        {taken}
    returns value of t
    end for
end function
"""


STREAM = loop("for i in 1, n returns stream of i end for", "~stream_empty(s)", "t := old t + stream_first(old s); s := stream_rest(old s)")
SHORTER = loop("for i in 1, n returns array of i end for", "array_size(s) > 0", "t := old t + old s[array_liml(old s)]; s := array_reml(old s)")
LONGER = loop("for i in 1, 0 returns array of i end for", "array_size(s) < n", "t := old t + 1; s := array_addl(old s, old t)")


def records(lines):
    types = "".join(f"type pair{i} = record[a, b: pair{i - 1}]\n" for i in range(1, lines))
    return f"define main\ntype pair0 = integer\n{types}function main(r: pair{lines - 1} returns integer)\n1\nend function\n"


def tags(count):
    names = [f"t{i}" for i in range(count)]
    union = f"type U = union[{'; '.join(f'{n}: integer' for n in names)}]\n"
    cases = "; ".join(f"c{i} := tagcase u tag {n}: 1 otherwise: 0 end tagcase" for i, n in enumerate(names))
    return f"define main\n{union}function main(n: integer returns integer)\nlet u := union U[t0: n]; {cases} in c0 end let\nend function\n"


def measure(text, words):
    best, most = None, None
    for _ in range(rounds):
        with open(f"{folder}/text.sis", "w") as it:
            it.write(text)
        begin = time.monotonic()
        with open(f"{folder}/text.sis") as source, open(f"{folder}/printed", "w") as out:
            it = subprocess.Popen([os.environ["SISAL"], *words], stdin=source, stdout=out, stderr=out)
            _, status, used = os.wait4(it.pid, 0)
        spent = time.monotonic() - begin
        best = spent if best is None else min(best, spent)
        most = used.ru_maxrss if most is None else min(most, used.ru_maxrss)
    with open(f"{folder}/printed") as it:
        return best, most, it.read(60).strip().split("\n")[0]


def row(name, size, text, words):
    half, memory_half, _ = measure(text(size // 2), words(size // 2))
    whole, memory, printed = measure(text(size), words(size))
    print(f"{name}, {size:,}: {whole:.3f} s, {whole / half:.2f} times the half; {memory / 1024:.1f} MB, {memory / memory_half:.2f} times; {printed}", flush=True)


for name, text in [("a stream taken apart", STREAM), ("an array taken apart at its front", SHORTER), ("an array that grows at its front", LONGER)]:
    row(f"run: {name}", 1000000, lambda _: text, lambda size: ["run", str(size)])
for command in ["mean", "run"]:
    row(f"{command}: lines of records", 60, records, lambda _: [command, "error"])
row("mean: tags and a tagcase for each", 16000, tags, lambda _: ["mean", "1"])
PY
