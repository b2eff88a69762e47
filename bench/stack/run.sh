#!/bin/bash
# The least stack, in KB to within 32, in which the deepest legal text of each form runs: by `mean`, by `run` and by `compile`, and
# deep IF1 texts by `if1`; with the greatest of all on the last line. Then the most memory that a dense text takes for each of its
# bytes (`-1,` again and again as results). Run it at the top of the repository; SISAL may name a program that is built already.
set -e
export SISAL=${SISAL:-./sisal}
build=$(mktemp -d)
trap 'rm -rf "$build"' EXIT
python3 - "$build" <<'PY'
import os, resource, subprocess, sys

folder = sys.argv[1]


def nested(depth, make, inner):
    text = inner
    for _ in range(depth):
        text = make(text)
    return text


FORMS = {
    "parentheses": (lambda e: f"({e})", "n"),
    "a sum on the left": (lambda e: f"{e} + 1", "n"),
    "a sum on the right": (lambda e: f"1 + ({e})", "n"),
    "a sign": (lambda e: f"-({e})", "n"),
    "if": (lambda e: f"if n > 0 then {e} else 0 end if", "n"),
    "if in its test": (lambda e: f"if {e} > 0 then 1 else 0 end if", "n"),
    "let": (lambda e: f"let a := 1 in {e} end let", "n"),
    "let in its definition": (lambda e: f"let a := {e} in a end let", "n"),
    "call": (lambda e: f"f({e})", "n"),
    "selection": (lambda e: f"b[{e}]", "n"),
    "array": (lambda e: f"array_size(array [1: {e}])", "n"),
    "record": (lambda e: f"record R[x: {e}].x", "n"),
    "replace": (lambda e: f"(b[1: {e}])[1]", "n"),
    "union": (lambda e: f"tagcase u := union U[x: {e}] tag x: u tag y: 0 end tagcase", "n"),
    "tagcase": (lambda e: f"tagcase u := v tag x: {e} tag y: 0 end tagcase", "n"),
    "for over a range": (lambda e: f"for i in 1, 1 returns value of sum {e} end for", "n"),
    "for over an array": (lambda e: f"for i in b returns value of sum {e} end for", "n"),
    "for in its range": (lambda e: f"for i in 1, {e} returns value of sum 1 end for", "1"),
    "for in its body": (lambda e: f"for i in 1, 1 a := {e} returns value of sum a end for", "n"),
    "for initial": (lambda e: f"for initial a := {e} while a < 0 repeat a := old a + 1 returns value of a end for", "n"),
    "for initial in its body": (lambda e: f"for initial a := 0 while a < 1 repeat a := {e} returns value of a end for", "1"),
    "for initial in its test": (lambda e: f"for initial a := 0 while a < {e} repeat a := old a + 1 returns value of a end for", "1"),
}


def text(make, inner, depth):
    return f"""define main
type A = array[integer]
type R = record[x: integer]
type U = union[x: integer; y: integer]
function f(n: integer returns integer) n end function
function main(n: integer; b: A; v: U returns integer)
{nested(depth, make, inner)}
end function
"""


def ran(words, source, kilobytes):
    limit = lambda: resource.setrlimit(resource.RLIMIT_STACK, (kilobytes * 1024, kilobytes * 1024))
    with open(source) as it:
        return subprocess.run([os.environ["SISAL"], *words], stdin=it, stdout=subprocess.PIPE, stderr=subprocess.PIPE, preexec_fn=limit)


def least(words, source):
    low, high = 64, 8192
    while high - low > 32:
        middle = (low + high) // 2
        if ran(words, source, middle).returncode >= 0:
            high = middle
        else:
            low = middle
    return high


VALUES = ["1", "[1: 1]", "(0: 1)"]
greatest = (0, "")
for name, (make, inner) in FORMS.items():
    source = f"{folder}/text.sis"
    depth = 1
    for deeper in range(200, 0, -1):
        with open(source, "w") as it:
            it.write(text(make, inner, deeper))
        if b"depth" not in ran(["mean", *VALUES], source, 65536).stderr:
            depth = deeper
            break
    needs = []
    for words in (["mean", *VALUES], ["run", *VALUES], ["compile"]):
        answer = ran(words, source, 65536)
        needs.append(least(words, source))
        greatest = max(greatest, (needs[-1], f"{words[0]} of {name}"))
        if answer.returncode:
            print(name, words[0], answer.stderr.decode()[:80])
    print(f"{name}, {depth} deep: mean {needs[0]}, run {needs[1]}, compile {needs[2]}", flush=True)
for count in (20000, 250000):
    source = f"{folder}/text.if1"
    with open(source, "w") as it:
        it.write("T 1 1 3\n" + "{ Compound 1 1\nG 0\n" * count)
    need = least(["if1"], source)
    greatest = max(greatest, (need, f"if1 of {count} open nodes"))
    print(f"{count} open nodes: if1 {need}", flush=True)
print(f"greatest: {greatest[0]} KB, {greatest[1]}")
for results in (100000, 200000):
    source = f"{folder}/text.sis"
    with open(source, "w") as it:
        it.write("define main\nfunction main(returns " + ", ".join(["integer"] * 1) + ")\n" + "array_size(array [1: -1" + ",-1" * results + "])\nend function\n")
    with open(source) as it:
        process = subprocess.Popen([os.environ["SISAL"], "mean"], stdin=it, stdout=subprocess.PIPE, stderr=subprocess.PIPE)
        process.stdout.read()
        _, _, used = os.wait4(process.pid, 0)
    print(f"{results} of `,-1`: {used.ru_maxrss * 1024 / os.path.getsize(source):.0f} bytes a byte of text")
PY
