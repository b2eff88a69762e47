"""texts.py SISAL PYTHON: two texts of the same size and shape, of some 4 MB each: functions of a few definitions, a test, calls and a loop."""
import sys

SISAL = """function f{0}(a: integer; b: array[integer] returns integer)
let x := a * 2 + {0}; y := (x - b[1]) * x in
if y > 10 & x ~= 0 then f{1}(y, b) + 1 else for i in 1, x returns value of sum i * y end for end if
end let
end function
"""
PYTHON = """def f{0}(a: int, b: list[int]) -> int:
    x = a * 2 + {0}; y = (x - b[1]) * x
    return f{1}(y, b) + 1 if y > 10 and x != 0 else sum(i * y for i in range(1, x + 1) if True or i * 1 == y)
"""


def text(shape, head, most):
    out, size, k = [head], len(head), 1
    while True:
        piece = shape.format(k, max(k - 1, 1))
        if size + len(piece) > most:
            return "".join(out)
        out.append(piece)
        size += len(piece)
        k += 1


open(sys.argv[1], "w").write(text(SISAL, "define f1\n", 4194304))
open(sys.argv[2], "w").write(text(PYTHON, "", 4194304))
