"""How many points of a grid leave the circle of radius 2 within 30 turns of z * z + c, and in how many turns in all; in
integers, 4096 for 1."""
import sys


def divided(a, b):
    q = abs(a) // abs(b)
    return q if (a < 0) == (b < 0) else -q


def turns(a, b):
    x = y = k = 0
    while k < 30 and x * x + y * y < 67108864:
        d = x * x - y * y
        p = x * y
        x = (d // 4096 if d >= 0 else -(-d // 4096)) + a
        y = (p // 2048 if p >= 0 else -(-p // 2048)) + b
        k += 1
    return k


def main(n):
    left = total = 0
    for i in range(1, n + 1):
        for j in range(1, n + 1):
            k = turns(divided(12288 * i, n) - 8192, divided(8192 * j, n) - 4096)
            if k < 30:
                left += 1
            total += k
    print(left)
    print(total)


main(int(sys.argv[1]))
