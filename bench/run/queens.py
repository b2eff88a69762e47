"""In how many ways n queens stand on a board so that none attacks another one."""
import sys


def is_free(taken, c):
    k = len(taken)
    for i in range(k):
        d = abs(taken[i] - c)
        if d == 0 or d == k - i:
            return False
    return True


def with_one(n, taken, c):
    return ways(n, taken + [c])


def ways(n, taken):
    if len(taken) == n:
        return 1
    total = 0
    for c in range(1, n + 1):
        if is_free(taken, c):
            total += with_one(n, taken, c)
    return total


print(ways(int(sys.argv[1]), []))
