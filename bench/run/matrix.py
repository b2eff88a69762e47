"""The product of two matrices of n rows and n columns, and the sum of its elements."""
import sys


def times(a, columns):
    return [[sum(x * y for x, y in zip(r, c)) for c in columns] for r in a]


def main(n):
    a = [[i * j % 10 for j in range(1, n + 1)] for i in range(1, n + 1)]
    columns = [[(i + 2 * j) % 10 for i in range(1, n + 1)] for j in range(1, n + 1)]
    c = times(a, columns)
    print("[1: " + " ".join(map(str, c[n - 1])) + "]")
    print(sum(x for r in c for x in r))


main(int(sys.argv[1]))
