"""How often each of 1,000 places is hit by n numbers of a generator; the greatest count and the sum of squares."""
import sys


def main(n):
    a = [0] * 1000
    x = 1
    for _ in range(n):
        x = (x * 1103515245 + 12345) % 2147483648
        a[x // 65536 % 1000] += 1
    print(max(a))
    print(sum(c * c for c in a))


main(int(sys.argv[1]))
