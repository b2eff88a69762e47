"""A vector of 1,000 places of which each inner one becomes the mean of its neighbours and itself, n times over; its sum."""
import sys


def main(n):
    a = [i * 7919 % 10007 for i in range(1, 1001)]
    for _ in range(n):
        for i in range(1, 999):
            a[i] = (a[i - 1] + a[i] + a[i + 1]) // 3
    return sum(a)


print(main(int(sys.argv[1])))
