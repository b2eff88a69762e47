"""The sum of the remainders of i * j by 7, for all i and j up to n."""
import sys


def main(n):
    total = 0
    for i in range(1, n + 1):
        row = 0
        for j in range(1, n + 1):
            row += i * j % 7
        total += row
    return total


print(main(int(sys.argv[1])))
