"""Sorts n numbers of a generator of random numbers in place, by insertion: a number moves down by one place a turn. It gives
each hundredth number."""
import sys


def numbers(n):
    x = 1
    out = [x]
    while len(out) < n:
        x = (x * 1103515245 + 12345) % 2147483648
        out.append(x)
    return out


def sort(a):
    i = 1
    j = 1
    while i < len(a):
        if j > 0 and a[j] < a[j - 1]:
            a[j - 1], a[j] = a[j], a[j - 1]
            j -= 1
        else:
            i += 1
            j = i


a = numbers(int(sys.argv[1]))
sort(a)
print("[1:" + "".join(" %d" % x for x in a[99::100]) + "]")
