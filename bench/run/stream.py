"""A queue of n numbers taken apart from its front to its end, and their sum."""
import sys
from collections import deque


def main(n):
    s = deque(i * 7919 % 10007 for i in range(1, n + 1))
    t = 0
    while s:
        t += s.popleft()
    return t


print(main(int(sys.argv[1])))
