"""A walk of n steps over a plane, of which each is told by a pair of a tag and a number."""
import sys


class Place:
    __slots__ = ("x", "y")

    def __init__(self, x, y):
        self.x = x
        self.y = y


def told(k):
    if k % 1000 == 0:
        return ("home", None)
    if k % 3 == 0:
        return ("north", k % 7 - 2)
    return ("east", k % 5 - 1)


def moved(at, move):
    tag, d = move
    if tag == "east":
        at.x += d
        return at
    if tag == "north":
        at.y += d
        return at
    return Place(0, 0)


def main(n):
    at = Place(0, 0)
    for k in range(n):
        at = moved(at, told(k))
    print(at.x)
    print(at.y)


main(int(sys.argv[1]))
