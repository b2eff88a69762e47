#!/usr/bin/env python3
"""Along how many ways each row of crates.txt leads down to others: `rt` goes along all of them, again and again.

usage: docs/ways.py [MANY]   prints the MANY (10) rows with most ways and the sum over all rows
"""
import os
import sys

sys.dont_write_bytecode = True
TOP = os.path.dirname(os.path.dirname(os.path.abspath(__file__)))


def rows():
    with open(f"{TOP}/crates.txt") as file:
        lines = [line.split("#")[0].partition(":") for line in file]
    return {name.split()[0]: libraries.split() for name, colon, libraries in lines if colon}


def ways(below):
    counted = {}

    def count(name):
        if name not in counted:
            counted[name] = 1 + sum(count(it) for it in below[name] if it in below)
        return counted[name]

    return {name: count(name) for name in below}


def main():
    many = int(sys.argv[1]) if len(sys.argv) > 1 else 10
    found = sorted(ways(rows()).items(), key=lambda it: -it[1])
    for name, count in found[:many]:
        print(f"{count:>10,} {name}")
    print(f"{sum(count for _, count in found):>10,} in all {len(found)} rows")


if __name__ == "__main__":
    main()
