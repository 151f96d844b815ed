#!/usr/bin/env python3
"""Roots and the rounds that find them, again: an independent check of the crate `root`.

    independent.py                  prints the lines `x root rounds` that the program `roots` has to print
    independent.py --compare FILE   compares FILE with those lines; exit status 1 where they differ

The root is Python's own `math.isqrt(x)`. The rounds are the digits of the root when it is written in binary, none for 0. The numbers x: 0; for each
number of digits that a root can have, the least root, the greatest and one of those between, each with the first and the last number that have it and
the number before them; and multiples of an odd number, cut to 64 digits, 63 and so on.
"""
import argparse
import sys
from math import isqrt

MOST = 32  # digits in the root of a 64-bit number


def digits(n):
    """How many digits n has when it is written in binary, 0 as nothing at all."""
    return len(f"{n:b}".lstrip("0"))


def roots():
    """For each number of digits the least root, one of those from it up, and the greatest."""
    for length in range(1, MOST + 1):
        least = 2 ** (length - 1)
        yield from (least, least + 2654435769 % least, 2**length - 1)


def numbers():
    yield 0
    for q in roots():
        yield from (q**2 - 1, q**2, (q + 1) ** 2 - 1)
    for k in range(64):
        yield (k + 1) * 11400714819323198485 % 2**64 >> k


def compare(expected, path):
    with open(path, newline="", encoding="latin-1") as f:
        got = f.read().splitlines(keepends=True)
    wrong = [(at, a, b) for at, (a, b) in enumerate(zip(expected, got), 1) if a != b]
    for at, a, b in wrong:
        print(f"root: line {at}: expected {a!r}, found {b!r}")
    if len(got) != len(expected):
        print(f"root: {len(expected)} lines expected, {len(got)} found")
    if wrong or len(got) != len(expected):
        return 1
    print(f"root: {len(expected)} roots agree, and the rounds that find them")
    return 0


def main():
    parser = argparse.ArgumentParser(description=__doc__, formatter_class=argparse.RawDescriptionHelpFormatter)
    parser.add_argument("--compare", metavar="FILE")
    options = parser.parse_args()
    expected = [f"{x} {isqrt(x)} {digits(isqrt(x))}\n" for x in numbers()]
    if options.compare:
        return compare(expected, options.compare)
    sys.stdout.write("".join(expected))
    return 0


if __name__ == "__main__":
    sys.exit(main())
