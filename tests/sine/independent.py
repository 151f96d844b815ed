#!/usr/bin/env python3
"""The sine table again, from the definition of the sine: an independent check of the crate `sine`.

    independent.py                  prints 361 lines `k s`: s is the whole number nearest to 16384 * sin(k * pi / 720)
    independent.py --compare FILE   compares FILE with those lines; exit status 1 where they differ
    independent.py --table FILE     the same for a table of 360 lines `d, // s` in the code: d is how far s is above the sine before it

All arithmetic is on fractions, with no rounding that is not accounted for. Pi is held between two fractions, by Machin's
formula. The sine is a sum of terms of its series, and the distance to the true sine is bounded:

    |sin x - sin y| <= |x - y|                      for the error of pi
    |sin y - (the first N terms)| <= |y|^(2N+1) / (2N+1)!    for the terms left out (Taylor's theorem)

Where the interval so found leaves open which whole number is nearest, the program stops with an error.
"""
import argparse
import re
import sys
from fractions import Fraction
from math import floor

SCALE = 16384
STEPS = 360  # quarter degrees in a right angle
TERMS = 10  # of the sine's series
UNIT = 10**20  # the ends of the interval around pi are multiples of 1 / UNIT


def arctan_between(n, terms):
    """Two fractions with arctan(1/n) between them: neighboring sums of its alternating series, whose terms shrink."""
    total = Fraction(0)
    for i in range(terms):
        before = total
        total += Fraction((-1) ** i, (2 * i + 1) * n ** (2 * i + 1))
    return min(before, total), max(before, total)


def pi_between():
    """Two fractions with pi between them: pi = 16 arctan(1/5) - 4 arctan(1/239)."""
    low5, high5 = arctan_between(5, 20)
    low239, high239 = arctan_between(239, 8)
    low = 16 * low5 - 4 * high239
    high = 16 * high5 - 4 * low239
    return Fraction(floor(low * UNIT), UNIT), Fraction(floor(high * UNIT) + 1, UNIT)


def sine_near(y):
    """The sum of the first TERMS terms of the series of sin y, and a bound on its distance to sin y."""
    total, term = Fraction(0), y
    for i in range(TERMS):
        total += term
        term *= -y * y / ((2 * i + 2) * (2 * i + 3))
    return total, abs(term)


def table():
    low, high = pi_between()
    middle, spread = (low + high) / 2, (high - low) / 2
    entries = []
    for k in range(STEPS + 1):
        near, left_out = sine_near(k * middle / (2 * STEPS))
        error = left_out + k * spread / (2 * STEPS)
        entry = floor(SCALE * near + Fraction(1, 2))
        if not (entry - Fraction(1, 2) < SCALE * (near - error) and SCALE * (near + error) < entry + Fraction(1, 2)):
            sys.exit(f"sine: the nearest whole number at {k} is not determined")
        entries.append(entry)
    return entries


def read(path):
    with open(path, newline="", encoding="utf-8", errors="replace") as f:
        return f.read()


def compare(name, expected, found):
    if found == expected:
        print(f"sine: {name}: {len(expected.splitlines())} lines agree")
        return 0
    want, got = expected.split("\n"), found.split("\n")
    for i in range(max(len(want), len(got))):
        a = repr(want[i]) if i < len(want) else "no line"
        b = repr(got[i]) if i < len(got) else "no line"
        if a != b:
            print(f"sine: {name}: line {i + 1}: expected {a}, found {b}")
    return 1


def main():
    parser = argparse.ArgumentParser(description=__doc__, formatter_class=argparse.RawDescriptionHelpFormatter)
    parser.add_argument("--compare", metavar="FILE")
    parser.add_argument("--table", metavar="FILE")
    options = parser.parse_args()
    sines = table()
    lines = "".join(f"{k} {s}\n" for k, s in enumerate(sines))
    if not options.compare and not options.table:
        sys.stdout.write(lines)
    wrong = 0
    if options.compare:
        wrong |= compare("sines", lines, read(options.compare))
    if options.table:
        differences = "".join(f"{b - a}, // {b}\n" for a, b in zip(sines, sines[1:]))
        wrong |= compare("differences", differences, "".join(re.findall(r"^ *(\d+, // .*\n)", read(options.table), re.M)))
    return wrong


if __name__ == "__main__":
    sys.exit(main())
