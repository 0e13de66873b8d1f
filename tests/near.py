#!/usr/bin/env python3
"""Checks a table of rounded quotients, lines 'a b n', against exact fractions: n is near(a / b), even at a half.

    tests/near.py crates/rounding/stdout

A quotient by zero counts as 0. Exits with 1, and names the line, where one is wrong; also where the table is short,
or has no half above an even number, or none above an odd one.
"""
import sys
from fractions import Fraction
from math import floor

LEAST_ROWS = 60
HALF = Fraction(1, 2)


def near(a, b):
    if b == 0:
        return 0
    exact = Fraction(a, b)
    below, above = floor(exact), floor(exact) + 1
    if exact - below == above - exact:
        return below if below % 2 == 0 else above
    return min(below, above, key=lambda n: abs(n - exact))


def parities(rows):
    """Those of the whole numbers just below the table's halves."""
    return {a // b % 2 for a, b, _ in rows if b and Fraction(a, b) % 1 == HALF}


def main():
    if len(sys.argv) != 2:
        sys.exit(__doc__)
    with open(sys.argv[1], encoding="ascii") as table:
        rows = [tuple(map(int, line.split())) for line in table]
    for number, (a, b, n) in enumerate(rows, 1):
        if n != near(a, b):
            sys.exit(f"line {number}: near({a} / {b}) is {near(a, b)}, not {n}")
    if len(rows) < LEAST_ROWS:
        sys.exit(f"{len(rows)} rows, where at least {LEAST_ROWS} are wanted")
    if parities(rows) != {0, 1}:
        sys.exit("no half is there above an even number, or none above an odd one")
    print(f"near: {len(rows)} rows agree with exact fractions")


main()
