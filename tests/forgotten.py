#!/usr/bin/env python3
"""Makes the table of how long a start is seen: days until two starts differ by at most 1 litre a second, by the bound.

    tests/forgotten.py

The starts are 0 and the whole flow of a river that keeps it, which lie as far apart as starts can. Their rounded runs,
by document 01's rules (tests/rules.py), are held to the bound day by day, and at the table's day to the litre.
"""
import sys

sys.dont_write_bytecode = True
import rules

# method, p, q, s
USUAL = ((1, 9250, 0, 0), (2, 9500, 0, 0), (3, 9500, 0, 0), (4, 9700, 300, 0), (5, 9780, 8000, 0), (6, 9500, 0, 0),
         (7, 9700, 300, -2000))
FLOWS = 1, 10, 100, 1000  # litres a second
LITRE = 1000
LONG = 1000  # days of a check where the bound is never within a litre


def bound(setting, flow, day):
    return sum(rules.forgotten(*setting, 1000 * flow, day))


def days_until(setting, flow):
    """The first day on which the bound is within a litre; None where it never is."""
    if rules.forgotten(*setting, 0, 0)[1] >= LITRE:
        return None
    day = 0
    while bound(setting, flow, day) > LITRE:
        day += 1
    return day


def check(setting, flow, days):
    """Both runs over a river of one flow, up to that day; None is never."""
    river = [flow] * (1 + (LONG if days is None else days))
    low, high = (rules.filter_over(rules.near, (*setting, 1), river, start) for start in (0, 1000 * flow))
    for day, (a, b) in enumerate(zip(low, high)):
        assert 0 <= b - a <= bound(setting, flow, day), f"{setting}: {a} and {b} after {day} days of {flow} litres"
    assert days is None or b - a <= LITRE, f"{setting}: {a} and {b} after {days} days of {flow} litres"


def cells(setting):
    assert rules.bad_setting(*setting) is None
    method, p, *others = setting
    yield from (rules.NAMES[method], str(p), *(str(n or "") for n in others))
    for flow in FLOWS:
        days = days_until(setting, flow)
        check(setting, flow, days)
        yield "never by this bound" if days is None else str(days)


def main():
    if len(sys.argv) != 1:
        sys.exit(__doc__)
    heads = ("method", "p", "q", "s", *(f"{flow:,} litre{'s' * (flow > 1)} a second" for flow in FLOWS))
    print(f"| {' | '.join(heads)} |")
    print("|---" * len(heads) + "|")
    for setting in USUAL:
        print("".join(f"| {cell} " if cell else "| " for cell in cells(setting)) + "|")


main()
