#!/usr/bin/env python3
"""Makes the figures of docs/GUARANTEES.md, in fractions, from the limits that tools/baseflow prints (tools/desk/guarantee.py).

    tests/guarantees.py table       P for usual settings
    tests/guarantees.py example     what P says of an index
    tests/guarantees.py bfimax      how far a value of BFImax may lie from the exact one
    tests/guarantees.py measured    what tests/exact.py found when it was run last

A limit is rounded up in its last place, and a figure that lies within a limit is rounded away from the middle, so that
no figure promises too much.
"""
import re
import sys
from fractions import Fraction

sys.dont_write_bytecode = True
import rules
from interface import products
from desk.guarantee import LINE_LIMIT, daily_limit, decimal, down, index_limit, spell_limits, up

# method, p, q, s, passes
USUAL = ((1, 9250, 0, 0, 1), (1, 9250, 0, 0, 2), (1, 9250, 0, 0, 3), (1, 9000, 0, 0, 1), (1, 9500, 0, 0, 1),
         (1, 9800, 0, 0, 3), (2, 9250, 0, 0, 1), (2, 9500, 0, 0, 1), (3, 9500, 0, 0, 1), (3, 9700, 0, 0, 1),
         (4, 9000, 500, 0, 1), (4, 9500, 1000, 0, 1), (5, 9780, 8000, 0, 1), (5, 9780, 5000, 0, 1),
         (5, 9780, 2500, 0, 1), (6, 9250, 0, 0, 1), (6, 9500, 0, 0, 1), (7, 9700, 300, -2000, 1),
         (7, 9500, 1000, -5000, 1))
BFIMAX_P, BFIMAX_DAYS = (9500, 9700, 9800, 9900), (5, 10, 20, 60)
CLOSE = Fraction(98, 100)  # a share of a limit that leaves no room for a much smaller one


def table():
    yield "| method | p | q | s | passes | P, in thousandths of a litre a second |"
    yield "|---|---|---|---|---|---|"
    for method, p, q, s, passes in USUAL:
        assert rules.bad_setting(method, p, q, s) is None
        limit = up(daily_limit(method, p, q, s, passes), 3)
        used = "".join(f"{n} | " if n else "| " for n in (q, s))
        yield f"| {rules.NAMES[method]} | {p} | {used}{passes} | {limit} |"
    yield f"| minima line | any N and g | | | | {up(LINE_LIMIT, 3)} |"


def example():
    method, p, _, _, _ = USUAL[0]
    mean, index = 100, 6123
    limit = daily_limit(*USUAL[0])
    around = index_limit(limit, 1, mean)
    yield (f"With method {method}, p {p}, one pass and a mean flow Y / m of {mean} litres a second the index's limit is "
           f"1/2 + 10 × {up(limit, 3)} / {mean}, which is {up(around, 2)} ten-thousandths: an index of "
           f"{decimal(Fraction(index, 10000), 4)} stands for an exact one between "
           f"{down((index - around) / 10000, 4)} and {up((index + around) / 10000, 4)}.")


def bfimax():
    yield f"| p | {' | '.join(f'{days} days' for days in BFIMAX_DAYS)} |"
    yield "|---" * (1 + len(BFIMAX_DAYS)) + "|"
    for p in BFIMAX_P:
        limits = (up(spell_limits(p, days + 1)[days] / 1000, 4) for days in BFIMAX_DAYS)
        yield f"| {p} | {' | '.join(limits)} |"


def measured():
    path = products() / "exact.txt"
    if not path.exists():
        sys.exit(f"{path} is not there; `tests/exact.py` makes it")
    text = path.read_text()
    runs, bfimax_runs, staggered_runs = (
        re.search(rf"(\d+){what}", text)[1] for what in (" runs", " further runs, of BFImax", ", of staggered lines"))
    shares = {figure: Fraction(share) for figure, share in re.findall(r"^  (.*): ([\d.]+)$", text, re.MULTILINE)}
    close = [figure for figure, share in shares.items() if share >= CLOSE]
    rest = [f"{figure} {float(share):.3f}" for figure, share in shares.items() if share < CLOSE]
    yield (f"`tests/exact.py` works out {runs} runs anew, {bfimax_runs} of BFImax and {staggered_runs} of staggered "
           f"lines. The largest share of a limit that was reached is at least {decimal(CLOSE, 2)} for "
           f"{', '.join(close)}: there no much smaller limit would hold. For the others it is: {', '.join(rest)}.")


def main():
    makers = {"table": table, "example": example, "bfimax": bfimax, "measured": measured}
    if len(sys.argv) != 2 or sys.argv[1] not in makers:
        sys.exit(__doc__)
    print("\n".join(makers[sys.argv[1]]()))


main()
