"""How far a figure may lie from the exact run, in fractions: the limits of docs/GUARANTEES.md.

Limits of base flow are in thousandths of a litre a second, those of an index in ten-thousandths. A limit is rounded up in
its last place, so that no figure promises too much.
"""
from fractions import Fraction
from itertools import accumulate
from math import ceil, floor

LINE_LIMIT = Fraction(1, 2)
HALF = Fraction(1, 2)

# A and d of each method, by p and q
A_AND_D = {
    1: lambda p, q: (2 * p, 20000),
    2: lambda p, q: (3 * p - 10000, 30000 - p),
    3: lambda p, q: (p, 20000 - p),
    4: lambda p, q: (p, 10000 + q),
    5: lambda p, q: (p * (10000 - q), 10**8 - p * q),
    6: lambda p, q: (p, 10000),
    7: lambda p, q: (10000 * p, 10000 * (10000 + q)),
}


def daily_limit(method, p, q, s, passes):
    """P of a filter. It does not depend on s."""
    A, d = A_AND_D[method](p, q)
    return Fraction(passes * d, 2 * (d - A))


def index_limit(limit, days, flow_total):
    """The limit of the index of so many days, each with its own limit."""
    return HALF + 10 * days * limit / flow_total


def spell_limits(p, days):
    """The limit of a value of BFImax 0, 1, 2, .. days before one on which both runs have the whole flow."""
    limits = accumulate(range(days - 1), lambda before, _: HALF + ceil(before * 10**10 / p) / Fraction(10**6),
                        initial=Fraction(0))
    return list(limits)


def decimal(value, places):
    """A number that has so many decimals, exactly."""
    scaled = floor(value * 10**places)
    assert scaled == value * 10**places, value
    return f"{scaled // 10**places:,}.{scaled % 10**places:0{places}}"


def up(value, places):
    return decimal(Fraction(ceil(value * 10**places), 10**places), places)


def down(value, places):
    return decimal(Fraction(floor(value * 10**places), 10**places), places)
