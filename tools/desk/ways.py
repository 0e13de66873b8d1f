"""The ways to separate base flow: each is a call of the engine with its setting, its limit and its name."""
import re
from fractions import Fraction
from typing import NamedTuple

from desk.guarantee import LINE_LIMIT, daily_limit
from engine import HEADER, Absent

NAMES = {1: "Lyne-Hollick", 2: "Chapman 1991", 3: "Chapman-Maxwell", 4: "Boughton", 5: "Eckhardt", 6: "Tularam-Ilahee",
         7: "Jakeman-Hornberger"}
USUAL = {1: (9250, 0, 0), 2: (9500, 0, 0), 3: (9500, 0, 0), 4: (9500, 1000, 0), 5: (9780, 8000, 0), 6: (9500, 0, 0),
         7: (9700, 300, -2000)}  # p, q and s
CHOICES = {"lowest": 1, "highest": 2, "median": 3}
BLOCK, FACTOR = 5, 9000
METHOD = re.compile(r"^#define BASEFLOW_\w+ (\d)u\s+/\* (p .*) \*/$", re.MULTILINE)


def share(number):
    """Ten-thousandths as a share of one."""
    return f"{number / 10000:.4f}"


def litres(thousandths):
    """Thousandths of a litre, of any size, with three decimals."""
    return f"{thousandths // 1000:,}.{thousandths % 1000:03}"


class Filter(NamedTuple):
    """A recursive filter, from the usual start or from one that is given."""
    method: int
    p: int
    q: int = 0
    s: int = 0
    passes: int = 1
    start: int | None = None

    def base(self, engine, days):
        return engine.filter(*self[:5], days, start=self.start)

    def limit(self):
        return daily_limit(*self[:5])

    def __str__(self):
        parts = [f"{NAMES[self.method]} (method {self.method})", f"p {share(self.p)}"]
        parts += [f"{'BFImax' if self.method == 5 else 'q'} {share(self.q)}"] if self.q else []
        parts += [f"s {share(self.s)}"] if self.s else []
        parts += [f"{self.passes} passes" if self.passes > 1 else "1 pass"] if self.method == 1 else []
        parts += [f"from {litres(self.start)} l/s"] if self.start is not None else []
        return ", ".join(parts)


class Line(NamedTuple):
    """The minima line, or of the lines from each beginning of the blocks a chosen one."""
    block: int = BLOCK
    factor: int = FACTOR
    choice: str | None = None

    def base(self, engine, days):
        if self.choice is None:
            return engine.line(self.block, self.factor, days)
        return engine.staggered(self.block, self.factor, CHOICES[self.choice], days)[0]

    def limit(self):
        return LINE_LIMIT

    def __str__(self):
        name = f"staggered lines, {self.choice}" if self.choice else "minima line"
        return f"{name}, blocks of {self.block} days, factor {share(self.factor)}"


def usual(method, passes=1):
    return Filter(method, *USUAL[method], passes)


def usual_ways():
    """Every method with its usual setting, for a comparison."""
    return [usual(1), usual(1, 3), *map(usual, range(2, 8)), Line(), *(Line(choice=choice) for choice in CHOICES)]


def ranges():
    """What each method's parameters may be, as the header says it."""
    if not HEADER.exists():
        raise Absent(f"{HEADER} is not there; it says what each method takes")
    return {int(number): words for number, words in METHOD.findall(HEADER.read_text())}


def mean(total, days):
    """The mean of a total, to the nearest whole number."""
    return round(Fraction(total, days))
