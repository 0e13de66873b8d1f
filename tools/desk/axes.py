"""The axes of a picture: round steps of dates and of flows, and where a value stands."""
from datetime import date, timedelta
from decimal import Decimal
from math import ceil, floor, log10
from typing import NamedTuple

MONTHS = "Jan Feb Mar Apr May Jun Jul Aug Sep Oct Nov Dec".split()
MOST_DATES = {"day": 14, "month": 14, "year": 18}
MOST_STEPS = 6
DAYS, MONTH_STEPS, YEARS = (1, 2, 7, 14), (1, 2, 3, 6), (1, 2, 5, 10, 20, 50)
MONDAY = date(1900, 1, 1).toordinal()  # a Monday
THIN = "\u2009"  # between thousands


class Tick(NamedTuple):
    """Where it stands, what it says, and a second line or nothing."""
    at: float
    text: str
    more: str = ""


# ---- dates

def round_dates(first, last):
    """The round dates from one to another, few enough for an axis, and what their step is."""
    every = ((name, step) for name, steps in (("day", DAYS), ("month", MONTH_STEPS), ("year", YEARS)) for step in steps)
    for name, step in every:
        found = DATES[name](first, last, step)
        if len(found) <= MOST_DATES[name]:
            return name, found
    return name, found[::10]


def round_days(first, last, step):
    """Every so many days, from a Monday."""
    start = first.toordinal() + (MONDAY - first.toordinal()) % step
    return [date.fromordinal(day) for day in range(start, last.toordinal() + 1, step)]


def round_months(first, last, step):
    months = range(12 * first.year, 12 * last.year + 12, step)
    return [day for day in (date(month // 12, month % 12 + 1, 1) for month in months) if first <= day <= last]


def round_years(first, last, step):
    years = range(first.year - first.year % step, last.year + 1, step)
    return [day for day in (date(max(1, year), 1, 1) for year in years) if first <= day <= last]


DATES = {"day": round_days, "month": round_months, "year": round_years}


def date_ticks(first, last):
    """The ticks of the days from one to another, counted in days from the first. A year stands under its first tick."""
    name, dates = round_dates(first, last)
    texts = {"day": lambda day: f"{day.day} {MONTHS[day.month - 1]}", "month": lambda day: MONTHS[day.month - 1],
             "year": lambda day: str(day.year)}
    years = [None, *(day.year for day in dates)]
    return [Tick((day - first) / timedelta(1), texts[name](day), "" if name == "year" or day.year == before else str(day.year))
            for day, before in zip(dates, years)]


# ---- flows

def number(value):
    return f"{value:,f}".replace(",", THIN)


def round_step(most):
    """The least of 1, 2, 5, 10, 20, .. (times any power of ten) that takes few steps to the most."""
    power = floor(log10(most / MOST_STEPS)) if most > 0 else 0
    steps = (Decimal(digit).scaleb(power) for digit in (1, 2, 5, 10, 20))
    return next(step for step in steps if step * MOST_STEPS >= Decimal(most))


class Linear(NamedTuple):
    """A scale from zero to its top."""
    top: float

    def share(self, value):
        """How far up a value stands, from 0 to 1."""
        return value / self.top

    def value(self, share):
        return share * self.top


class Log(NamedTuple):
    """A scale from one power of ten to another. Zero stands at the bottom."""
    low: int
    high: int

    def share(self, value):
        return (log10(value) - self.low) / (self.high - self.low) if value > 0 else 0.0

    def value(self, share):
        return 10 ** (self.low + share * (self.high - self.low))


def linear(values):
    """A linear scale for values, and its ticks."""
    most = max(values, default=0)
    step = round_step(most) if most > 0 else Decimal(1)
    count = max(1, ceil(Decimal(most) / step))
    return Linear(float(step * count)), [Tick(float(step * n), number(step * n)) for n in range(count + 1)]


def logarithmic(values):
    """A log scale in whole decades, and its ticks."""
    there = [value for value in values if value > 0] or [1]
    low = floor(log10(min(there)))
    high = max(low + 1, ceil(log10(max(there))))
    between = [Tick(digit * 10.0**n, "") for n in range(low, high) for digit in range(2, 10)]
    return Log(low, high), [Tick(10.0**n, number(Decimal(1).scaleb(n))) for n in range(low, high + 1)] + between
