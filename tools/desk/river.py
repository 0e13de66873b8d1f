"""A river at the desk: a CSV, as tools/record reads it, or a record, as the engine reads it."""
import importlib.machinery
import importlib.util
from datetime import date, timedelta
from pathlib import Path
from typing import NamedTuple

from desk.trouble import Trouble

TOOL = Path(__file__).resolve().parent.parent / "record"


def load_record():
    """tools/record as a module; its name has no suffix."""
    loader = importlib.machinery.SourceFileLoader("record_tool", str(TOOL))
    module = importlib.util.module_from_spec(importlib.util.spec_from_loader("record_tool", loader))
    loader.exec_module(module)
    return module


record = load_record()


class River(NamedTuple):
    """A name, the first day since 1 January 1900, the day list with None for a missing day, and the unit it is shown in."""
    name: str
    first: int
    days: list
    unit: str

    def date(self, place):
        return record.EPOCH + timedelta(self.first + place)

    def dates(self):
        return map(self.date, range(len(self.days)))

    def place(self, day):
        """The position of a date, which may lie outside the list."""
        return (day - record.EPOCH).days - self.first

    def periods(self, by):
        """Each calendar year or month of the river: its name, its first place and the place behind its last."""
        if not self.days:
            return []
        first, last = self.date(0), self.date(len(self.days) - 1)
        starts = [first, *(day for day in begins(first.year, last.year, by) if first < day <= last)]
        places = [*map(self.place, starts), len(self.days)]
        names = [f"{day.year}" if by == "year" else f"{day.year}-{day.month:02}" for day in starts]
        return list(zip(names, places, places[1:]))

    def within(self, first, last):
        """The places of two dates, the second one's with it; they have to be the river's."""
        start, end = self.place(first), self.place(last)
        if not 0 <= start <= end < len(self.days):
            raise Trouble(f"{first} to {last} is no part of {self.name}, {self.span()}")
        return start, end + 1

    def span(self):
        if not self.days:
            return "which has no days"
        return f"{self.date(0)} to {self.date(len(self.days) - 1)}"


def begins(first_year, last_year, by):
    """The first days of the calendar's years or months."""
    months = (1,) if by == "year" else range(1, 13)
    return [date(year, month, 1) for year in range(first_year, last_year + 1) for month in months]


def river_of(name, data, form, engine):
    """The river of a file's bytes. A record begins with its head, which no text begins with."""
    if data[:1] == bytes([record.HEAD]):
        if form._replace(unit="l") != record.Form():
            raise Trouble(f"{name}: this is a record; --columns, --delimiter and --missing are for a CSV")
        first, days = engine.read(data)
    else:
        try:
            first, days = record.parse_csv(record.to_text(data), form)
        except record.Wrong as wrong:
            raise Trouble(f"{name}{',' if wrong.place else ':'} {wrong}") from None
    return River(name, first, days, form.unit)


def stretches(values):
    """The first place of each longest row of values that are there, and the place behind its last."""
    edges = [place for place, (before, value) in enumerate(zip([None, *values], [*values, None]))
             if (before is None) != (value is None)]
    return list(zip(edges[::2], edges[1::2]))
