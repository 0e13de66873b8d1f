"""What the tool prints and writes: tables that a person reads, and CSV files that a spreadsheet reads."""
from fractions import Fraction
from typing import NamedTuple

from desk.guarantee import index_limit, up
from desk.ways import litres, mean, share
from engine import Refused

TWO_YEARS = 731
CUBIC_METRES = Fraction(864, 10)  # of a litre a second in a day
NONE = "-"
NO_FLOW = 21
SIGNS = {"l": "l/s", "m3": "m3/s"}


class Separation(NamedTuple):
    """A river's base flow, and how far it may lie from the exact run on each day."""
    river: object
    way: object
    base: list

    def limit(self):
        return self.way.limit()


class Totals(NamedTuple):
    """What the engine totals over a period; None for a period whose flow total is 0, which has no index."""
    name: str
    days: int
    flow: int = 0
    base: int = 0
    quick: int = 0
    index: int | None = None


def totals_of(engine, name, days, base):
    """The totals of a period, by the engine."""
    try:
        return Totals(name, *engine.totals(days, base))
    except Refused as refused:
        if refused.number != NO_FLOW:
            raise
        return Totals(name, sum(value is not None for value in base))


def totals_by(engine, separation, by):
    """The totals of each calendar year or month."""
    river, base = separation.river, separation.base
    return [totals_of(engine, name, river.days[start:end], base[start:end]) for name, start, end in river.periods(by)]


# ---- numbers

def flow_text(flow, unit):
    """Whole litres a second in the unit, exactly."""
    return f"{flow:,}" if unit == "l" else litres(flow)


def base_text(thousandths, unit):
    """Thousandths of a litre a second in the unit, exactly."""
    return litres(thousandths) if unit == "l" else f"{thousandths // 10**6:,}.{thousandths % 10**6:06}"


def means(totals, unit):
    """Mean flow and mean base flow of a period, with three decimals."""
    if not totals.days:
        return [NONE, NONE]
    shown = 1 if unit == "l" else 1000
    return [litres(mean(total, shown * totals.days)) for total in (1000 * totals.flow, totals.base)]


def index_cells(totals, limit):
    """BFI, and the most that it may lie off."""
    if totals.index is None:
        return [NONE, NONE]
    return [share(totals.index), index_within(limit, totals)]


def index_within(limit, totals):
    return up(index_limit(limit, totals.days, totals.flow) / 10000, 5)


def volume(thousandths):
    """The cubic metres of a total in thousandths of a litre a second, to the nearest."""
    return f"{round(thousandths * CUBIC_METRES / 1000):,}"


# ---- text

def columns(head, rows, left=1):
    """Lines of columns, the first ones to the left and the others to the right."""
    table = [head, *rows]
    widths = [max(map(len, column)) for column in zip(*table)]
    cells = ([cell.ljust(width) if place < left else cell.rjust(width) for place, (cell, width) in enumerate(zip(row, widths))]
             for row in table)
    return ["  ".join(row).rstrip() for row in cells]


def named(rows):
    """Lines of a name and what it is."""
    width = max(len(name) for name, _ in rows)
    return [f"{name.ljust(width)}  {text}".rstrip() for name, text in rows]


def counted(number, name):
    return f"{number:,} {name if number == 1 else name + 's'}"


def river_row(river):
    gaps = sum(flow is None for flow in river.days)
    missing = f"{gaps:,} of them missing" if gaps else "none missing"
    return "river", f"{river.name}, {river.span()}, {counted(len(river.days), 'day')}, {missing}"


def guarantee_row(limit, totals):
    """The guarantee of a whole river, in litres a second and in points of the index."""
    return "guarantee", (f"base flow within {up(limit / 1000, 4)} l/s of the exact run on each day, its total within "
                         f"{up(totals.days * limit / 1000, 2)} (l/s)·days, BFI within {index_within(limit, totals)}")


def head(separation, totals):
    rows = [river_row(separation.river), ("base flow", str(separation.way)), guarantee_row(separation.limit(), totals)]
    return named(rows)


def usual_by(river, by):
    """Months where a river has two years at most, unless something else is wanted."""
    return by or ("month" if len(river.days) <= TWO_YEARS else "year")


def mean_lines(separation, totals, rows, by):
    """Mean flows and BFI of each period, and of the whole."""
    unit, limit = separation.river.unit, separation.limit()
    sign = SIGNS[unit]
    cells = [[row.name, f"{row.days:,}", *means(row, unit), *index_cells(row, limit)] for row in [*rows, totals]]
    title = [by, "days", f"flow {sign}", f"base {sign}", "BFI", "within"]
    return [*head(separation, totals), "", *columns(title, cells)]


def total_lines(separation, totals, rows, by):
    """Totals and BFI of each period, and of the whole."""
    unit, limit = separation.river.unit, separation.limit()
    cells = [[row.name, f"{row.days:,}", *total_cells(row, unit), volume(row.base), *index_cells(row, limit)]
             for row in [*rows, totals]]
    title = [by, "days", "flow", "base", "quick", "base m3", "BFI", "within"]
    note = f"flow, base and quick in ({SIGNS[unit]})·days, summed over the days with base flow"
    return [*head(separation, totals), "", *columns(title, cells), "", note]


def total_cells(totals, unit):
    return [flow_text(totals.flow, unit), base_text(totals.base, unit), base_text(totals.quick, unit)]


# ---- CSV

def csv_text(header, rows):
    """A spreadsheet takes no marks between thousands and no sign for nothing."""
    return "".join(",".join(row) + "\n" for row in [header, *rows]).encode()


def bare(cell):
    return "" if cell == NONE else cell.replace(",", "")


def flow_column(flows, unit):
    if unit == "l":
        return ["" if flow is None else str(flow) for flow in flows]
    return ["" if flow is None else f"{flow // 1000}.{flow % 1000:03}" for flow in flows]


def base_column(base, unit):
    finest, places = (1000, 3) if unit == "l" else (10**6, 6)
    return ["" if value is None else f"{value // finest}.{value % finest:0{places}}" for value in base]


def daily_csv(river, names, *cells):
    """A CSV of dates and columns, each with its unit in its name."""
    sign = {"l": "l_s", "m3": "m3_s"}[river.unit]
    return csv_text(["date", *(f"{name}_{sign}" for name in names)], zip(map(str, river.dates()), *cells))


def base_csv(river, base):
    """Date, flow, base flow and quick flow."""
    quick = [None if value is None else 1000 * flow - value for flow, value in zip(river.days, base)]
    return daily_csv(river, ["flow", "base", "quick"], flow_column(river.days, river.unit), base_column(base, river.unit),
                     base_column(quick, river.unit))


def totals_csv(river, limit, periods):
    """Totals of years, months and the whole."""
    sign = {"l": "l_s_days", "m3": "m3_s_days"}[river.unit]
    rows = [[row.name, str(row.days), *total_cells(row, river.unit), *index_cells(row, limit)] for row in periods]
    return csv_text(["period", "days", f"flow_{sign}", f"base_{sign}", f"quick_{sign}", "bfi", "bfi_within"],
                    (map(bare, row) for row in rows))
