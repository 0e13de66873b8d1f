"""The commands: each calls the engine, and hands back a table, a CSV and what a picture shows."""
from functools import partial
from typing import Callable, NamedTuple

from desk import tables, ways
from desk.arguments import BITS_32, counted, way_of
from desk.guarantee import HALF, spell_limits, up
from desk.picture import Scene
from desk.tables import Separation, columns, named, river_row
from desk.ways import share
from engine import Refused, causes

MOST_LISTED = 10  # limbs in the table
WHOLE = "whole"


class Result(NamedTuple):
    """Lines for a person; what makes the bytes of a CSV; what a picture shows."""
    lines: list
    csv: Callable | None = None
    scene: Scene | None = None


def separated(args, engine, river):
    """The river's base flow by what the options say, and its totals; refused where there is no flow."""
    way = way_of(args)
    base = way.base(engine, river.days)
    return Separation(river, way, base), tables.Totals(WHOLE, *engine.totals(river.days, base))


def caption(separation, totals):
    limit = separation.limit()
    return (f"Base flow: {separation.way}, within {up(limit / 1000, 4)} l/s of the exact run. BFI of the whole record "
            f"{share(totals.index)}, within {tables.index_within(limit, totals)}.")


def scene_of(separation, totals, **more):
    return Scene(separation.river, separation.base, caption(separation, totals), **more)


def separate(args, engine, river):
    """Base flow, day by day, and its means by year or month."""
    separation, totals = separated(args, engine, river)
    by = tables.usual_by(river, args.by)
    lines = tables.mean_lines(separation, totals, tables.totals_by(engine, separation, by), by)
    met = isinstance(separation.way, ways.Line)
    return Result(lines, partial(tables.base_csv, river, separation.base), scene_of(separation, totals, met=met))


def totals(args, engine, river):
    """Totals of flow, base flow and quick flow by year and month."""
    separation, whole = separated(args, engine, river)
    by = tables.usual_by(river, args.by)
    periods = {name: tables.totals_by(engine, separation, name) for name in ("year", "month")}
    lines = tables.total_lines(separation, whole, periods[by], by)
    every = [*periods["month"], *periods["year"], whole]
    return Result(lines, partial(tables.totals_csv, river, separation.limit(), every))


# ---- recession

def half_life_between(engine, ratio):
    """Days until half is left, for a ratio in ten-thousandths that may lie between two thousandths."""
    days = [half_life_or_none(engine, p) for p in (ratio // 10, -(-ratio // 10))]
    if None not in days:
        return f"after {days[0]} days" if days[0] == days[1] else f"after {days[0]} to {days[1]} days"
    if days == [None, None]:
        return "no half-life for this k"
    return f"after {days[0]} days at least" if days[1] is None else f"after {days[1]} day at most"


def half_life_or_none(engine, p):
    try:
        return engine.half_life(p)
    except Refused:
        return None


def limb_cells(river, start, days):
    ends = (start, start + days - 1)
    flows = (tables.flow_text(river.days[place], river.unit) for place in ends)
    return [*(str(river.date(place)) for place in ends), str(days), *flows]


def ratios(args, engine, river):
    """The recession constant, from the ratios of days at base."""
    separation, whole = separated(args, engine, river)
    count, ratio, limbs = engine.recession(args.limb, river.days, separation.base)
    days = sum(days for _, days in limbs)
    lines = named([river_row(river), ("base flow", str(separation.way)),
                   ("recession constant k", f"{share(ratio)}, the median of {tables.counted(count, 'ratio')}"),
                   ("days of recession", f"{days:,} in {tables.counted(len(limbs), 'limb')} of {args.limb} days or more"),
                   ("half of the flow left", half_life_between(engine, ratio)),
                   ("guarantee", "each ratio within 0.00005 of the exact one, and the median is one of them")])
    cells = [limb_cells(river, *limb) for limb in limbs]
    lines += ["", *columns(["first day", "last day", "days", "first flow", "last flow"], cells[:MOST_LISTED], left=2)]
    if len(limbs) > MOST_LISTED:
        lines.append(f"and {tables.counted(len(limbs) - MOST_LISTED, 'shorter limb')}; --out writes them all")
    table = partial(tables.csv_text, ["first_day", "last_day", "days", "first_flow", "last_flow"],
                    [map(tables.bare, row) for row in cells])
    scene = scene_of(separation, whole, limbs=limbs, met=isinstance(separation.way, ways.Line))
    return Result(lines, table, scene._replace(caption=f"Recession constant k {share(ratio)}. {scene.caption}"))


def half_life(args, engine, _):
    """Days until half is left."""
    cells = [[share(p), half_life_words(engine, p)] for p in args.p]
    note = "each is the least whole number of days after which at most half is left, exactly"
    return Result([*columns(["p", "half of the flow left"], cells, left=2), "", note])


def half_life_words(engine, p):
    if 0 < p < 10000 and p % 10:
        return half_life_between(engine, p)
    return f"after {tables.counted(engine.half_life(-(-p // 10)), 'day')}"


# ---- BFImax

def surely_whole(p, flows, values, limits):
    """How many days each day lies before one on which both runs have the whole flow, the last day first. The exact value
    of the day behind is at least the rounded one less its limit; where that over p reaches the whole flow, both have it."""
    back = [0]
    for flow, behind in zip(flows[-2::-1], values[:0:-1]):
        whole = 10000 * (behind - limits[back[-1]]) >= p * 1000 * flow
        back.append(0 if whole else back[-1] + 1)
    return back


def bfimax(args, engine, river):
    """BFImax, the q of method 5, from a dry spell."""
    last = len(river.days) - 1 if args.last is None else river.place(args.last)
    answer, base = engine.bfimax(last % BITS_32, args.days, args.p, river.days)  # a day before the first lies outside too
    spell = slice(last + 1 - args.days, last + 1)
    flows, values = river.days[spell], base[spell]
    limits = spell_limits(args.p, args.days)
    off = [limits[days] for days in surely_whole(args.p, flows, values, limits)]
    first, end = river.date(spell.start), river.date(last)
    lines = named([river_row(river), ("spell", f"{first} to {end}, {tables.counted(args.days, 'day')}"),
                   ("recession constant k", share(args.p)), ("BFImax", share(answer)),
                   ("flow", f"{tables.flow_text(sum(flows), river.unit)} ({tables.SIGNS[river.unit]})·days"),
                   ("base flow", f"{tables.base_text(sum(values), river.unit)} ({tables.SIGNS[river.unit]})·days"),
                   ("guarantee", f"base flow within {up(max(off) / 1000, 4)} l/s of the exact run on each day, BFImax within "
                    f"{up((HALF + 10 * sum(off) / sum(flows)) / 10000, 5)}")])
    words = f"BFImax {share(answer)}, from {first} to {end} with k {share(args.p)}."
    return Result(lines, partial(tables.base_csv, river, base), Scene(river, base, words, span=(first, end)))


# ---- all ways, and a licence

def compared(engine, river, way):
    """A row of the comparison and the base list, or the refusal's number."""
    try:
        base = way.base(engine, river.days)
        whole = tables.Totals(str(way), *engine.totals(river.days, base))
    except Refused as refused:
        return refused.number, None
    limit = way.limit()
    return [str(way), f"{whole.days:,}", tables.means(whole, river.unit)[1], *tables.index_cells(whole, limit),
            up(limit / 1000, 4)], base


def compare(args, engine, river):
    """All ways with their usual settings, side by side."""
    every = [(str(way), *compared(engine, river, way)) for way in ways.usual_ways()]
    if all(base is None for _, _, base in every):
        raise Refused(every[0][1])
    rows = [row if base else [name, *[tables.NONE] * 5] for name, row, base in every]
    title = ["base flow by", "days", f"base {tables.SIGNS[river.unit]}", "BFI", "within", "P l/s"]
    notes = ["BFI lies within the next figure of the exact run's, and base flow within P of the exact run on each day",
             *(f"{name}: refused with {row}: {causes()[row]}" for name, row, base in every if base is None)]
    return Result([*named([river_row(river)]), "", *columns(title, rows), "", *notes], partial(compared_csv, river, every))


def compared_csv(river, every):
    names = ["flow", *(name.replace(",", "") for name, _, _ in every)]
    lists = (tables.base_column(base or [None] * len(river.days), river.unit) for _, _, base in every)
    return tables.daily_csv(river, names, tables.flow_column(river.days, river.unit), *lists)


def licence(args, engine, river):
    """What a licence lets a pump take, in all or in each calendar year."""
    separation, whole = separated(args, engine, river)
    limit = counted(args.limit, river.unit, "--limit", beyond=BITS_32)
    quota = counted(args.quota, river.unit, "--quota")
    periods = river.periods("year") if args.yearly else [(WHOLE, 0, len(river.days))]
    takings, rows = [], []
    for name, start, end in periods:
        taken, left = engine.licence(limit, quota, river.days[start:end], separation.base[start:end])
        rows.append([name, *licence_cells(river, start, taken, left)])
        takings += taken
    sign = tables.SIGNS[river.unit]
    unit = f"({sign})·days"
    title = [("year" if args.yearly else "period"), "days with taking", f"taken {unit}", "taken m3", f"quota left {unit}",
             "ran out on"]
    lines = named([river_row(river), ("base flow", str(separation.way)),
                   ("daily limit", f"{tables.flow_text(limit, river.unit)} {sign}"),
                   ("quota", f"{tables.flow_text(quota, river.unit)} {unit}{', each year' if args.yearly else ''}"),
                   ("guarantee", "taken and left make up the quota exactly, and no day's flow after taking is below its base "
                    "flow as computed"),
                   ("", f"that base flow within {up(separation.limit() / 1000, 4)} l/s of the exact run on each day")])
    table = partial(licence_csv, river, separation.base, takings)
    scene = scene_of(separation, whole, takings=takings, met=isinstance(separation.way, ways.Line))
    words = f"Taken: {tables.flow_text(sum(takings), river.unit)} {unit} in all. {scene.caption}"
    return Result([*lines, "", *columns(title, rows)], table, scene._replace(caption=words))


def licence_cells(river, start, taken, left):
    """Days with taking, taken, its volume, quota left, and the day on which nothing was left of it."""
    days = [place for place, taking in enumerate(taken, start) if taking]
    ran_out = str(river.date(days[-1])) if days and not left else tables.NONE
    return [f"{len(days):,}", tables.flow_text(sum(taken), river.unit), tables.volume(1000 * sum(taken)),
            tables.flow_text(left, river.unit), ran_out]


def licence_csv(river, base, takings):
    return tables.daily_csv(river, ["flow", "base", "taking"], tables.flow_column(river.days, river.unit),
                            tables.base_column(base, river.unit), tables.flow_column(takings, river.unit))
