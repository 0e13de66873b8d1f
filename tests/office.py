#!/usr/bin/env python3
"""Tests tools/baseflow: each command's figures, each kind of bad input, its pictures, its help, its times, and docs/OFFICE.md.

    tests/office.py

Figures are held to tests/rules.py, and on long rivers to the engine that is called directly; limits are worked out from the
rules' own A and d. A picture's points are turned back into days and flows by what its axes say, and compared with the CSV.
"""
import csv
import os
import pty
import re
import resource
import shutil
import subprocess
import sys
import tempfile
import time
from collections import Counter
from datetime import date, timedelta
from fractions import Fraction
from pathlib import Path

sys.dont_write_bytecode = True
import documents
import rules
from hydrograph import Page, bars, differences, same_points
from interface import ROOT, Engine, archive
from desk import ways, words
from desk.guarantee import spell_limits

TOOL = ROOT / "tools/baseflow"
RUNS = Counter()
NAMES = ways.NAMES
SETTINGS = ((1, 9250, 0, 0, 1, None), (1, 9000, 0, 0, 3, None), (2, 9250, 0, 0, 1, None), (3, 9500, 0, 0, 1, 12_500),
            (4, 9000, 500, 0, 1, None), (5, 9780, 8000, 0, 1, None), (6, 9500, 0, 0, 1, None),
            (7, 9500, 1000, -5000, 1, None))  # method, p, q, s, passes, start
LINES = (5, 9000, None), (1, 9500, None), (5, 9000, "lowest"), (3, 8000, "highest"), (7, 9900, "median")


def check(holds, message):
    if not holds:
        sys.exit(f"office: {message}")


def run(*line, status=0, data=None, **more):
    """A run of the tool; its exit status has to be the one that is due, and standard error is empty where that is 0."""
    RUNS["runs"] += 1
    words = [more.pop("tool", TOOL), *map(str, line)]
    done = subprocess.run(words, input=data, capture_output=True, **{"cwd": ROOT, **more})
    said = done.stderr.decode()
    check(done.returncode == status, f"{line}: exit status {done.returncode}, '{said[-500:]}'")
    check(bool(said) == bool(status), f"{line}: '{said[-500:]}'")
    return done


def refuses(line, status, message, **more):
    """A run that fails says why in one line, and prints nothing else."""
    done = run(*line, status=status, **more)
    said = done.stderr.decode()
    told = said.startswith("tools/baseflow: ") and message in said and said.count("\n") == 1
    check(told and not done.stdout, f"{line}: '{said}', where '{message}' is due")
    RUNS["errors"] += 1


# ---- rivers and tables

def river(path):
    """The dates and flows of a CSV, None for a missing day."""
    with open(path, newline="") as file:
        rows = [(date.fromisoformat(day), int(flow) if flow else None) for day, flow, *_ in list(csv.reader(file))[1:]]
    flows, first = dict(rows), rows[0][0]
    dates = [first + timedelta(place) for place in range((rows[-1][0] - first).days + 1)]
    return dates, [flows.get(day) for day in dates]


def sample(name):
    return river(ROOT / "samples" / name)


def table(done, title):
    """The rows of a table that is printed below a title, as lists of cells."""
    lines = done.stdout.decode().splitlines()
    start = next(place for place, line in enumerate(lines) if re.match(title + r"\b.*?\s{2,}\S", line))
    rows = [re.split(r"\s{2,}", line.strip()) for line in lines[start + 1:]]
    return rows[:rows.index([""])] if [""] in rows else rows


def heads(done):
    """What stands beside each name in the lines before the first table."""
    lines = done.stdout.decode().split("\n\n")[0].splitlines()
    return {parts[0]: parts[1] for parts in (re.split(r"\s{2,}", line, maxsplit=1) for line in lines)}


def column(path, name):
    """A column of a CSV in thousandths, None for an empty cell."""
    with open(path, newline="") as file:
        return [None if row[name] == "" else int(Fraction(row[name]) * 1000) for row in csv.DictReader(file)]


def periods(dates, by):
    """The places of each year or month."""
    found = {}
    for place, day in enumerate(dates):
        found.setdefault(str(day)[:4 if by == "year" else 7], []).append(place)
    return found


def thousandths(value):
    return f"{value // 1000:,}.{value % 1000:03}"


def limit_of(setting):
    A, _, _, d = rules.weights(*setting[:4])
    return Fraction(setting[4] * d, 2 * (d - A))


def is_limit(text, exact):
    """Whether a printed limit is the exact one, rounded up in its last place."""
    stated = Fraction(text.replace(",", ""))
    return exact <= stated < exact + Fraction(1, 10 ** len(text.split(".")[1]))


def check_means(done, dates, days, base, limit, by):
    """Each row of a table of means, and the guarantee above it."""
    places = {**periods(dates, by), "whole": range(len(days))}
    rows = table(done, by)
    check([row[0] for row in rows] == list(places), f"the rows are {[row[0] for row in rows]}")
    for name, m, flow, slow, index, within in rows:
        part = [days[place] for place in places[name]], [base[place] for place in places[name]]
        totals = rules.totals(*part)
        if isinstance(totals, rules.Refusal):
            check((flow, index) == ("-", "-") or Fraction(flow) == 0, f"{name} has no flow, and {flow}, {index}")
            continue
        count, Y, T, _, share = totals
        wanted = f"{count:,}", thousandths(round(Fraction(1000 * Y, count))), thousandths(round(Fraction(T, count)))
        check((m, flow, slow, index) == (*wanted, f"{share / 10000:.4f}"), f"{name} has {m}, {flow}, {slow}, {index}")
        check(is_limit(within, (Fraction(1, 2) + 10 * count * limit / Y) / 10000), f"{name} is within {within}")
    check_guarantee(heads(done)["guarantee"], limit, count, Y)


def check_guarantee(text, limit, count, Y):
    daily, total, index = re.fullmatch(r"base flow within (\S+) l/s of the exact run on each day, its total within (\S+) "
                                       r"\(l/s\)·days, BFI within (\S+)", text).groups()
    check(is_limit(daily, limit / 1000) and is_limit(total, count * limit / 1000)
          and is_limit(index, (Fraction(1, 2) + 10 * count * limit / Y) / 10000), f"the guarantee is '{text}'")


# ---- the commands

def filters(folder):
    """Each method over a year, with the rules' own values."""
    dates, days = sample("year.csv")
    for method, p, q, s, passes, start in SETTINGS:
        out = folder / "filter.csv"
        line = ["samples/year.csv", "--method", NAMES[method], "--p", p, "--q", q, f"--s={s}", "--passes", passes]
        line += ["--start", "12.5"] if start is not None else []
        done = run("separate", *line, "--out", out)
        base = rules.filter_over(rules.near, (method, p, q, s, passes), days, start)
        check(column(out, "base_l_s") == base, f"method {method} has another base flow")
        quick = [None if b is None else 1000 * y - b for y, b in zip(days, base)]
        check(column(out, "quick_l_s") == quick and river(out)[1] == days, f"method {method}'s CSV")
        check_means(done, dates, days, base, limit_of((method, p, q, s, passes)), "month")


def lines(folder):
    """The line and the staggered lines over a year."""
    dates, days = sample("year.csv")
    for block, factor, choice in LINES:
        out = folder / "line.csv"
        staggered = ["--staggered", choice] if choice else []
        done = run("line", "samples/year.csv", "--block", block, "--factor", factor, *staggered, "--out", out)
        shifts = rules.lines_over(rules.near, block, factor, days)
        base = rules.chosen(ways.CHOICES[choice], shifts) if choice else shifts[0]
        check(column(out, "base_l_s") == base, f"blocks of {block}, {choice}: another base flow")
        check_means(done, dates, days, base, Fraction(1, 2), "month")


def thirty_years(folder, engine):
    """A long river, by year and by month, against the engine."""
    dates, days = sample("thirty_years.csv")
    base, out = engine.filter(5, 9780, 8000, 0, 1, days), folder / "long.csv"
    for by in ("year", "month"):
        done = run("separate", "samples/thirty_years.csv", "--method", 5, "--by", by, "--out", out)
        check(column(out, "base_l_s") == base, "thirty years have another base flow")
        check_means(done, dates, days, base, limit_of((5, 9780, 8000, 0, 1)), by)
    gaps = sum(day is None for day in days)
    check(f"1990-01-01 to 2019-12-31, 10,957 days, {gaps} of them missing" in heads(done)["river"], heads(done)["river"])


def totals(folder):
    """Totals of months, years and the whole, in a table and in a CSV."""
    dates, days = sample("year.csv")
    base = rules.over_stretches(lambda flows: rules.line_over(rules.near, 5, 9000, flows), days)
    done, out = run("totals", "samples/year.csv", "--out", folder / "totals.csv"), folder / "totals.csv"
    places = {**periods(dates, "month"), **periods(dates, "year"), "whole": range(len(days))}
    with open(out, newline="") as file:
        rows = [tuple(row.values()) for row in csv.DictReader(file)]
    check([row[0] for row in rows] == list(places), f"the CSV has {[row[0] for row in rows]}")
    printed = {row[0]: row[1:] for row in table(done, "month")}
    for name, m, Y, T, quick, index, _ in rows:
        part = [days[place] for place in places[name]], [base[place] for place in places[name]]
        wanted = rules.totals(*part)
        if isinstance(wanted, rules.Refusal):
            check((Y, index) == ("0", ""), f"{name} has no flow")
            continue
        got = int(m), int(Y), int(Fraction(T) * 1000), int(Fraction(quick) * 1000), round(Fraction(index) * 10000)
        check(got == wanted, f"{name} has {got}, where {wanted} is due")
        if name in printed:
            shown = [cell.replace(",", "") for cell in printed[name]]
            cubic = str(round(Fraction(wanted[2] * 864, 10_000)))
            check(shown[:6] == [m, Y, T, quick, cubic, index], f"{name} is printed as {shown}")
    check("whole" in printed, "the whole is not printed")


def ratios(folder):
    """Recession constant, limbs and half-lives, with base flow by the line and by a filter."""
    dates, days = sample("thirty_years.csv")
    line = rules.over_stretches(lambda flows: rules.line_over(rules.near, 5, 9000, flows), days)
    filtered = rules.filter_over(rules.near, (1, 9250, 0, 0, 1), days)
    for options, base, limb in (([], line, 5), (["--method", 1, "--limb", 3], filtered, 3)):
        out = folder / "limbs.csv"
        done = run("ratios", "samples/thirty_years.csv", *options, "--out", out)
        limbs = rules.counted_limbs(limb, days, base)
        found = rules.ratios(limbs)
        k, said = found[(len(found) + 1) // 2 - 1], heads(done)
        check(said["recession constant k"] == f"{k / 10000:.4f}, the median of {len(found):,} ratios", said)
        count = sum(len(flows) for _, flows in limbs)
        check(said["days of recession"] == f"{count:,} in {len(limbs):,} limbs of {limb} days or more", said)
        lives = [rules.half_life(p) for p in (k // 10, -(-k // 10))]
        between = f"{lives[0]} days" if lives[0] == lives[1] else f"{lives[0]} to {lives[1]} days"
        check(said["half of the flow left"] == f"after {between}", said)
        wanted = [[str(dates[at]), str(dates[at + len(flows) - 1]), str(len(flows)), str(flows[0]), str(flows[-1])]
                  for at, flows in limbs]
        with open(out, newline="") as file:
            check(list(csv.reader(file))[1:] == wanted, "the CSV has other limbs")
        check(table(done, "first day")[:10] == wanted[:10], "other limbs are printed")


def half_lives():
    """Half-lives of thousandths, and of a p that lies between two."""
    numbers = [1, 2, 500, 501, 700, 900, 985, 998, 999]
    rows = table(run("half-life", *numbers, "0.9849", "0.9999", "0.0004", "0.985"), "p")
    wanted = [[f"{p / 1000:.4f}", f"after {rules.half_life(p)} day{'s' * (rules.half_life(p) > 1)}"] for p in numbers]
    wanted += [["0.9849", "after 43 to 46 days"], ["0.9999", "after 693 days at least"], ["0.0004", "after 1 day at most"],
               ["0.9850", "after 46 days"]]
    check(rows == wanted, f"half-lives are {rows}")


def bfimax(folder):
    """BFImax, and that its guarantee holds of the exact run."""
    dates, days = sample("thirty_years.csv")
    for last, duration, p in (("2003-09-30", 90, 9800), ("2005-04-26", 300, 9600), ("1999-12-31", 20, 9999)):
        out = folder / "spell.csv"
        done = run("bfimax", "samples/thirty_years.csv", "--last", last, "--days", duration, "--p", p, "--out", out)
        place = dates.index(date.fromisoformat(last))
        answer, base = rules.bfimax_over(rules.near, place, duration, p, days)
        exact, exact_base = rules.bfimax_over(Fraction, place, duration, p, days)
        check(heads(done)["BFImax"] == f"{answer / 10000:.4f}" and column(out, "base_l_s") == base, f"{last}: {heads(done)}")
        daily, index = re.fullmatch(r"base flow within (\S+) l/s of the exact run on each day, BFImax within (\S+)",
                                    heads(done)["guarantee"]).groups()
        off = max(abs(one - other) for one, other in zip(base, exact_base) if one is not None)
        check(off <= Fraction(daily.replace(",", "")) * 1000, f"{last}: {daily} is no limit of {float(off)}")
        check(abs(answer - exact) <= Fraction(index.replace(",", "")) * 10000, f"{last}: {index} is no limit of the index")
    for p in (9500, 9800, 9999):
        off = [limit - rules.stretched(p, j) for j, limit in enumerate(spell_limits(p, 60))]
        check(len(off) == 60 and 0 <= min(off) and max(off) < Fraction(1, 1000), f"other limits of {p}")


def compare(folder, engine):
    """Every method in a row, each as by itself; and the order that is known of them."""
    _, days = sample("thirty_years.csv")
    done, out = run("compare", "samples/thirty_years.csv", "--out", folder / "all.csv"), folder / "all.csv"
    rows = {row[0]: row for row in table(done, "base flow by")}
    check(list(rows) == list(map(str, ways.usual_ways())) and len(rows) == 12, f"compared are {list(rows)}")
    for way in ways.usual_ways():
        base = way.base(engine, days)
        m, _, T, _, index = rules.totals(days, base)
        limit = limit_of(way[:5]) if isinstance(way, ways.Filter) else Fraction(1, 2)
        _, count, mean, share, _, daily = rows[str(way)]
        wanted = f"{m:,}", thousandths(round(Fraction(T, m))), f"{index / 10000:.4f}"
        check((count, mean, share) == wanted and is_limit(daily, limit / 1000), f"{way}: {rows[str(way)]}")
        check(column(out, f"{str(way).replace(',', '')}_l_s") == base, f"{way} has another base flow")
    index = {str(way): Fraction(rows[str(way)][3]) for way in ways.usual_ways()}
    line, lowest, highest, median = (index[str(ways.Line(choice=choice))] for choice in (None, "lowest", "highest", "median"))
    check(lowest <= median <= highest and lowest <= line <= highest, "the order of the staggered lines")
    check(index[str(ways.usual(1, 3))] < index[str(ways.usual(1))], "three passes leave no less base flow than one")
    check(index[str(ways.usual(5))] <= Fraction(8, 10), "Eckhardt's BFI is above its BFImax")
    check(max(index[str(ways.usual(n))] for n in (2, 3)) <= Fraction(1, 2), "Chapman's BFI is above one half")
    dry = folder / "short.csv"
    dry.write_text("date,flow\n2020-01-01,5\n2020-01-02,4\n")
    done = run("compare", dry)
    refused = [row[0] for row in table(done, "base flow by") if row[1:] == ["-"] * 5]
    said = [f"{name}: refused with 17: no segment with two or more turning points" for name in refused]
    check(len(refused) == 4 and done.stdout.decode().splitlines()[-4:] == said, f"a river without a line: {refused}")


def licence(folder):
    """A licence over the whole river and year by year."""
    dates, days = sample("thirty_years.csv")
    shifts = rules.lines_over(rules.near, 5, 9000, days)
    base, out = rules.chosen(1, shifts), folder / "taken.csv"
    for limit, quota, yearly in ((200, 20_000, True), (90, 150_000, False), (0, 10, False), (50, 10**12, False)):
        line = ["licence", "samples/thirty_years.csv", "--limit", limit, "--quota", quota, *["--yearly"] * yearly]
        rows = table(run(*line, "--staggered", "lowest", "--out", out), "year" if yearly else "period")
        parts = periods(dates, "year") if yearly else {"whole": range(len(days))}
        every = []
        for (name, places), row in zip(parts.items(), rows, strict=True):
            takings, left = rules.replay(limit, quota, [days[at] for at in places], [base[at] for at in places])
            last = max((at for at, taking in zip(places, takings) if taking), default=None)
            wanted = [name, f"{sum(map(bool, takings)):,}", f"{sum(takings):,}", f"{round(Fraction(864 * sum(takings), 10)):,}",
                      f"{left:,}", "-" if left or last is None else str(dates[last])]
            check(row == wanted, f"{row}, where {wanted} is due")
            every += takings
        check(column(out, "taking_l_s") == [1000 * taking for taking in every], "other takings in the CSV")


def known_answers():
    """Rivers whose answer is known beforehand."""
    said = heads(run("ratios", "samples/recession.csv", "--block", 1))
    check(said["recession constant k"].startswith("0.9700,"), f"a pure recession of 0.97 has {said}")
    said = heads(run("ratios", "samples/thirty_years.csv"))
    check(said["recession constant k"].startswith("0.9750,"), f"a reservoir of 0.975 has {said}")
    rows = table(run("separate", "samples/steady.csv", "--method", 5, "--bfimax", 8000, "--start", 80), "month")
    check({row[4] for row in rows} == {"0.8000"}, f"a steady river with BFImax 0.8 has {rows}")
    subprocess.run([ROOT / "tools/samples", "check"], check=True, stdout=subprocess.DEVNULL)


def forms(folder):
    """The same river in other forms gives the same table."""
    wanted = run("separate", "samples/river.csv", "--method", 5).stdout
    record, cubic, marked = (folder / name for name in ("river.record", "cubic.csv", "marked.csv"))
    subprocess.run([ROOT / "tools/record", "to-record", ROOT / "samples/river.csv", record], check=True)
    subprocess.run([ROOT / "tools/record", "to-csv", "--unit", "m3", record, cubic], check=True)
    dates, days = sample("river.csv")
    marked.write_text("q;x;day\n" + "".join(f"{-999 if y is None else y};;{day}\n" for day, y in zip(dates, days)))
    named = wanted.replace(b"samples/river.csv", b"%s")
    for path, options in ((record, []), (marked, ["--delimiter", ";", "--columns", "day,q", "--missing", "-999"])):
        got = run("separate", path, "--method", "5", *options).stdout
        check(got == named.replace(b"%s", str(path).encode()), f"{path.name}: {got.decode()}")
    got = run("separate", "-", "--method", "Eckhardt", "--p", "0.978", "--q", "0.8", data=record.read_bytes()).stdout
    check(got == named.replace(b"%s", b"standard input"), "a record by standard input, with shares")
    got = run("separate", cubic, "--method", 5, "--unit", "m3", "--start", "1.486", "--out", "-").stdout.decode().splitlines()
    check(got[:2] == ["date,flow_m3_s,base_m3_s,quick_m3_s", "2024-03-01,2.064,1.486000,0.578000"], f"cubic metres: {got[:2]}")
    check(len(got) == 1 + len(days), "a CSV on standard output")
    row = table(run("separate", cubic, "--method", 5, "--unit", "m3"), "month")[-1]
    check(row == ["whole", "38", "3.146", "1.889", "0.6006", "0.00006"], f"cubic metres are printed as {row}")
    written = folder / "written.csv"
    run("separate", record, "--method", 5, "--out", written)
    got = run("separate", written, "--columns", "date,flow_l_s", "--method", 5).stdout
    check(got == named.replace(b"%s", str(written).encode()), "a CSV that was written is read again")


# ---- what goes wrong

# files in the folder of these tests
BAD_FILES = {
    "notcsv.csv": "no csv at all\n", "date.csv": "date,flow\n2024-02-30,5\n", "empty.csv": "",
    "flow.csv": "date,flow\n2024-01-01,5\n2024-01-02,10000001\n", "cells.csv": "2024-01-01,5,6\n",
    "missing.csv": "date,flow\n2024-01-01,\n2024-01-02,\n", "zero.csv": "date,flow\n2024-01-01,0\n",
    "good.csv": "date,flow\n2024-01-01,5\n2024-01-02,4\n",
}
BAD_RECORD = bytes.fromhex("01 00000000 02 64000000 09 05000000")
METHOD = "--method", "5"

# words behind `separate`, exit status, and what the message has to say
ERRORS = (
    (["none.csv", *METHOD], 2, "cannot read none.csv: No such file"),
    ([".", *METHOD], 2, "cannot read .: Is a directory"),
    (["notcsv.csv", *METHOD], 2, "notcsv.csv, line 1: two columns are wanted, date and flow, and 1 found"),
    (["empty.csv", *METHOD], 2, "empty.csv, line 1: there is no line with a date and a flow"),
    (["date.csv", *METHOD], 2, "date.csv, line 2: '2024-02-30' is no date (YYYY-MM-DD)"),
    (["flow.csv", *METHOD], 2, "flow.csv, line 3: flow 10000001 is over 10,000,000 litres a second"),
    (["cells.csv", *METHOD], 2, "cells.csv, line 1: two columns are wanted"),
    (["bad.record", *METHOD], 1, "bad.record: refused with 7: an end entry that counts another number of days"),
    (["bad.record", "--missing", "NA", *METHOD], 2, "bad.record: this is a record; --columns"),
    (["missing.csv", *METHOD], 1, "missing.csv: refused with 21: a flow total Y of 0"),
    (["zero.csv", *METHOD], 1, "zero.csv: refused with 21: a flow total Y of 0"),
    (["good.csv"], 2, "--method"),
    (["good.csv", "--method", "8"], 1, "good.csv: refused with 11: a method that is not 1 to 7"),
    (["good.csv", "--method", "hysep"], 2, "--method: 'hysep' is no method: a number from 1 to 7, or a name"),
    (["good.csv", "--method", "5", "--p", "10000"], 1, "good.csv: refused with 12: p, q or s outside its range"),
    (["good.csv", "--method", "1", "--q", "5"], 1, "refused with 12: p, q or s outside its range"),
    (["good.csv", "--method", "7", "--s", "-10000"], 1, "refused with 12"),
    (["good.csv", "--method", "5", "--p", "0.97801"], 2, "--p: '0.97801' is no number of ten-thousandths (9780) and no share"),
    (["good.csv", "--method", "5", "--p", "-5"], 2, "--p"),
    (["good.csv", "--method", "5", "--p", "4294967297"], 2, "--p: '4294967297' is no number of ten-thousandths"),
    (["good.csv", "--method", "1", "--passes", "4"], 1, "refused with 13: passes that are not 1, 2 or 3"),
    (["good.csv", "--method", "2", "--passes", "2"], 1, "refused with 13"),
    (["good.csv", "--method", "1", "--passes", "4294967297"], 2, "--passes: '4294967297' is no whole number from 0 to"),
    (["good.csv", "--method", "1", "--start", "5.001"], 1, "refused with 29: a start that is given lies above"),
    (["good.csv", "--method", "1", "--start", "0.0001"], 2, "--start 0.0001 is no whole number of thousandths of a litre"),
    (["good.csv", "--method", "1", "--start", "99999999999999999999"], 2, "--start 99999999999999999999 is too large"),
    (["good.csv", *METHOD, "--unit", "cfs"], 2, "--unit: invalid choice: 'cfs'"),
    (["good.csv", *METHOD, "--bogus", "1"], 2, "unrecognized arguments: --bogus 1"),
    (["good.csv", *METHOD, "--columns", "a"], 2, "--columns: --columns is date,flow"),
    (["good.csv", *METHOD, "--delimiter", ";;"], 2, "--delimiter is one character"),
    (["good.csv", *METHOD, "--log"], 2, "--log is of a picture; --plot FILE.svg draws one"),
    (["good.csv", *METHOD, "--plot", "x.svg", "--show", "2024-01-01"], 2, "--show: '2024-01-01' is not two dates"),
    (["good.csv", *METHOD, "--plot", "x.svg", "--show", "2024-01-02,2024-01-01"], 2, "2024-01-01 comes before 2024-01-02"),
    (["good.csv", *METHOD, "--plot", "x.svg", "--show", "2024-01-02,2024-01-03"], 2, "is no part of good.csv, 2024-01-01 to"),
    (["good.csv", *METHOD, "--out", "."], 2, "cannot write .: Is a directory"),
    (["good.csv", *METHOD, "--out", "none/out.csv"], 2, "cannot write none/out.csv: No such file"),
    (["good.csv", *METHOD, "--plot", "."], 2, "cannot write .: Is a directory"),
    (["good.csv", *METHOD, "--out", "/dev/full"], 2, "cannot write /dev/full: No space left"),
    (["good.csv", *METHOD, "--out", "good.csv"], 2, "good.csv is the river; name another file for the output"),
    (["good.csv", *METHOD, "--out", "x", "--plot", "./x"], 2, "--out and --plot are both x"),
)

# words, exit status, and what the message has to say
OTHER_ERRORS = (
    (["line", "good.csv", "--block", "0"], 1, "refused with 16: block length N, factor g or choice out of range"),
    (["line", "good.csv"], 1, "good.csv: refused with 17: no segment with two or more turning points"),
    (["line", "good.csv", "--staggered", "mean"], 2, "--staggered: invalid choice: 'mean'"),
    (["line", "good.csv", "--method", "5"], 2, "unrecognized arguments: --method 5"),
    (["ratios", "good.csv", "--method", "5", "--limb", "1"], 1, "refused with 18: shortest limb L out of range"),
    (["ratios", "good.csv", "--method", "1"], 1, "refused with 19: no ratio, since no limb counts"),
    (["ratios", "good.csv", "--p", "9000"], 2, "--p is of a filter; --method says which"),
    (["totals", "good.csv", "--method", "5", "--block", "5"], 2, "--block is of the minima line, and --method of a filter"),
    (["half-life", "1000"], 1, "refused with 12"),
    (["half-life", "0.98491"], 2, "P: '0.98491' is no number"),
    (["half-life"], 2, "P"),
    (["bfimax", "good.csv", "--days", "1"], 1, "refused with 23: duration D out of range"),
    (["bfimax", "good.csv", "--days", "3"], 1, "refused with 24: a last day outside the list"),
    (["bfimax", "good.csv", "--days", "2", "--last", "1999-01-01"], 1, "refused with 24: a last day outside the list"),
    (["bfimax", "good.csv", "--days", "2", "--last", "1.1.1999"], 2, "--last: '1.1.1999' is no date (YYYY-MM-DD)"),
    (["bfimax", "zero.csv", "--days", "2"], 1, "refused with 24"),
    (["bfimax", "good.csv", "--days", "2", "--p", "0"], 1, "refused with 12"),
    (["compare", "missing.csv"], 1, "missing.csv: refused with 21"),
    (["licence", "good.csv", "--method", "5", "--limit", "10000001", "--quota", "1"], 1, "refused with 31: a daily limit"),
    (["licence", "good.csv", "--method", "5", "--limit", "1", "--quota", "1000000000001"], 1, "refused with 31"),
    (["licence", "good.csv", "--method", "5", "--limit", "0.5", "--quota", "1"], 2, "--limit 0.5 is no whole number of litres"),
    (["licence", "good.csv", "--method", "5", "--limit", "4294967296", "--quota", "1"], 2, "--limit 4294967296 is too large"),
    (["licence", "good.csv", "--limit", "1"], 2, "--quota"),
    ([], 2, "a command is wanted, one of separate, line, totals"),
    (["separation"], 2, "and not 'separation'"),
)


def errors(folder):
    """Each kind of bad input, told in one line; no file is made."""
    for name, text in BAD_FILES.items():
        folder.joinpath(name).write_text(text)
    folder.joinpath("bad.record").write_bytes(BAD_RECORD)
    cases = [(["separate", *line], *rest) for line, *rest in ERRORS] + list(OTHER_ERRORS)
    before = sorted(os.listdir(folder))
    for line, status, message in cases:
        refuses(line, status, message, cwd=folder)
    check(sorted(os.listdir(folder)) == before, f"left behind: {set(os.listdir(folder)) - set(before)}")


def streams():
    """Closed and full streams."""
    def closing(*numbers):
        return {"preexec_fn": lambda: [os.close(number) for number in numbers]}

    line = ["separate", "samples/river.csv", "--method", "5"]
    refuses(line, 2, "cannot write standard output: it is closed", **closing(1))
    refuses(["--help"], 2, "cannot write standard output: it is closed", **closing(1))
    refuses(["separate", "-", "--method", "5"], 2, "cannot read standard input: it is closed", **closing(0))
    with open("/dev/full", "wb") as full:
        done = subprocess.run([TOOL, *line], cwd=ROOT, stdout=full, stderr=subprocess.PIPE)
    check(done.returncode == 2 and b"standard output: No space left" in done.stderr, f"a full disk: {done.stderr}")
    done = subprocess.run([TOOL, "separate", "none.csv", "--method", "5"], cwd=ROOT, stdout=subprocess.PIPE, **closing(2))
    check((done.returncode, done.stdout) == (2, b""), "an error with standard error closed")


def progress(folder):
    """On a terminal, a run of more than a second says what it does; elsewhere it says nothing."""
    for terminal in (True, False):
        pipe = folder / "slow"
        os.mkfifo(pipe)
        ours, theirs = pty.openpty() if terminal else os.pipe()
        told = subprocess.Popen([TOOL, "separate", pipe, "--method", "5"], cwd=ROOT, stdout=subprocess.PIPE, stderr=theirs)
        with open(pipe, "wb") as slow:
            time.sleep(1.6)
            slow.write((ROOT / "samples/river.csv").read_bytes())
        out, _ = told.communicate()
        os.set_blocking(ours, False)
        os.write(theirs, b".")
        said = os.read(ours, 4096)
        check(told.returncode == 0 and b"whole" in out, "a slow river")
        check((b"reading" in said) == terminal and (terminal or said == b"."), f"progress, on a terminal {terminal}: {said}")
        pipe.unlink()
        os.close(ours), os.close(theirs)


# ---- help

def helps(folder):
    """Each command's help shows its options, and an example that works as it is written, beside tools/ and samples/."""
    for name in ("tools", "samples"):
        os.symlink(ROOT / name, folder / name)
    shown = run("--help").stdout.decode()
    for name in words.COMMANDS:
        check(f"\n  {name} " in shown, f"the help has no {name}")
        text = run(name, "--help").stdout.decode()
        example = re.search(r"^example:\n  (tools/baseflow .*)$", text, re.MULTILINE)[1]
        done = subprocess.run(example, shell=True, cwd=folder, capture_output=True, text=True)
        check(done.returncode == 0 and done.stdout and not done.stderr, f"`{example}`: {done.stderr}")
        RUNS["runs"] += 1
    text = run("separate", "--help").stdout.decode()
    for number, name in NAMES.items():
        check(re.search(rf"^ +{number} {re.escape(name)} +p \d", text, re.MULTILINE), f"the help has no ranges of {name}")
    RUNS["helps"] += 1 + len(words.COMMANDS)


# ---- pictures

def check_picture(path, dates, flows, base, log=False, **more):
    """A picture's points are the CSV's, its gaps are open, and its dates stand where they should."""
    page = Page(path, log)
    found = list(differences(page, dates, flows, base, **more))
    check(not found, f"{path.name}: {'; '.join(found)}")
    RUNS["pictures"] += 1
    return page


def in_unit(values, unit=1000):
    return [None if value is None else value / unit for value in values]


def drawn(folder, *line, name="picture.svg"):
    path = folder / name
    run(*line, "--plot", path)
    return path


def pictures(folder, engine):
    """Forty days and thirty years, with and without a log scale, and parts of them."""
    dates, days = sample("river.csv")
    base, line = in_unit(engine.filter(5, 9780, 8000, 0, 1, days)), ["separate", "samples/river.csv", "--method", 5]
    check_picture(drawn(folder, *line), dates, days, base)
    page = check_picture(drawn(folder, *line, "--log", "--title", "Aa < Bb & \"C\""), dates, days, base, log=True)
    check("Aa < Bb & \"C\"" in page.words, f"the title is not there: {page.words}")
    dates, days = sample("thirty_years.csv")
    base, line = in_unit(engine.line(5, 9000, days)), ["line", "samples/thirty_years.csv"]
    check_picture(drawn(folder, *line), dates, days, base, met=True)
    check_picture(drawn(folder, *line, "--log"), dates, days, base, log=True, met=True)
    start, end = (dates.index(date(year, 6, 1)) for year in (2001, 2003))
    part = drawn(folder, *line, "--show", f"{dates[start]},{dates[end - 1]}")
    check_picture(part, dates[start:end], days[start:end], base[start:end], met=True)
    spell = drawn(folder, "bfimax", "samples/thirty_years.csv", "--last", "2003-09-30", "--days", "90")
    end = dates.index(date(2003, 9, 30)) + 1
    base = in_unit(engine.bfimax(end - 1, 90, 9780, days)[1])
    check_picture(spell, dates[end - 90:end], days[end - 90:end], base[end - 90:end])


def limb_pictures(folder, engine):
    """Limbs and takings on the hydrograph."""
    dates, days = sample("storms.csv")
    base = engine.line(5, 9000, days)
    _, _, limbs = engine.recession(5, days, base)
    check_picture(drawn(folder, "ratios", "samples/storms.csv"), dates, days, in_unit(base), met=True, limbs=limbs)
    path = drawn(folder, "licence", "samples/storms.csv", "--limit", 60, "--quota", 150)
    page = check_picture(path, dates, days, in_unit(base), met=True)
    takings, _ = rules.replay(60, 150, days, base)
    wanted = [(*spot, page.y(flow - taking)) for spot, flow, taking in zip(page.spots(days), days, takings) if taking]
    check(len(wanted) > 2 and same_points([bars(page)], [wanted]), f"other takings are drawn: {bars(page)}")


# days, whether on a log scale, unit
ODD_RIVERS = {"one": ([7], False, "l"), "alone": ([5, None, 8, None, None, 3], False, "l"), "zero": ([0, 1], True, "l"),
              "zeros": ([5, 0, 12, 3000, 0], True, "l"), "cubic": ([1500, 2, None, 90_000], False, "m3"),
              "small": ([0, 0, 1], False, "l")}


def odd_pictures(folder, engine):
    """A river of one day, days that stand alone, zeros on a log scale, cubic metres."""
    for name, (days, log, unit) in ODD_RIVERS.items():
        path, finest = folder / f"{name}.csv", 1 if unit == "l" else 1000
        flows = [None if day is None else day / finest for day in days]
        dates = [date(2024, 1, 1) + timedelta(at) for at in range(len(days))]
        path.write_text("".join(f"{day},{'' if flow is None else f'{flow:.3f}'}\n" for day, flow in zip(dates, flows)))
        base = in_unit(engine.filter(6, 9500, 0, 0, 1, days), 1000 * finest)
        line = ["separate", path, "--method", 6, "--unit", unit, *["--log"] * log]
        page = check_picture(drawn(folder, *line, name=f"{name}.svg"), dates, flows, base, log=log)
        marks = sum(data.count("M") for data in page.paths("dry"))
        check(marks == days.count(0) * log and (marks > 0) == ("no flow" in page.words), f"{name}: {marks} dry days are marked")


def kept_picture(folder):
    """The picture in docs/ is the one that README's command makes."""
    path = drawn(folder, "line", "samples/year.csv")
    same = path.read_bytes() == (ROOT / "docs/hydrograph.svg").read_bytes()
    check(same, "docs/hydrograph.svg is not what `tools/baseflow line samples/year.csv --plot docs/hydrograph.svg` draws")


# ---- where it runs

def places(folder):
    """Without an archive, from the folder of a release, and twice at once with an archive that was not linked yet."""
    line = ["separate", "samples/river.csv", "--method", "5"]
    bare = {name: value for name, value in os.environ.items() if not name.startswith("BASEFLOW_")}
    refuses(line, 2, "none is not there; `tools/archive` makes it", env={**bare, "BASEFLOW_ARCHIVE": "none"})
    refuses(line, 2, "none is not there; BASEFLOW_LIBRARY names it", env={**bare, "BASEFLOW_LIBRARY": "none"})
    refuses(line, 2, "cannot be loaded", env={**bare, "BASEFLOW_LIBRARY": "README.md"})
    wanted = run(*line).stdout
    release = folder / "release"
    for part in ("tools", "include", "samples"):
        shutil.copytree(ROOT / part, release / part)
    (release / "lib").mkdir()
    tool = release / "tools/baseflow"
    refuses(line, 2, "libbaseflow.a is not there", tool=tool, env=bare)
    shutil.copy(archive(), release / "lib/libbaseflow.a")
    (folder / "bin").mkdir()
    os.symlink(sys.executable, folder / "bin/python3")
    refuses(line, 2, "gcc is not there; it links the archive", tool=tool, env={**bare, "PATH": str(folder / "bin")})
    both = [subprocess.Popen([tool, *line], cwd=ROOT, stdout=subprocess.PIPE, env=bare) for _ in range(2)]
    check([one.communicate()[0] for one in both] == [wanted] * 2, "two runs that link at once")
    shared = release / "target/libbaseflow.so"
    before = shared.stat().st_ino
    check(run(*line, tool=tool, env=bare).stdout == wanted and shared.stat().st_ino == before, "linked once")
    os.utime(release / "lib/libbaseflow.a")
    check(run(*line, tool=tool, env=bare).stdout == wanted and shared.stat().st_ino != before, "linked anew")
    check(os.listdir(release / "target") == ["libbaseflow.so"], f"left behind: {os.listdir(release / 'target')}")
    os.replace(shared, release / "lib/libbaseflow.so")
    check(run(*line, tool=tool, env={**bare, "PATH": str(folder / "bin")}).stdout == wanted, "a release with a shared library")
    check(os.listdir(release / "target") == [], "a release with a shared library links nothing")


def times(folder):
    """Thirty years take under a second, a hundred under three, of the processor's time."""
    _, days = sample("thirty_years.csv")
    century = folder / "century.csv"
    flows = ["" if day is None else day for day in days]
    century.write_text("".join(f"{date(1900, 1, 1) + timedelta(at)},{flows[at % len(days)]}\n" for at in range(36_525)))
    taken = {}
    for path, limit in ((ROOT / "samples/thirty_years.csv", 1), (century, 3)):
        for line in (["separate", "--method", 1, "--passes", 3, "--out", folder / "t.csv", "--plot", folder / "t.svg"],
                     ["line", "--plot", folder / "t.svg"], ["ratios"], ["totals", "--out", folder / "t.csv"], ["compare"]):
            before, began = resource.getrusage(resource.RUSAGE_CHILDREN), time.monotonic()
            run(line[0], path, *line[1:])
            after = resource.getrusage(resource.RUSAGE_CHILDREN)
            seconds = after.ru_utime + after.ru_stime - before.ru_utime - before.ru_stime
            taken[f"{line[0]}, {path.stem}"] = f"{seconds:.2f} s ({time.monotonic() - began:.2f})"
            check(seconds < limit, f"{line[0]} over {path.name} takes {seconds:.2f} s")
    print("office: of the processor's time, and of the clock's:", "; ".join(f"{name} {text}" for name, text in taken.items()))


def main():
    if len(sys.argv) != 1:
        sys.exit(__doc__)
    engine = Engine()
    with tempfile.TemporaryDirectory() as name:
        folder = Path(name)
        for test in (filters, lines, totals, ratios, bfimax, licence, forms, progress, places, times, kept_picture):
            test(folder)
        for test in (thirty_years, compare, pictures, limb_pictures, odd_pictures):
            test(folder, engine)
        for test in (half_lives, known_answers, streams):
            test()
        for test in (errors, helps):
            os.mkdir(folder / test.__name__)
            test(folder / test.__name__)
    ran = documents.try_page(ROOT / "docs/OFFICE.md")
    counts = [*(RUNS[name] for name in ("runs", "errors", "pictures", "helps")), len(ran)]
    print("office: {} runs, {} errors told, {} pictures read back, {} helps, {} commands of the page".format(*counts))


main()
