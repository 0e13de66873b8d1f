"""Reads a picture of tools/baseflow back: its points, by what its own axes say."""
import re
import xml.etree.ElementTree as ET
from datetime import date
from math import log10

import rules

SVG = "{http://www.w3.org/2000/svg}"
CLOSE = 0.006  # a coordinate has two decimals
MONTHS = "Jan Feb Mar Apr May Jun Jul Aug Sep Oct Nov Dec".split()
FRAME = re.compile(r"M\d+ \d+V\d+H\d+")  # of the two axes


def are_close(one, other):
    return all(abs(a - b) < CLOSE for a, b in zip(one, other, strict=True))


def same_points(got, wanted):
    return [len(part) for part in got] == [len(part) for part in wanted] and all(
        are_close(point, spot) for part, other in zip(got, wanted) for point, spot in zip(part, other))


class Page:
    """A picture, and what its axes say."""

    def __init__(self, path, log=False):
        self.root, self.log = ET.parse(path).getroot(), log
        entries = list(self.root.iter(f"{SVG}text"))
        self.words = [entry.text for entry in entries]
        flows = [(float(entry.text.replace("\u2009", "")), float(entry.get("y")) - 4) for entry in entries
                 if entry.get("text-anchor") == "end"]
        (self.low, self.bottom), (self.high, self.top) = min(flows), max(flows)
        frame = next(data for data in self.paths("axis") if FRAME.fullmatch(data))
        self.left, _, _, self.right = map(float, re.findall(r"\d+", frame))
        self.dates = [(entry.text, float(entry.get("x")), float(entry.get("y"))) for entry in entries
                      if entry.get("text-anchor") == "middle"]

    def paths(self, kind):
        """What is drawn of a kind; the legend's samples are in a group of their own."""
        return [entry.get("d") for entry in self.root.findall(f"{SVG}path") if entry.get("class") == kind]

    def points(self, kind):
        """The points of each part of what is drawn of a kind."""
        return [[tuple(map(float, point)) for point in re.findall(r"[ML](-?[\d.]+) (-?[\d.]+)", f"M{part}")]
                for data in self.paths(kind) for part in data.split("M")[1:]]

    def y(self, value):
        """Where a flow of the axis's unit stands."""
        if self.log and value == 0:
            return self.bottom
        low, value, high = map(log10, (self.low, value, self.high)) if self.log else (self.low, value, self.high)
        return self.bottom - (self.bottom - self.top) * (value - low) / (high - low)

    def spots(self, values):
        """Where each value stands, None for one that is not there."""
        width = (self.right - self.left) / len(values)
        return [None if value is None else (self.left + width * (place + 0.5), self.y(value))
                for place, value in enumerate(values)]

    def stretches(self, values):
        """The same in a list for each stretch without a gap."""
        return [part for _, part in rules.stretches(self.spots(values))]

    def ticks(self):
        """Each date of the axis, and where it stands. A year stands below its first date."""
        heights = [y for _, _, y in self.dates]
        years = {x: int(text) for text, x, y in self.dates if y == max(heights) and text.isdigit()}
        year = None
        for text, x, _ in (entry for entry in self.dates if entry[2] == min(heights)):
            year = int(text) if text.isdigit() else years.get(x, year)
            number, _, month = text.rpartition(" ")
            yield date(year, MONTHS.index(month) + 1 if month in MONTHS else 1, int(number or 1)), x


def differences(page, dates, flows, base, met=False, limbs=()):
    """What a picture shows otherwise than these flows and base values, which are in its unit."""
    spots, areas = page.spots(flows), page.stretches(base)
    at_base = [[spot] for spot, flow, value in zip(page.spots(base), flows, base) if met and flow is not None and flow == value]
    for kind, wanted in (("flow", page.stretches(flows)), ("edge", areas), ("met", at_base),
                         ("base", [[(part[0][0], page.bottom), *part] for part in areas]),
                         ("limbs", [spots[start:start + count] for start, count in limbs])):
        if not same_points(page.points(kind), wanted):
            yield f"other points of {kind}"
    ticks, width = list(page.ticks()), (page.right - page.left) / len(dates)
    if not 1 <= len(ticks) <= 18 or not all(are_close([x], [page.left + width * (day - dates[0]).days]) for day, x in ticks):
        yield f"other dates on the axis: {ticks}"
    if min(y for part in page.points("flow") for _, y in part) < page.top - CLOSE:
        yield "a flow above the axis"


def bars(page):
    """What is drawn of takings: where a bar stands, its top and its foot."""
    return [tuple(map(float, bar)) for bar in re.findall(r"M([\d.]+) ([\d.]+)V([\d.]+)", "".join(page.paths("taken")))]
