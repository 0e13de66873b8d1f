"""A hydrograph as an SVG file: flow, base flow beneath it, and what a command has found on it."""
from datetime import timedelta
from html import escape
from textwrap import wrap
from typing import NamedTuple

from desk.axes import date_ticks, linear, logarithmic
from desk.river import stretches

WIDTH, HEIGHT = 1000, 520
LEFT, RIGHT, TOP, BOTTOM = 80, 982, 76, 430
SIGNS = {"l": "litres a second", "m3": "cubic metres a second"}
SCALES = {"l": 1000, "m3": 1_000_000}  # thousandths of a litre a second
CHARACTER = 6.3  # width of one, about
LINE = 148  # characters of a line across the picture
LEGEND = "flow", "base", "met", "limbs", "taken", "dry"
STYLE = """
text { font-family: sans-serif; font-size: 12px; fill: #222; }
.title { font-size: 16px; font-weight: bold; }
.grid { stroke: #ddd; stroke-width: 1; fill: none; }
.between { stroke: #f1f1f1; stroke-width: 1; fill: none; }
.axis { stroke: #444; stroke-width: 1; fill: none; }
.base { fill: #a9bfd0; stroke: none; }
.edge { fill: none; stroke: #3f7cab; stroke-linejoin: round; stroke-linecap: round; }
.flow { fill: none; stroke: #14202b; stroke-linejoin: round; stroke-linecap: round; }
.limbs { fill: none; stroke: #eb9a4b; stroke-width: 8; stroke-linejoin: round; stroke-linecap: round; }
.taken { fill: none; stroke: #d9793f; }
.met { fill: none; stroke: #14202b; stroke-linecap: round; }
.dry { fill: #a33; stroke: none; }
"""


class Scene(NamedTuple):
    """What a picture shows: a river with its base list, and what else there is."""
    river: object
    base: list
    caption: str
    met: bool = False  # whether the days on which base flow is the whole flow are marked
    limbs: list = ()  # first place and number of days
    takings: list = ()  # litres a second
    span: tuple = ()  # the first and the last date shown


class Plot(NamedTuple):
    """Where days and flows stand on the page. Flows are in thousandths."""
    days: int
    scale: object
    unit: str

    def x(self, place):
        return LEFT + (RIGHT - LEFT) * (place + 0.5) / self.days

    def edge(self, place):
        """Where a day begins."""
        return LEFT + (RIGHT - LEFT) * place / self.days

    def y(self, thousandths):
        return BOTTOM - (BOTTOM - TOP) * self.scale.share(thousandths / SCALES[self.unit])

    def point(self, place, value):
        return f"{short(self.x(place))} {short(self.y(value))}"


def short(number):
    """Two decimals at most."""
    return f"{number:.2f}".rstrip("0").rstrip(".")


# ---- paths

def line_path(plot, values):
    """A line through each stretch of values; a value alone is a dot."""
    return "".join("M" + "L".join([plot.point(place, values[place]) for place in range(start, end)])
                   + ("h0.01" if end - start == 1 else "") for start, end in stretches(values))


def area_path(plot, values):
    """The area from each stretch of values down to zero."""
    parts = []
    for start, end in stretches(values):
        points = "L".join([plot.point(place, values[place]) for place in range(start, end)])
        parts.append(f"M{short(plot.x(start))} {BOTTOM}L{points}V{BOTTOM}Z")
    return "".join(parts)


def limbs_path(plot, flow, limbs):
    return "".join("M" + "L".join(plot.point(place, flow[place]) for place in range(*limb)) for limb in limbs)


def dots(plot, places, values):
    return "".join(f"M{plot.point(place, values[place])}h0.01" for place in places)


def dry_marks(plot, places):
    """A small triangle on the bottom edge for each day of no flow, which a log scale has no place for."""
    return "".join(f"M{short(plot.x(place))} {BOTTOM}l-3 6h6z" for place in places)


def taken_path(plot, flow, takings):
    """A bar a day, from what the pump leaves up to the flow."""
    bars = [(place, top, top - 1000 * taking) for place, (top, taking) in enumerate(zip(flow, takings)) if taking]
    return "".join(f"M{plot.point(place, top)}V{short(plot.y(low))}" for place, top, low in bars)


def path(kind, data, **more):
    words = "".join(f' {name.replace("_", "-")}="{value}"' for name, value in more.items())
    return f'<path class="{kind}" d="{data}"{words}/>' if data else ""


def text(x, y, words, **more):
    attributes = "".join(f' {name.replace("_", "-")}="{value}"' for name, value in more.items())
    return f'<text x="{short(x)}" y="{short(y)}"{attributes}>{escape(words)}</text>'


# ---- the parts of a picture

def flow_axis(plot, ticks):
    heights = [(plot.y(tick.at * SCALES[plot.unit]), tick.text) for tick in ticks]
    grid = "".join(f"M{LEFT} {short(y)}H{RIGHT}" for y, words in heights[1:] if words)
    between = "".join(f"M{LEFT} {short(y)}H{RIGHT}" for y, words in heights if not words)
    labels = [text(LEFT - 8, y + 4, words, text_anchor="end") for y, words in heights if words]
    return [path("between", between), path("grid", grid), *labels, text(12, TOP - 12, SIGNS[plot.unit])]


def date_axis(plot, ticks):
    """Ticks where days begin, with their dates; a label that would leave the page is moved in."""
    places = [plot.edge(tick.at) for tick in ticks]
    grid = "".join(f"M{short(x)} {TOP}V{BOTTOM}" for x in places)
    marks = "".join(f"M{short(x)} {BOTTOM}v5" for x in places)
    labels = [text(x, BOTTOM + 19, tick.text, text_anchor="middle") for x, tick in zip(places, ticks)]
    labels += [text(x, BOTTOM + 35, tick.more, text_anchor="middle") for x, tick in zip(places, ticks) if tick.more]
    return [path("grid", grid), *labels], path("axis", marks)


def sample(kind, x):
    """What a thing of a kind looks like in the legend."""
    shapes = {
        "base": f'<rect class="base" x="{x}" y="40" width="22" height="10"/>' + path("edge", f"M{x} 40h22"),
        "met": path("met", f"M{x + 11} 45h0.01", stroke_width=5),
        "taken": path("taken", f"M{x} 45h22", stroke_width=6),
        "dry": path("dry", f"M{x + 11} 42l-3 6h6z"),
    }
    return shapes.get(kind) or path(kind, f"M{x} 45h22")


def legend(entries):
    """The kinds that are drawn, one beside the other."""
    parts, x = ['<g class="legend">'], LEFT
    for kind, words in entries:
        parts += [sample(kind, x), text(x + 28, 49, words)]
        x += round(28 + CHARACTER * len(words) + 22)
    return [*parts, "</g>"]


# ---- the whole

class Part(NamedTuple):
    """The days that are shown: the first date, flow and base flow in thousandths, takings in litres, and the first place of
    each limb with the place behind its last."""
    first: object
    flow: list
    base: list
    takings: list
    limbs: list


def part_of(scene, span):
    """The part of a scene between two dates, or all of it."""
    river = scene.river
    start, end = river.within(*span) if span else (0, len(river.days))
    flow = [None if day is None else 1000 * day for day in river.days[start:end]]
    limbs = [(max(first, start) - start, min(first + days, end) - start) for first, days in scene.limbs]
    inside = [(first, behind) for first, behind in limbs if first < behind]
    return Part(river.date(start), flow, scene.base[start:end], scene.takings[start:end], inside)


def scaled(part, unit, log):
    """The plot that all values of a part fit in, and the ticks of its flows."""
    values = [value / SCALES[unit] for value in [*part.flow, *part.base] if value is not None]
    scale, ticks = logarithmic(values) if log else linear(values)
    return Plot(len(part.flow), scale, unit), ticks


def layers_of(plot, part, met, log):
    """The kinds that are drawn, from the bottom up: each with its words in the legend, if any, and its path."""
    at_base = [place for place, value in enumerate(part.base) if met and value is not None and value == part.flow[place]]
    dry = [place for place, value in enumerate(part.flow) if log and value == 0]
    thin = min(1.0, max(0.5, 1000 / plot.days))  # of a long record the days stand close
    bar = 0.7 * (RIGHT - LEFT) / plot.days
    layers = [("base", "base flow", path("base", area_path(plot, part.base))),
              ("limbs", "recession limbs", path("limbs", limbs_path(plot, part.flow, part.limbs))),
              ("taken", "taken by the pump", path("taken", taken_path(plot, part.flow, part.takings), stroke_width=short(bar))),
              ("flow", "flow", path("flow", line_path(plot, part.flow), stroke_width=short(1.2 * thin))),
              ("edge", "", path("edge", line_path(plot, part.base), stroke_width=short(1.4 * max(0.7, thin)))),
              ("met", "the line meets the flow (turning points and other such days)",
               path("met", dots(plot, at_base, part.base), stroke_width=short(4.5 * thin**2))),
              ("dry", "no flow", path("dry", dry_marks(plot, dry)))]
    return [layer for layer in layers if layer[2]]


def svg(scene, title, log=False, span=None):
    """The bytes of the file."""
    part = part_of(scene, span or scene.span)
    plot, ticks = scaled(part, scene.river.unit, log)
    layers = layers_of(plot, part, scene.met, log)
    below, marks = date_axis(plot, date_ticks(part.first, part.first + timedelta(plot.days - 1)))
    known = sorted(((kind, name) for kind, name, _ in layers if name), key=lambda entry: LEGEND.index(entry[0]))
    size = f'width="{WIDTH}" height="{HEIGHT}"'
    lines = [f'<svg xmlns="http://www.w3.org/2000/svg" {size} viewBox="0 0 {WIDTH} {HEIGHT}" role="img">',
             f"<title>{escape(title)}</title>", f"<desc>{escape(scene.caption)}</desc>", f"<style>{STYLE}</style>",
             f'<rect {size} fill="#fff"/>', text(LEFT, 24, title, **{"class": "title"}), *legend(known),
             *flow_axis(plot, ticks), *below, *(drawn for _, _, drawn in layers),
             path("axis", f"M{LEFT} {TOP}V{BOTTOM}H{RIGHT}"), marks,
             *(text(LEFT, HEIGHT - 28 + 17 * n, line) for n, line in enumerate(wrap(scene.caption, LINE))), "</svg>"]
    return "".join(line + "\n" for line in lines if line).encode()
