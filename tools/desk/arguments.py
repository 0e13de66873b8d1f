"""The command's words: what each may be, and the help that says so."""
import argparse
import re
from datetime import date
from decimal import Decimal

from desk import ways
from desk.river import record
from desk.trouble import Trouble

WIDTH = 104
BITS_32, BITS_64 = 2**32, 2**64  # a number of a call is below one of these
RIVER = """RIVER is a CSV of dates and daily flows, or a record; - is standard input. A CSV is read as tools/record reads it,
whose --help says more of --columns, --delimiter and --missing."""
PARAMETERS = """p, q and s are ten-thousandths, 9780, or shares of one, 0.978. Where one is not given, a method has its usual
one, as compare shows it."""


class Parser(argparse.ArgumentParser):
    """Tells what is wrong by an exception, and leaves it to the program to print help."""

    def error(self, message):
        raise Trouble(f"{message.replace('argument ', '', 1)} (tools/baseflow {self.prog} --help says more)")


def layout(prog):
    return argparse.RawDescriptionHelpFormatter(prog, width=WIDTH, max_help_position=28)


def told(parse):
    """A parser of a text as argparse wants it: a ValueError's message is what the person reads."""
    def parse_or_tell(text):
        try:
            return parse(text)
        except ValueError as error:
            raise argparse.ArgumentTypeError(str(error)) from None
    return parse_or_tell


@told
def whole(text):
    """A whole number that a call's argument can hold; whether it is in range is for the engine to say."""
    if not re.fullmatch("[0-9]{1,10}", text) or int(text) >= BITS_32:
        raise ValueError(f"'{text}' is no whole number from 0 to {BITS_32 - 1:,}")
    return int(text)


def signed_share(text):
    """Ten-thousandths: 9780, or with a point 0.978."""
    number = record.parse_number(text)
    if number is not None and "." in text:
        number *= 10000
    if number is None or number != int(number) or abs(number) >= BITS_32 // 2:
        raise ValueError(f"'{text}' is no number of ten-thousandths (9780) and no share of one with four decimals (0.9780)")
    return int(number)


@told
def share(text):
    number = signed_share(text)
    if number < 0:
        raise ValueError(f"{text} is below zero")
    return number


@told
def method(text):
    """A method by its number or its name."""
    plain = {re.sub("[^a-z0-9]", "", name.lower()): number for number, name in ways.NAMES.items()}
    word = re.sub("[^a-z0-9]", "", text.lower())
    if word in plain:
        return plain[word]
    if not re.fullmatch("[0-9]{1,9}", text):
        raise ValueError(f"'{text}' is no method: a number from 1 to 7, or a name such as eckhardt")
    return int(text)


@told
def day(text):
    return record.parse_date(text)


@told
def days_shown(text):
    """The first and the last date of a part of a river."""
    parts = [part.strip() for part in text.split(",")]
    if len(parts) != 2:
        raise ValueError(f"'{text}' is not two dates, FIRST,LAST")
    first, last = map(record.parse_date, parts)
    if last < first:
        raise ValueError(f"{last} comes before {first}")
    return first, last


@told
def amount(text):
    """A number of litres or cubic metres; its unit is settled later."""
    number = record.parse_number(text)
    if number is None or number < 0:
        raise ValueError(f"'{text}' is no number of 0 or more")
    return number


@told
def half_life_p(text):
    """Ten-thousandths of a p in thousandths (985), or as a share of one (0.985 or 0.9849)."""
    if re.fullmatch("[0-9]{1,6}", text):
        return 10 * int(text)
    number = signed_share(text) if "." in text else -1
    if number < 0:
        raise ValueError(f"'{text}' is no number of thousandths (985) and no share of one (0.985)")
    return number


def counted(number, unit, what, finest=1, beyond=BITS_64):
    """How many litres, or finer parts of a litre, a number of litres or cubic metres is: as many as a call can be told."""
    scaled = number * finest * (1000 if unit == "m3" else 1)
    if scaled != int(scaled):
        raise Trouble(f"{what} {number} is no whole number of {'litres' if finest == 1 else 'thousandths of a litre'} a second")
    if scaled >= beyond:
        raise Trouble(f"{what} {number} is too large")
    return int(scaled)


# ---- groups of options

def add_river(parser):
    """The river, and how a CSV is written."""
    parser.add_argument("river", metavar="RIVER")
    group = parser.add_argument_group("the river", RIVER)
    group.add_argument("--unit", choices=("l", "m3"), default="l", help="l, litres a second (the default), or m3, cubic metres "
                       "a second: of the CSV, of what is printed and written, and of --start, --limit and --quota")
    for option, metavar, parse, text in (
            ("--columns", "DATE,FLOW", record.parse_columns, "the columns of date and flow, by name or number"),
            ("--delimiter", "C", record.parse_delimiter, "the character between columns, or 'tab'"),
            ("--missing", "WORDS", record.parse_missing, "what stands for a missing day, as in NA,-999")):
        group.add_argument(option, metavar=metavar, type=told(parse), help=text)


def add_filter(parser, required):
    """A filter's method and parameters, with the ranges that the header has."""
    rows = "\n".join(f"  {number} {ways.NAMES[number]:19} {words}" for number, words in ways.ranges().items())
    group = parser.add_argument_group("a recursive filter", f"{PARAMETERS}\n{rows}")
    group.add_argument("--method", type=method, required=required, metavar="M", help="1 to 7, or its name")
    group.add_argument("--p", type=share, help="recession constant, or the filter's parameter")
    group.add_argument("--q", "--bfimax", type=share, help="of methods 4, 5 and 7; in method 5 it is BFImax")
    group.add_argument("--s", type=told(signed_share), help="of method 7, and may be below zero")
    group.add_argument("--passes", type=whole, metavar="N", help="1 to 3 of method 1; 1 if not given")
    group.add_argument("--start", type=amount, metavar="FLOW", help="base flow of the first day, in place of the usual one: "
                       "0 to its flow")


def add_line(parser):
    group = parser.add_argument_group("the minima line")
    group.add_argument("--block", type=whole, metavar="N", help=f"days of a block, 1 to 30; {ways.BLOCK} if not given")
    group.add_argument("--factor", type=share, metavar="G", help="turning-point factor, 1 to 9999 ten-thousandths; "
                       f"{ways.FACTOR} if not given")
    group.add_argument("--staggered", choices=tuple(ways.CHOICES), help="on each day the lowest, the highest or the median "
                       "of the lines from each beginning of the blocks")


def add_output(parser, out, picture):
    group = parser.add_argument_group("output")
    if out:
        group.add_argument("--out", metavar="FILE.csv", help=f"writes {out}; - is standard output, in the table's place")
    if picture:
        group.add_argument("--plot", metavar="FILE.svg", help=f"draws {picture}")
        group.add_argument("--log", action="store_true", help="with a log scale")
        group.add_argument("--show", type=days_shown, metavar="FIRST,LAST", help="draws the days between two dates alone")
        group.add_argument("--title", help="the picture's title; the river's name if not given")


# ---- what was said

def form_of(args):
    """How the CSV is written."""
    given = {name: getattr(args, name) for name in ("delimiter", "columns", "missing") if getattr(args, name) is not None}
    return record.Form(unit=args.unit, **given)


def way_of(args):
    """The filter or the line that the options name; the line where they name none."""
    given = {name: value for name, value in vars(args).items() if value is not None}
    filters = [name for name in ("p", "q", "s", "passes", "start") if name in given]
    lines = [name for name in ("block", "factor", "staggered") if name in given]
    if "method" not in given and filters:
        raise Trouble(f"--{filters[0]} is of a filter; --method says which")
    if "method" not in given:
        return ways.Line(given.get("block", ways.BLOCK), given.get("factor", ways.FACTOR), given.get("staggered"))
    if lines:
        raise Trouble(f"--{lines[0]} is of the minima line, and --method of a filter; one of them is wanted")
    p, q, s = ways.USUAL.get(args.method, (0, 0, 0))
    start = counted(args.start, args.unit, "--start", finest=1000) if "start" in given else None
    return ways.Filter(args.method, given.get("p", p), given.get("q", q), given.get("s", s), given.get("passes", 1), start)


def with_values(words):
    """The words, with an option's value joined to it where it begins with a dash, as in --missing -999."""
    joined, rest = [], iter(words)
    for word in rest:
        value = next(rest, None) if word in ("--missing", "--s", "--delimiter") else None
        joined.append(word if value is None else f"{word}={value}")
    return joined
