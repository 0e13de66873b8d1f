"""The commands by name: what each takes, its help, and how its words are read."""
from pathlib import Path
from typing import Callable, NamedTuple

from desk import commands
from desk.arguments import (Parser, add_filter, add_line, add_output, add_river, amount, day, half_life_p, layout, share,
                            whole, with_values)
from desk.trouble import Trouble
from desk.ways import USUAL

HYDROGRAPH = "the hydrograph, as an SVG file"
BASE_CSV = "date, flow, base flow and quick flow as CSV"
HELP = {"-h", "--help"}


def add_by(parser):
    parser.add_argument("--by", choices=("year", "month"), help="rows of the table; months if not given and the river has at "
                        "most two years, else years")


def add_separate(parser):
    add_by(parser)
    add_filter(parser, required=True)
    add_output(parser, BASE_CSV, HYDROGRAPH)


def add_only_line(parser):
    add_by(parser)
    add_line(parser)
    add_output(parser, BASE_CSV, HYDROGRAPH)


def add_base(parser):
    """Base flow by a line or, where --method names one, by a filter."""
    add_line(parser)
    add_filter(parser, required=False)


def add_totals(parser):
    add_by(parser)
    add_base(parser)
    add_output(parser, "totals by month and year, and of the whole, as CSV", None)


def add_ratios(parser):
    parser.add_argument("--limb", type=whole, default=5, metavar="L", help="days of the shortest limb that counts, 2 to 60; "
                        "5 if not given")
    add_base(parser)
    add_output(parser, "every limb as CSV", "the hydrograph with its recession limbs")


def add_half_life(parser):
    parser.add_argument("p", type=half_life_p, nargs="+", metavar="P", help="of its flow a river keeps so much from each day to "
                        "the next: 1 to 999 thousandths (985), or a share of one (0.985); one with four digits (0.9849) lies "
                        "between two thousandths and has two half-lives")


def add_bfimax(parser):
    parser.add_argument("--last", type=day, metavar="DATE", help="the last day of the dry spell; the river's last if not given")
    parser.add_argument("--days", type=whole, required=True, metavar="D", help="its days, the last one with them: 2 to 3650")
    parser.add_argument("--p", type=share, default=USUAL[5][0], metavar="K", help="recession constant, 1 to 9999 "
                        f"ten-thousandths or a share of one; {USUAL[5][0]} if not given")
    add_output(parser, BASE_CSV, "the spell")


def add_compare(parser):
    add_output(parser, "the flow and each method's base flow as CSV", None)


def add_licence(parser):
    parser.add_argument("--limit", type=amount, required=True, metavar="M", help="the most that is taken on a day, in the unit "
                        "of --unit: 0 to 10,000,000 litres a second")
    parser.add_argument("--quota", type=amount, required=True, metavar="Q", help="the most that is taken in all, summed over "
                        "days: 0 to 10^12 litres a second. 1 (l/s)·day is 86.4 cubic metres")
    parser.add_argument("--yearly", action="store_true", help="the quota begins anew with each calendar year")
    add_base(parser)
    add_output(parser, "date, flow, base flow and taking as CSV", "the hydrograph with what is taken")


class Command(NamedTuple):
    run: Callable
    about: str
    add: Callable
    example: str


COMMANDS = {
    "separate": Command(commands.separate, "Base flow by a recursive filter.", add_separate,
                        "samples/year.csv --method 5 --p 9780 --q 8000 --plot eckhardt.svg"),
    "line": Command(commands.separate, "Base flow by the smoothed-minima line between turning points (the BFI method).",
                    add_only_line, "samples/thirty_years.csv --block 5 --factor 9000 --staggered lowest --out base.csv"),
    "totals": Command(commands.totals, "Totals over the days with base flow, by calendar year or month. Base flow is by the "
                      "minima line, or by the filter that --method names.", add_totals,
                      "samples/thirty_years.csv --method lyne-hollick --passes 3 --out totals.csv"),
    "ratios": Command(commands.ratios, "The recession constant k, from days on which groundwater alone feeds the river: the "
                      "limbs of falling flow at base, by the minima line or by the filter that --method names.", add_ratios,
                      "samples/thirty_years.csv --limb 7 --plot limbs.svg --show 2004-05-01,2005-06-30"),
    "half-life": Command(commands.half_life, "Days until half is left of a flow that nothing feeds.", add_half_life,
                         "985 0.9849"),
    "bfimax": Command(commands.bfimax, "BFImax, the q of method 5, by a filter that goes backward through a dry spell.",
                      add_bfimax, "samples/thirty_years.csv --last 2003-09-30 --days 90 --p 9800"),
    "compare": Command(commands.compare, "Every method with its usual setting, one row each.", add_compare,
                       "samples/thirty_years.csv --out compared.csv"),
    "licence": Command(commands.licence, "What a licence lets a pump take: on each day the smallest of the daily limit, what "
                       "flows above base flow, and the quota that is left. Base flow is by the minima line, or by the filter "
                       "that --method names.", add_licence,
                       "samples/thirty_years.csv --limit 200 --quota 20000 --yearly --staggered lowest"),
}


def parser_of(name):
    """What reads a command's words, and has its help."""
    command = COMMANDS[name]
    river = "" if name == "half-life" else " RIVER"
    parser = Parser(prog=name, usage=f"tools/baseflow {name}{river or ' P [P ..]'} [options]", description=command.about,
                    epilog=f"example:\n  tools/baseflow {name} {command.example}", formatter_class=layout, add_help=False,
                    allow_abbrev=False)
    if river:
        add_river(parser)
    command.add(parser)
    return parser


def parse(words, about):
    """What a command is asked for, or the text of the help that is wanted."""
    name = next((word for word in words if not word.startswith("-")), None)
    if HELP & set(words):
        return parser_of(name).format_help() if name in COMMANDS else about
    if not words or words[0] not in COMMANDS:
        wrong = f", and not '{words[0]}'" if words else ""
        raise Trouble(f"a command is wanted, one of {', '.join(COMMANDS)}{wrong} (--help says more)")
    args = parser_of(name).parse_args(with_values(words[1:]))
    args.command = name
    return args


def picture_of(args, scene):
    """A scene with its title, whether it has a log scale, and the dates shown; None where no picture is wanted."""
    if getattr(args, "plot", None) is not None:
        return scene, args.title or Path(scene.river.name).stem.replace("_", " "), args.log, args.show
    extra = next((name for name in ("log", "show", "title") if getattr(args, name, None)), None)
    if extra:
        raise Trouble(f"--{extra} is of a picture; --plot FILE.svg draws one")
    return None
