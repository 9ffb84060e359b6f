"""Draws verdicts of r2u2 over time.

usage: timeline [--html] [--from ROW] [--to ROW] [--title TEXT] [--all-columns]
                [--changing] [--unit NAME=TEXT] [--rate HZ] [-o FILE] -- r2u2 ...
       timeline [--html] [--from ROW] [--to ROW] [--title TEXT] [--all-columns]
                [--changing] [--unit NAME=TEXT] [--rate HZ] [--spec FILE]
                [--trace FILE] [--ticks NAME] [-o FILE] [LINES]

After `--` comes a command with r2u2, a specification or a program, and a trace
that is a file. It is run, and the picture has the columns of the signals, a lane
for each output in the order of the specification, and in each lane the row with
which each word was printed: for this the run has one output more, which has a
line with every row. LINES is a file of verdict lines, by default the standard
input; the rows that decided them aren't known, unless --ticks names an output
that comes last and has a line with every row, as `FTSPEC tick: true;`.

The picture is an SVG: a trace of up to 60 times is drawn in squares, a longer
one in bars, where a dot with several words shows the gravest. --html makes one
page, which scrolls and zooms by wheel, fingers and keys, searches the next stretch
of F, and shows what holds in a row; a click keeps that row and shows the command
that explains its verdict.

The status is 0 where the picture is made, and 2 where something can't be read,
or where r2u2 failed: then the picture has what was printed before.

example: timeline --html -o grant.html -- r2u2 --source grant.c2po grant.csv
"""

import sys
from argparse import Namespace
from typing import Optional

from r2u2tools.common import cli
from r2u2tools.common.output import write
from r2u2tools.common.specs import read_spec
from r2u2tools.common.cli import ToolError
from r2u2tools.timeline.html_page import html
from r2u2tools.timeline.model import Model, cut_to, keep_changing, take_lines, take_trace
from r2u2tools.timeline.run import run, title_of, why_command
from r2u2tools.timeline.svg import svg


# Options with a value: their form and what they do.
SINGLE = {
    "--trace": ("FILE", "the trace, whose columns are above the outputs"),
    "--spec": ("FILE", "the specification or program, for the order of lanes and the kinds of columns"),
    "--ticks": ("NAME", "an output of LINES that has a line with every row, and isn't shown"),
    "--title": ("TEXT", "a text above the lanes; by default the requirement, where there is one alone"),
    "-o": ("FILE", "where the picture goes; by default the standard output"),
}


def make_parser() -> cli.Parser:
    """The options."""
    parser = cli.parser(__doc__)
    for option, (form, text) in SINGLE.items():
        parser.add_argument(option, metavar=form, help=text)
    parser.add_argument("--html", action="store_true", help="make a page in place of a picture")
    parser.add_argument("--all-columns", action="store_true", help="show all columns of the trace, not the signals alone")
    parser.add_argument(
        "--changing", action="store_true",
        help="leave out columns and outputs that keep one value over the rows shown",
    )
    parser.add_argument("--from", metavar="ROW", type=cli.count, dest="first", help="the first row that is shown")
    parser.add_argument("--to", metavar="ROW", type=cli.count, dest="last", help="the last row that is shown")
    parser.add_argument(
        "--unit", metavar="NAME=TEXT", action="append", default=[],
        help="the unit of a column, as alt=m, for the page of --html",
    )
    parser.add_argument("--rate", metavar="HZ", type=float, help="rows of a second: the page shows seconds too")
    parser.add_argument("lines", metavar="LINES", nargs="?", help="verdict lines; by default the standard input")
    return parser


def parse_args() -> Namespace:
    """The arguments; those after `--` are a command."""
    parser, given = make_parser(), sys.argv[1:]
    place = given.index("--") if "--" in given else len(given)
    args, args.command = parser.parse_args(given[:place]), given[place + 1 :]
    fault = misused(args, place < len(given))
    if fault:
        parser.error(fault)
    return args


def misused(args: Namespace, dashes: bool) -> Optional[str]:
    """What doesn't fit together in the arguments, or None."""
    if dashes and not args.command:
        return "no command after --"
    if args.command and (args.lines or args.trace or args.spec or args.ticks):
        return "a command after -- goes without LINES, --trace, --spec and --ticks"
    if any("=" not in text for text in args.unit):
        return "--unit isn't of the form NAME=TEXT"
    if args.rate is not None and not 0 < args.rate < 1e12:
        return "--rate isn't a number above 0"
    if args.first is not None and args.last is not None and args.last < args.first:
        return "--to is before --from"
    return None


def read(args: Namespace, model: Model) -> Optional[str]:
    """Takes what is to be shown; what r2u2 said where it failed, or None."""
    if args.command:
        return run(args.command, model, args.all_columns)
    spec = read_spec(args.spec) if args.spec else None
    if spec:
        model.take_spec(spec)
        model.title = title_of(spec)
        if args.trace not in (None, "-"):
            model.why = why_command(args.spec, args.trace, False)
    if args.trace:
        take_trace(model, args.trace, spec.signals if spec else None, args.all_columns)
        if model.why and model.stamps is not None:
            model.why = why_command(args.spec, args.trace, True)
    path = args.lines or "-"
    with cli.opened(path) as file:
        take_lines(model, file, "" if path == "-" else path, args.ticks)
    return None


def main() -> int:
    args = parse_args()
    model = Model()
    model.units, model.rate = dict(text.split("=", 1) for text in args.unit), args.rate
    failed = read(args, model)
    cut_to(model, args.first, args.last)
    if model.times() < 1:
        raise ToolError(failed or "no row and no verdict to show")
    if args.changing:
        keep_changing(model)
    model.title = args.title if args.title is not None else model.title
    text = (html if args.html else svg)(model)
    if args.o and args.o != "-":
        write(args.o, text)
    else:
        sys.stdout.write(text)
    if failed:
        raise ToolError(failed)
    return 0
