"""Makes a trace for r2u2 of telemetry files.

usage: trace [--spec FILE | --columns A,B,..] [--names A,B,..]
             [--signals FILE] [--rename OLD=NEW] [--scale NAME=FACTOR]
             [--map NAME=WORD:NUMBER,..] [--round NAME] [--hex NAME]
             [--missing [NAME=]RULE] [--decimal-comma] [--delimiter CHARACTER]
             [--skip N] [--comment TEXT] [--format FORM] [--long NAME,VALUE]
             [--time NAME --rate HZ [--time-unit UNIT] [--start TIME]
             [--snap SECONDS] [--within NAME=HOW] [--stamps]
             [--sort] [--dedupe]] [--hold] [-o FILE] [TELEMETRY..]

TELEMETRY is comma-separated text with the names of its columns in the first
line, with or without `#`; by default it is the standard input. Files that end in
.jsonl, .ndjson or .json have an object of JSON on each line, those in .vcd are
value change dumps. With --long each line has a time, a name and a value. Several
files are merged by time. The trace goes to the file of -o or to the standard
output. With --spec it has the inputs of a specification or of a compiled program
as its columns, in their order; without it all columns but that of --time.

A Boolean is 0, 1, true or false. A number has to be an integer of 32 bits:
decimals are multiplied by the FACTOR of --scale, and words get the numbers of
--map. Nothing is rounded but in the columns of --round, and then the number of
such values is printed. An empty field is refused; with --missing, also NaN, null
and n/a are empty, and RULE says what they become: refuse, hold, which is the
last value, skip, which leaves the line out, or a number.

With --signals a file says how each column comes from raw fields of telemetry, in
place of --scale, --map, --round, --hex, --missing and --within: scaled decimals,
calibrations, bits, differences, windows, latches. C has the same columns by
r2u2-generate --signals.

Without --time each line is a row. With it the column NAME has seconds, or dates
of ISO 8601, and a row is 1/HZ of a second: the first line is row 0, rows between
two lines hold the values of the earlier one, and time has to rise. With --sort
lines come in the order of their times, with --dedupe a line is left out that
repeats the one before. With --snap and --hold row 0 is at a multiple of 1/HZ. A
time that is within SECONDS of --snap of a row, by default within a millionth of a
row, belongs to the nearest; how many aren't exact is printed. With --stamps each
line becomes a row with a stamp, for `r2u2 --timed`. A time that falls between two
rows is refused. With --hold it counts from the next row on, a later line of the same
row takes the place of an earlier one, which is printed, and an empty field holds
the last value of its column. With --within a column has, of all lines of a row,
any (a 1), all, max, min, first or last.

The status is 0 where all was converted, 1 where the file has what can't be, and
2 where the arguments are wrong, a file can't be read or written, or isn't UTF-8.
What can't be converted is named by line and column; both count from 1.

example: trace --spec bus.c2po --time t --rate 10 --scale volts=1000 log.csv
"""

from argparse import Namespace
from typing import Optional

from r2u2tools.common import cli
from r2u2tools.common.cli import ToolError
from r2u2tools.common.program_file import Signal
from r2u2tools.common.specs import read_spec
from r2u2tools.signals import Signals, read
from r2u2tools.telemetry.records import Refused
from r2u2tools.telemetry.fields import Columns
from r2u2tools.common.output import Output
from r2u2tools.telemetry.rows import Plain, Rows, Timed
from r2u2tools.telemetry.signal_columns import SignalColumns, chosen_signals
from r2u2tools.telemetry.sources import FORMATS, Sources
from r2u2tools.telemetry.times import UNITS, Clock

# Options that are given for a column, so more than once: their form and what they do.
REPEATED = {
    "--rename": ("OLD=NEW", "another name for a column"),
    "--scale": ("NAME=FACTOR", "what the numbers of a column are multiplied by"),
    "--map": ("NAME=WORD:NUMBER,..", "the numbers of the words of a column"),
    "--round": ("NAME", "round this column to the nearest integer, halves away from 0"),
    "--hex": ("NAME", "this column has hexadecimal numbers, with or without 0x"),
    "--missing": ("[NAME=]RULE", "what an empty field or NaN becomes: refuse, hold, skip or a number"),
    "--within": ("NAME=HOW", "what a row has of several lines: any, all, max, min, first or last"),
}
# Options with a value that are given once.
SINGLE = {
    "--spec": ("FILE", "a specification or program, whose inputs are the columns"),
    "--columns": ("A,B,..", "the columns, where there is no --spec"),
    "--signals": ("FILE", "how each column comes from raw fields, as TOML"),
    "--names": ("A,B,..", "the names of the columns of a file whose first line has none"),
    "--comment": ("TEXT", "lines that begin with this are left out"),
    "--long": ("NAME,VALUE", "each line has a time, and in these two columns a name and a value"),
    "--time": ("NAME", "the column with the time"),
    "--rate": ("HZ", "how many rows a second has, as 10 or 30000/1001"),
    "--start": ("TIME", "the time of row 0; by default that of the first line"),
    "--snap": ("SECONDS", "how far from a row a time may be and still belong to it"),
    "-o": ("FILE", "the trace; by default the standard output"),
}


def make_parser() -> cli.Parser:
    """The options."""
    parser = cli.parser(__doc__)
    for option, (form, text) in SINGLE.items():
        parser.add_argument(option, metavar=form, help=text)
    for option, (form, text) in REPEATED.items():
        parser.add_argument(option, metavar=form, action="append", default=[], help=text)
    parser.add_argument("--skip", metavar="N", type=cli.count, default=0, help="lines before that with the names")
    parser.add_argument("--format", metavar="FORM", choices=FORMATS, help="csv, json or vcd, by default by the file's name")
    parser.add_argument("--time-unit", metavar="UNIT", choices=list(UNITS), default="s", help="of times: s, ms, us or ns")
    parser.add_argument("--decimal-comma", action="store_true", help="numbers have a comma before their decimals")
    parser.add_argument("--stamps", action="store_true", help="write a stamp before each row, and no rows between")
    parser.add_argument("--sort", action="store_true", help="take the lines of each file in the order of their times")
    parser.add_argument("--dedupe", action="store_true", help="leave out a line that repeats the one before")
    parser.add_argument("--hold", action="store_true", help="hold the last value in empty fields and between rows")
    parser.add_argument("--delimiter", metavar="CHARACTER", help="between fields, as ';' or 'tab'; by default a comma")
    parser.add_argument("telemetry", metavar="TELEMETRY", nargs="*", help="the files; by default the standard input")
    return parser


def parse_args() -> Namespace:
    parser = make_parser()
    args = parser.parse_args()
    args.telemetry = args.telemetry or ["-"]
    default = ";" if args.decimal_comma else ","
    args.delimiter = {"tab": "\t", None: default}.get(args.delimiter, args.delimiter)
    if args.time is None and args.rate and all(path.endswith(".vcd") for path in args.telemetry):
        args.time = "time"
    fault = misused(args)
    if fault:
        parser.error(fault)
    return args


def misused(args: Namespace) -> Optional[str]:
    """What doesn't fit together in the arguments, or None."""
    if bool(args.time) != bool(args.rate):
        return "--time and --rate need each other"
    if (args.stamps or args.start or args.snap or args.within or args.sort or args.dedupe) and not args.time:
        return "--stamps, --start, --snap, --within, --sort and --dedupe need --time and --rate"
    replaced = [option for option in ("scale", "map", "round", "hex", "missing", "within") if getattr(args, option)]
    if args.signals and replaced:
        return f"--signals says what --{replaced[0]} says"
    if args.spec and args.columns:
        return "--spec names the columns already"
    if args.long and not (args.time and (args.spec or args.columns or args.signals) and args.long.count(",") == 1):
        return "--long NAME,VALUE needs --time, and --spec, --columns or --signals"
    if len(args.telemetry) > 1 and not args.time:
        return "several files are merged by --time and --rate"
    if args.telemetry.count("-") > 1:
        return "one of the files can be the standard input"
    if len(args.delimiter) != 1 or args.delimiter in '"\r\n':
        return "--delimiter is one character, or tab"
    return None


def main() -> int:
    args = parse_args()
    inputs = read_spec(args.spec).signals if args.spec else None
    signals = chosen_signals(read(args.signals), inputs, args.columns) if args.signals else None
    backward = next((it.name for it in signals.columns if it.looks_back), "") if signals else ""
    if args.stamps and backward:
        raise ToolError(f"{args.signals}: {backward} looks back by rows, which --stamps leaves out")
    try:
        convert(args, inputs, signals)
    except Refused as fault:
        if args.telemetry == ["-"] or len(args.telemetry) > 1:
            raise
        raise Refused(f"{args.telemetry[0]}: {fault}", fault.status) from None
    return 0


def convert(args: Namespace, inputs: Optional[list[Signal]], signals: Optional[Signals]) -> None:
    """The way from the telemetry to the trace."""
    clock = Clock(UNITS[args.time_unit], args.decimal_comma)
    opening = Sources(args, signals.fields if signals else inputs, clock)
    with opening as source, Output(args.o, opening.files) as output:
        columns = SignalColumns(source, args, signals) if signals else Columns(source, args, inputs)
        kind: type[Rows] = Timed if args.time else Plain
        rows = kind(columns, args, clock, output)
        output.line(columns.header())
        for number, fields in source:
            rows.take(number, fields)
        rows.end()
        for text in [*opening.remarks(), *columns.remarks(), *rows.remarks()]:
            cli.note(text)
        output.keep()
