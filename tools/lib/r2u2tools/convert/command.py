"""Takes requirements from other tools, and writes verdicts for other programs.

usage: convert from-c2po [--mission N] [--scale NAME=FACTOR] [--signals FILE]
                         [--write-signals FILE] [-o FILE] [SPEC]
       convert from-map [-o FILE] [MAP]
       convert from-fret [--rate HZ] [--scale NAME=FACTOR] [--signals FILE]
                         [--write-signals FILE] [--ids FILE] [-o FILE]
                         [REQUIREMENTS]
       convert to-vcd [--spec FILE] [--rate HZ] [-o FILE] [LINES]
       convert to-csv [--spec FILE] [--rate HZ] [-o FILE] [LINES]
       convert to-json [--rate HZ] [-o FILE] [LINES]

from-c2po takes a specification of C2PO 3. from-map makes the header of a trace
out of a map file of C2PO 3. from-fret takes the requirements that FRET exports as
JSON: a formula of the past for each, by its scope, condition and timing. Of the
JSON that Ogma reads the formulas are taken. What isn't taken is printed with its
line or label and the reason, and is a comment in the result. c2po accepts what
from-c2po and from-fret write.

A signal with decimals becomes an integer by the factor of --scale, or by that of
the file of --signals, and so do the constants that it is compared with. The file
of --write-signals gets an entry for each input that isn't in the file of
--signals, atomic checkers of C2PO 3 among them. The file of --ids gets a line with
the label and the id of each requirement of FRET.

to-vcd writes verdict lines as a value change dump, which GTKWave opens: a wire for
each output, 1 where it is true or verified, 0 where false or invalid, z where
inactive and x where undecided. to-csv writes a line for each row, with the word of
each output, and to-json an object for each stretch of times with one word. With
--rate times are seconds. With --spec outputs come in the order of a specification
or a compiled program, also those without a line; then to-csv writes each row when
all outputs have it. The input is by default the standard input.

The status is 0 where all was taken, 1 where something wasn't, and 2 where the
arguments are wrong or a file can't be read or written.

example: r2u2 --source grant.c2po log.csv | convert to-vcd --rate 10 -o grant.vcd
"""

import json
from argparse import Namespace
from typing import Optional

from r2u2tools.common import cli
from r2u2tools.common.cli import ToolError
from r2u2tools.common.specs import read_spec
from r2u2tools.convert import c2po3, fret, maps, ogma
from r2u2tools.convert.scaling import scales_of
from r2u2tools.convert.verdict_files import WRITERS
from r2u2tools.telemetry.numbers import factor
from r2u2tools.common.output import Output

MOST_BYTES = 1 << 26
# The options that each form has, besides -o.
FORMS = {
    "from-c2po": ("mission", "scale", "signals", "write_signals"), "from-map": (),
    "from-fret": ("rate", "scale", "signals", "write_signals", "ids"),
    "to-vcd": ("spec", "rate"), "to-csv": ("spec", "rate"), "to-json": ("rate",),
}


def parse_args() -> Namespace:
    parser = cli.parser(__doc__)
    parser.add_argument("form", metavar="FORM", choices=list(FORMS), help=", ".join(FORMS))
    parser.add_argument("--mission", metavar="N", type=cli.count, help="the last row of C2PO 3's mission time M")
    parser.add_argument("--rate", metavar="HZ", help="how many rows a second has")
    parser.add_argument("--spec", metavar="FILE", help="a specification or program, for the order of outputs")
    parser.add_argument("--scale", metavar="NAME=FACTOR", action="append", help="what the decimals of a signal are multiplied by")
    parser.add_argument("--signals", metavar="FILE", help="a file of signals, for the scales of its columns")
    parser.add_argument("--write-signals", metavar="FILE", help="where entries of signals for the inputs go")
    parser.add_argument("--ids", metavar="FILE", help="where the labels with the ids of FRET go")
    parser.add_argument("-o", metavar="FILE", help="where the result goes; by default the standard output")
    parser.add_argument("file", metavar="FILE", nargs="?", default="-", help="what is converted")
    found = parser.parse_intermixed_args()
    for option in ("mission", "rate", "spec", "scale", "signals", "write_signals", "ids"):
        if getattr(found, option) is not None and option not in FORMS[found.form]:
            parser.error(f"{found.form} takes no --{option.replace('_', '-')}")
    found.scales = scales_of(found.scale or [], found.signals, found.write_signals is not None)
    found.rate = None if found.rate is None else factor("--rate", found.rate)
    return found


def write(path: Optional[str], text: str) -> None:
    """Writes a text into a file of an option, if there is one."""
    if path:
        with Output(path, []) as output:
            output.file.write(text)
            output.keep()


def text_of(path: str) -> str:
    """The text of a file."""
    with cli.opened(path) as file:
        raw = file.read(MOST_BYTES + 1)
    if len(raw) > MOST_BYTES:
        raise ToolError(f"{path}: longer than {MOST_BYTES} bytes")
    try:
        return raw.decode("utf-8-sig")
    except UnicodeDecodeError:
        raise ToolError(f"{path}: not UTF-8") from None


def from_c2po(args: Namespace) -> tuple[str, list[str]]:
    """The specification, and what isn't taken."""
    importer = c2po3.Importer(text_of(args.file), args.mission, args.scales)
    text = importer.run()
    write(args.write_signals, "\n".join(importer.entries()))
    line = importer.renumbered()
    if line:
        cli.note(f"from line {line} on, formulas without a label go by lower numbers, since one before isn't taken")
    return text, [f"line {line}: {why}" for line, why in importer.refused()]


def from_map(args: Namespace) -> tuple[str, list[str]]:
    text, refused = maps.header_of(text_of(args.file))
    return text, [f"line {line}: {why}" for line, why in refused]


def from_fret(args: Namespace) -> tuple[str, list[str]]:
    """The formulas, and the requirements that aren't taken."""
    try:
        document = json.loads(text_of(args.file))
    except (ValueError, RecursionError) as fault:
        why = f"line {fault.lineno}: {fault.msg}" if isinstance(fault, json.JSONDecodeError) else "nested too deeply"
        raise ToolError(f"{args.file}: not JSON: {why}") from None
    kinds = fret.Kinds(scales=args.scales)
    component = ogma.component_of(document)
    requirements = ogma.requirements_of(component, kinds) if component else fret.Importer(document, args.rate, kinds).run()
    text = checked(requirements, kinds)
    write(args.write_signals, "\n".join(kinds.entries()))
    for it in requirements:
        if not it.why and f",{fret.WIDEST}]" in " ".join([it.formula, *it.definitions]):
            cli.note(f"{it.label} looks back {fret.WIDEST} rows and forgets what was before{fret.lasts(args.rate)}; a latch of a file of signals doesn't")
    write(args.ids, "".join(f"{it.label},{it.id}\n" for it in requirements if it.id))
    return text, [f"{it.label}: {it.why}" for it in requirements if it.why]


def checked(requirements: list[fret.Requirement], kinds: fret.Kinds) -> str:
    """The specification, without what c2po refuses."""
    for _ in range(len(requirements) + 1):
        text = fret.written(requirements, kinds)
        line, why = c2po3.refusal_of(text)
        if not why:
            return text
        place = text.splitlines()[line - 1] if line else ""
        bad = next((it for it in requirements if not it.why and it.label in place), None)
        if bad is None:
            raise ToolError(f"c2po: line {line}: {why}" if line else f"c2po: {why}")
        bad.why = f"c2po: {why}"
    return text


SOURCES = {"from-c2po": from_c2po, "from-map": from_map, "from-fret": from_fret}


def main() -> int:
    args = parse_args()
    if args.form not in SOURCES:
        names = [output.name for output in read_spec(args.spec).outputs] if args.spec else []
        with cli.opened(args.file) as file, Output(args.o, [file]) as output:
            WRITERS[args.form.removeprefix("to-")](file, output, names, args.rate)
            output.keep()
        return 0
    text, refused = SOURCES[args.form](args)
    with Output(args.o, []) as output:
        output.file.write(text)
        output.keep()
    for line in refused:
        cli.note(f"not taken: {line}")
    return 1 if refused else 0
