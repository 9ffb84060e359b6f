"""Prints what requirements cost a monitor, before it flies.

usage: budget [--rate HZ] [--top N] [--json] [--max-slots N]
              [--max-steps N] [--max-reports N] [--max-delay N]
              [--max-bytes N] SPEC

SPEC is a specification or a compiled program. For the whole and for each
output it prints

  bz, ft, pt  the instructions of the Booleanizer, of future and of past time
  slots       the slots of the queues of future time
  boxes       the most boxes of the sinces of past time
  delay       the most rows after its own with which a verdict is out;
              with --rate also in seconds
  steps       the most steps of one row: instructions with the reads and writes of
              queues and boxes, outputs and reports; of the whole also columns
  reports     the most reports of one row

then the bytes of memory of the whole, the formulas with the most slots or
boxes, and those that outputs share: each is there once, however many read it,
so the whole may be less than the sum.

Instructions, sizes and delays are those of the table of c2po (--table), which
is proved to be the program's. Steps are the bound that Monitor::step, which takes
a row and gives its reports, is proved to keep (its clause `counted`): over these
sizes, of an instruction of future time 4 * (m + s + 2) with s its own slots and m
the most of an operand, of one of past time two more than its boxes, of one of the
Booleanizer two, of an output and of a report two each, of the whole also one for
each column and three; r2u2_steps returns the same number. Reports are the bound that
Monitor::take is proved to keep (its clause `few`): the worst delay of what an
output reports, less the best delay of its formula or of its assumption, and one.

Bytes are what the library returns (r2u2_bytes), which is proved to be what a
monitor holds; an allocator's own come on top, for each of at most 19 blocks. The
library is build/libr2u2.so, which `make python` builds, or with installed tools
lib/r2u2/libr2u2.so, or the file that the variable R2U2_LIBRARY names. Where it
isn't there, bytes are left out.

The status is 1 where the whole is above a limit, and 2 where SPEC can't be read
or bytes are limited and the library isn't there.

example: r2u2-budget --rate 10 --max-delay 0.5s --max-slots 4096 flight.c2po
"""

import argparse
import json
import re
import tempfile
from argparse import Namespace
from fractions import Fraction
from typing import Any, Iterable, Iterator, Optional

from r2u2tools.common import cli
from r2u2tools.common.compiled import compiled
from r2u2tools.budget.costs import Costs
from r2u2tools.budget.library import bytes_of, why_none
from r2u2tools.common.program_file import PARTS, Place
from r2u2tools.common.expressions import shortened
from r2u2tools.common.cli import ToolError
from r2u2tools.common.tables import in_columns

HEADS = ("", *PARTS, "slots", "boxes", "delay", "steps", "reports")
DELAY = re.compile(r"(\d+(?:\.\d+)?)(s?)")


def rate_of(word: str) -> Fraction:
    if not re.fullmatch(r"\d+(\.\d+)?", word) or not Fraction(word):
        raise argparse.ArgumentTypeError("give rows a second, as 10 or 0.5")
    return Fraction(word)


def parse_args() -> Namespace:
    parser = cli.parser(__doc__)
    parser.add_argument("--rate", metavar="HZ", type=rate_of, help="rows a second, as 10 or 0.5")
    parser.add_argument("--top", metavar="N", type=cli.count, default=5, help="how many of the costliest formulas to print; 5")
    parser.add_argument("--json", action="store_true", help="print one object of JSON in place of the tables")
    parser.add_argument("--max-slots", metavar="N", type=cli.count, help="the most slots and boxes together")
    parser.add_argument("--max-steps", metavar="N", type=cli.count, help="the most steps of one row")
    parser.add_argument("--max-reports", metavar="N", type=cli.count, help="the most reports of one row")
    parser.add_argument("--max-delay", metavar="N", help="the most rows of delay, or with --rate seconds, as 0.5s")
    parser.add_argument("--max-bytes", metavar="N", type=cli.count, help="the most bytes of memory of a monitor")
    parser.add_argument("spec", metavar="SPEC", help="a specification or a compiled program")
    args = parser.parse_args()
    limit = DELAY.fullmatch(args.max_delay or "0")
    if not limit or (limit[2] and not args.rate) or (not limit[2] and "." in limit[1]):
        raise ToolError(f"--max-delay {args.max_delay}: give rows, as 5, or with --rate seconds, as 0.5s")
    args.max_rows = Fraction(limit[1]) * (args.rate if limit[2] else 1) if args.max_delay else None
    return args


def seconds(rows: int, rate: Fraction) -> str:
    return f"{float(rows / rate):.6g}"


def line_of(costs: Costs, places: set[Place], names: list[str], rate: Optional[Fraction]) -> dict[str, Any]:
    """What some instructions cost, with the delay and the reports of these outputs."""
    delay = max(map(costs.delay, names), default=0)
    line: dict[str, Any] = {part: costs.count(places, part) for part in PARTS}
    line |= {"slots": costs.sizes(places, "ft"), "boxes": costs.sizes(places, "pt"), "delay": delay}
    if rate:
        line["seconds"] = float(delay / rate)
    reports = sum(map(costs.reports, names))
    return line | {"steps": costs.steps(places) + 2 * len(names) + 2 * reports, "reports": reports}


def figures(costs: Costs, args: Namespace) -> dict[str, Any]:
    """All that is printed, as one object."""
    whole = line_of(costs, set(costs.all), list(costs.cones), args.rate)
    whole["steps"] += costs.width + 3
    if not why_none():
        whole["bytes"] = bytes_of(costs.made.flown())
    outputs = [{"name": name} | line_of(costs, cone, [name], args.rate) for name, cone in costs.cones.items()]
    return {
        "whole": whole,
        "outputs": outputs,
        "costliest": [formula(costs, place) for place in costs.costliest(args.top)],
        "shared": [formula(costs, place) for place in costs.shared()],
    }


def formula(costs: Costs, place: Place) -> dict[str, Any]:
    """The formula of an instruction, with its name where the specification gives it one."""
    it, text, ref = costs.all[place], costs.shown, costs.ref(place)
    found: dict[str, Any] = {"name": text.name(ref)} if text.name(ref) else {}
    found |= {"formula": text.uncalled(ref), "part": place[0], "size": it.size, "steps": costs.work(place)}
    return found | {"outputs": costs.readers[place]}


def words_of(name: str, line: dict[str, Any], rate: Optional[Fraction]) -> list[str]:
    delay = f"{line['delay']} rows" + (f", {seconds(line['delay'], rate)} s" if rate else "")
    return [name, *(str(line[part]) for part in (*PARTS, "slots", "boxes")), delay, str(line["steps"]), str(line["reports"])]


def named(line: dict[str, Any]) -> str:
    """A formula by its name, where it has one, and its text."""
    return shortened(f"{line['name']}: {line['formula']}" if "name" in line else line["formula"])


def few(names: list[str]) -> str:
    return ", ".join(names[:5]) + (f" and {len(names) - 5} more" if len(names) > 5 else "")


def sizes(line: dict[str, Any]) -> Iterable[str]:
    """The slots and the boxes of a formula, of which it has one kind."""
    return (str(line["size"] * (line["part"] == part) or "") for part in ("ft", "pt"))


def as_text(found: dict[str, Any], rate: Optional[Fraction]) -> Iterator[str]:
    outputs = [words_of(it["name"], it, rate) for it in found["outputs"]]
    yield from in_columns([HEADS, words_of("whole", found["whole"], rate), *outputs])
    yield ""
    yield f"{found['whole']['bytes']} bytes" if "bytes" in found["whole"] else f"bytes are left out: {why_none()}"
    if costly := [it for it in found["costliest"] if it["size"]]:
        heads = ("costliest", "slots", "boxes", "steps", "in")
        yield ""
        yield from in_columns([heads, *((named(it), *sizes(it), str(it["steps"]), few(it["outputs"])) for it in costly)])
    if found["shared"]:
        yield ""
        yield "shared, and there once"
        yield from (f"  {named(it)}  by {few(it['outputs'])}" for it in found["shared"])


def above(found: dict[str, Any], args: Namespace) -> Iterator[str]:
    """What is above a limit, in words."""
    whole = found["whole"]
    sizes = whole["slots"] + whole["boxes"]
    if args.max_slots is not None and sizes > args.max_slots:
        yield f"{sizes} slots and boxes, above {args.max_slots}"
    if args.max_steps is not None and whole["steps"] > args.max_steps:
        yield f"{whole['steps']} steps in one row, above {args.max_steps}"
    if args.max_reports is not None and whole["reports"] > args.max_reports:
        yield f"{whole['reports']} reports in one row, above {args.max_reports}"
    if args.max_bytes is not None and whole["bytes"] > args.max_bytes:
        yield f"{whole['bytes']} bytes, above {args.max_bytes}"
    for it in found["outputs"] if args.max_rows is not None else ():
        if it["delay"] > args.max_rows:
            yield f"{it['name']}: a delay of {it['delay']} rows, above {args.max_delay}"


def main() -> int:
    args = parse_args()
    if args.max_bytes is not None and why_none():
        raise ToolError(f"--max-bytes {args.max_bytes}: {why_none()}")
    with tempfile.TemporaryDirectory(prefix="budget-") as folder:
        found = figures(Costs(compiled(args.spec, folder)), args)
    print(json.dumps(found, indent=2) if args.json else "\n".join(as_text(found, args.rate)))
    faults = list(above(found, args))
    for fault in faults:
        cli.note(fault)
    return 1 if faults else 0
