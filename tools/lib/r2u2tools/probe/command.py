"""Probes what logs say of requirements: what about each one they would notice.

usage: probe [--timed] [--json] [--no-margins] [--fail-untried]
             [--least-noticed PERCENT] SPEC LOG ...

SPEC is a specification and each LOG a trace as r2u2 takes it. c2po compiles
changes of the requirements, and r2u2 watches them over the logs. A table has
for each requirement

  verdicts      how many it has, and how many of them are false or invalid
  tried         whether it has a verdict, and its left side holds somewhere
  noticed       of small changes, each of one bound, constant or operator, how
                many give another verdict somewhere
  unused parts  parts that never decide: with true in their place, and with
                false, all verdicts are the same
  margins       numbers of a requirement that is never false, which could be
                others: the last value with which it is never false

and below it the changes that no log notices, the unused parts and the margins,
each with its line and column. --json prints the same as one object.

The exit code is 0 where all is printed, 1 where --fail-untried or
--least-noticed finds too little, and 2 where something can't be read.

example: r2u2-probe lander.c2po monday.csv tuesday.csv
"""

import json
import tempfile
from argparse import ArgumentTypeError, Namespace
from dataclasses import asdict
from pathlib import Path

from r2u2tools.common import cli
from r2u2tools.common.compiled import make
from r2u2tools.common.specs import read_spec
from r2u2tools.common.cli import ToolError
from r2u2tools.probe.findings import Finding, Probe, noticed_share, untried
from r2u2tools.probe.report import lines
from r2u2tools.probe.requirements import Source
from r2u2tools.probe.trials import Trials


def percent(word: str) -> int:
    value = int(cli.count(word))
    if value > 100:
        raise ArgumentTypeError(f"{word} is above 100")
    return value


def parse_args() -> Namespace:
    parser = cli.parser(__doc__)
    parser.add_argument("--timed", action="store_true", help="the rows of the logs have stamps")
    parser.add_argument("--json", action="store_true", help="print one object of JSON")
    parser.add_argument("--no-margins", action="store_true", help="look for no margins, which take longest")
    parser.add_argument("--fail-untried", action="store_true", help="exit code 1 where a requirement wasn't tried")
    parser.add_argument("--least-noticed", metavar="PERCENT", type=percent, help="exit code 1 where fewer changes are noticed")
    parser.add_argument("spec", metavar="SPEC", help="a specification")
    parser.add_argument("logs", metavar="LOG", nargs="+", help="a trace")
    args = parser.parse_args()
    if "-" in (args.spec, *args.logs):
        parser.error("each file is read more than once: - can't be one")
    return args


def probed(args: Namespace, folder: Path) -> list[Finding]:
    source = Source(read_spec(args.spec))
    try:
        make(args.spec, folder / "spec.obs")
    except ToolError as trouble:
        raise ToolError(f"{args.spec}: {trouble}") from None
    trials = Trials(source.head(), args.logs, args.timed, folder)
    return Probe(source, trials).findings(not args.no_margins)


def too_little(args: Namespace, findings: list[Finding]) -> list[str]:
    """What is too little, in words."""
    found = [f"{name} wasn't tried" for name in untried(findings)] if args.fail_untried else []
    share = noticed_share(findings)
    if args.least_noticed is not None and share < args.least_noticed:
        found.append(f"{share:.1f} % of all changes are noticed, below {args.least_noticed} %")
    return found


def main() -> int:
    args = parse_args()
    with tempfile.TemporaryDirectory(prefix="probe-") as folder:
        findings = probed(args, Path(folder))
    if args.json:
        print(json.dumps({"spec": args.spec, "logs": args.logs, "requirements": [asdict(it) for it in findings]}, indent=2))
    else:
        print("\n".join(lines(args.spec, findings)))
    faults = too_little(args, findings)
    for fault in faults:
        cli.note(fault)
    return 1 if faults else 0
