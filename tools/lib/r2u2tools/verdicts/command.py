"""Counts the verdict lines of r2u2, so that a verdict can fail a build.

usage: verdicts [--json | --junit | --tap | --github] [--ignore NAME]
                [--spec FILE] [--log NAME] [--exercised] [--fail-untried]
                [--fail-undecided] [LINES]
       verdicts [--json | --junit | --tap | --github] [--ignore NAME]
                [--log NAME] [--exercised] [--fail-untried]
                [--fail-undecided] -- r2u2 ...
       verdicts --diff OTHER [LINES]
       verdicts --merge [--json | --junit | --tap | --github] [--ignore NAME]
                [--fail-untried] [--fail-undecided] RESULT..

LINES is a file of verdict lines, by default the standard input. For each output
the table has the number of times with each word, the first F or invalid, how
many stretches of them there are, how many times the longest has and where the
last one is, how far the output is decided, and how many times at the end of the
trace are still undecided. After `--` comes a command, which is run: where it
fails, its code and its message are kept. With --exercised the table also has,
for each output that is an implication or a contract, how often its left side
was true: if it never was, the output shows nothing about the system. For this
r2u2 runs once more over the same trace, with the left sides as outputs.

The status is 0 where all outputs have verdicts and none has F or invalid. It is
1 where an output has one, or has no verdict, or where there is no verdict at
all; with --fail-untried also where a left side was never true, and with
--fail-undecided where an output is undecided at any time. It is 2 where the
command failed, something can't be read, or --ignore names no output. With --diff it is 0 where both files
agree, 1 where they differ and 2 where one can't be read.

example: verdicts --junit -- r2u2 --source grant.c2po log.csv > result.xml
"""

import difflib
import sys
import time
from argparse import Namespace
from typing import Iterable, Optional

from r2u2tools.common import cli
from r2u2tools.verdicts.left_sides import exercised, from_contracts, runs_twice
from r2u2tools.common.r2u2_run import Command
from r2u2tools.common.specs import read_spec
from r2u2tools.common.cli import ToolError
from r2u2tools.verdicts.counts import Result, Rules, counted, rows_of
from r2u2tools.verdicts.diff import told_diff
from r2u2tools.verdicts.junit import as_github, as_junit, as_tap
from r2u2tools.verdicts.merge import merged
from r2u2tools.verdicts.records import as_json
from r2u2tools.verdicts.table import as_table


def make_parser() -> cli.Parser:
    """The options."""
    parser = cli.parser(__doc__)
    form = parser.add_mutually_exclusive_group()
    form.add_argument("--json", action="store_true", help="print one object of JSON in place of the table")
    form.add_argument("--junit", action="store_true", help="print a test for each output, for continuous integration")
    form.add_argument("--tap", action="store_true", help="print a line for each output, as the Test Anything Protocol has it")
    form.add_argument("--github", action="store_true", help="print annotations of GitHub at the lines of what fails")
    parser.add_argument(
        "--ignore", metavar="NAME", action="append", default=[],
        help="an output that may have F or invalid, or no verdict",
    )
    parser.add_argument("--spec", metavar="FILE", help="a specification or program, for outputs without a line")
    parser.add_argument("--log", metavar="NAME", help="the name of the log in --json, --junit and --merge")
    parser.add_argument("--exercised", action="store_true", help="count how often left sides were true")
    parser.add_argument("--fail-untried", action="store_true", help="status 1 where a left side was never true")
    parser.add_argument("--fail-undecided", action="store_true", help="status 1 where a time is undecided")
    parser.add_argument("--diff", metavar="OTHER", help="print where LINES and OTHER differ")
    parser.add_argument("--merge", action="store_true", help="make one result of many files that --json printed")
    parser.add_argument("files", metavar="LINES", nargs="*", help="verdict lines; with --merge, files of --json")
    return parser


def parse_args() -> Namespace:
    """The arguments; those after `--` are a command."""
    parser, given = make_parser(), sys.argv[1:]
    place = given.index("--") if "--" in given else len(given)
    args, args.command = parser.parse_args(given[:place]), given[place + 1 :]
    fault = misused(args, place < len(given))
    if fault:
        parser.error(fault)
    return args


def misused(args: Namespace, dashes: bool) -> Optional[str]:
    """What doesn't fit together in the arguments, or None."""
    if dashes and not args.command:
        return "no command after --"
    if args.command and (args.files or args.merge or args.diff):
        return "a command after -- excludes LINES, --merge and --diff"
    if args.merge and not args.files:
        return "--merge needs files that --json printed"
    if not args.merge and len(args.files) > 1:
        return "one file of LINES at a time"
    alone = args.merge or args.json or args.junit or args.tap or args.github or args.exercised or args.ignore
    if args.diff and (alone or args.fail_untried or args.fail_undecided):
        return "--diff takes no other option"
    if args.merge and args.exercised:
        return "--exercised belongs to the runs, before --merge"
    if args.fail_untried and not (args.exercised or args.merge):
        return "--fail-untried needs --exercised"
    return None


def one_result(args: Namespace) -> Result:
    """The result of one log: of a command that is run, or of lines that are read."""
    began = time.monotonic()
    result = of_command(args) if args.command else of_lines(args)
    if args.exercised:
        from_contracts(result)
    result.close()
    result.seconds = time.monotonic() - began
    return result


def of_command(args: Namespace) -> Result:
    """The result of a run."""
    command = Command(args.command)
    if args.exercised:
        runs_twice(command)
    r2u2_args = command.r2u2
    result = Result(args.log or command.log(), spec=r2u2_args.file if r2u2_args else None)
    take_spec(result, args.spec or result.spec, args.spec is None)
    command.run(lambda file: counted(file, result), result)
    if r2u2_args and r2u2_args.trace != "-":
        result.rows = rows_of(r2u2_args.trace, "--timed" in r2u2_args.flags)
    if args.exercised and not result.failed and not result.stopped:
        exercised(command, result)
    return result


def of_lines(args: Namespace) -> Result:
    """The result of lines that are read."""
    path = args.files[0] if args.files else "-"
    result = Result(args.log or (None if path == "-" else path), spec=args.spec)
    take_spec(result, args.spec, False)
    with cli.opened(path) as file:
        counted(file, result)
    return result


def take_spec(result: Result, path: Optional[str], lenient: bool) -> None:
    """Adds the outputs of a specification or program with their texts; r2u2 reports what is wrong with its own."""
    if path is None or path == "-":
        return
    try:
        spec = read_spec(path)
    except ToolError:
        if lenient:
            return
        raise
    result.spec = result.spec or path
    for output in spec.outputs:
        body = output.body
        text = " ".join(spec.text[body[0].start : body[-1].end].split()) if body and not spec.is_program() else ""
        kept = result.output(output.name)
        kept.requirement, kept.line = text, body[0].line if body else 0


def main() -> int:
    args = parse_args()
    if args.diff:
        return told_diff(args.files[0] if args.files else "-", args.diff)
    result = merged(args.files) if args.merge else one_result(args)
    unknown = [name for name in args.ignore if name not in result.outputs]
    for name in unknown:
        cli.note(f"no output {name}, which is to be ignored{like(name, result.outputs)}")
    rules = Rules(tuple(args.ignore), args.fail_untried, args.fail_undecided)
    forms = {"json": as_json, "junit": as_junit, "tap": as_tap, "github": as_github}
    text = next((forms[form] for form in forms if getattr(args, form)), as_table)(result, rules)
    print(text, end="\n" * bool(text))
    return max(result.status(rules), cli.TROUBLE * bool(unknown))


def like(name: str, known: Iterable[str]) -> str:
    """A known name that is close to one, as a question."""
    close = difflib.get_close_matches(name, known, 1)
    return f" (did you mean {close[0]}?)" if close else ""
