"""Explains why a verdict is what it is.

usage: why [--timed] [--begin ROW] [--seconds N] [--html FILE]
           SPEC TRACE NAME:TIME

SPEC is a specification or a compiled program, TRACE a trace as r2u2 takes it,
`-` for the standard input, and NAME:TIME an output and a time, as in a verdict
line; the whole line may be pasted, as granted:2,F. With --begin TRACE is the
rest of a longer one, and begins with that row, or with that stamp.

The first line names what decides the verdict: signals at rows. Below it are
the parts of the formula between the verdict and those rows, the smallest
first, in the words of SPEC where it writes them. The cells that the first line
names decide the verdict: whatever the others hold, it is the same. Of an open
verdict they are the cells to come on which it depends.

The verdicts of the parts are those of r2u2, which watches the program with each
part as an output, over the rows that the
windows of the verdict reach. Where a verdict follows in several ways, a way
with few cells is chosen, and a cell that isn't needed is left out: r2u2 finds
that over rows with other values there, for 5 seconds or those of --seconds: the
last line says when there wasn't time for all. Long windows, of more than 256
cells or of thousands of times of the parts, aren't tried so.

The exit code is 0 where the reasons are printed, and 2 where something can't be
read or SPEC hasn't such an output.

example: r2u2-why grant.c2po grant.csv granted:2
"""

import re
import sys
import tempfile
from dataclasses import dataclass
from pathlib import Path
from typing import Optional

from r2u2tools.common import cli
from r2u2tools.common.output import write
from r2u2tools.common.cli import ToolError
from r2u2tools.common.compiled import compiled
from r2u2tools.why.explanation import Explainer
from r2u2tools.why.html_page import page
from r2u2tools.why.sentences import Sentences, no_row
from r2u2tools.why.trace_window import Cells

ASKED = re.compile(r"([A-Za-z0-9_]{1,64}):([0-9]{1,13})(?:,(T|F|inactive|invalid|verified))?")
DEEPEST = 200_000


@dataclass
class Question:
    """What was asked for; `word` is that of a verdict line which was pasted."""

    spec: str
    trace: str
    name: str
    time: int
    word: Optional[str]
    timed: bool
    begin: int
    html: Optional[str]
    seconds: int


def parse_args() -> Question:
    parser = cli.parser(__doc__)
    parser.add_argument("--timed", action="store_true", help="the rows of the trace have stamps")
    parser.add_argument("--begin", metavar="ROW", type=cli.count, default=0, help="the first row of TRACE, the rest of a longer one")
    parser.add_argument("--seconds", metavar="N", type=cli.count, default=5, help="how long to look for cells that aren't needed; 5")
    parser.add_argument("--html", metavar="FILE", help="write a page that marks the cells in the rows around them")
    parser.add_argument("spec", metavar="SPEC", help="a specification or a compiled program")
    parser.add_argument("trace", metavar="TRACE", help="a trace, or - for the standard input")
    parser.add_argument("verdict", metavar="NAME:TIME", help="an output and a time, or a verdict line")
    args = parser.parse_args()
    verdict = ASKED.fullmatch(args.verdict.strip())
    if not verdict:
        raise ToolError(f"no verdict is called {args.verdict}: write NAME:TIME, as in granted:2")
    return Question(args.spec, args.trace, verdict[1], int(verdict[2]), verdict[3], args.timed, args.begin, args.html, args.seconds)


def explain(args: Question, folder: Path) -> int:
    made = compiled(args.spec, folder)
    requirement = made.shown.output(args.name)
    explainer = Explainer(made, requirement, folder, args.seconds)
    window = explainer.window(args.trace, args.time, args.timed, args.begin)
    if args.time >= window.rows:
        print(no_row(args.name, args.time, window.rows, args.timed))
        return 0
    found = explainer.explain(window, args.time)
    trace = Cells(window, explainer.signals)
    says = Sentences(made.shown, trace, args.timed)
    lines = [says.first_line(found, args.name, args.time), *says.tree(found)]
    if found.is_cut:
        lines.append(f"after {args.seconds} seconds: not all of these cells may be needed; --seconds {12 * max(args.seconds, 5)} looks for longer")
    print("\n".join(lines))
    if args.word and args.word != found.word:
        cli.note(f"the line has {args.word}, and over this trace the verdict is {found.word or 'open'}")
    if args.html:
        write(args.html, page(lines, requirement.name, found, args.time, trace, explainer.kinds()))
    return 0


def main() -> int:
    sys.setrecursionlimit(DEEPEST)
    with tempfile.TemporaryDirectory(prefix="why-") as folder:
        return explain(parse_args(), Path(folder))
