"""Compares two versions of a specification by what r2u2 says of both.

usage: compare [--timed] [--random N] [--rows N] [--seed N] [--keep FOLDER]
               [--markdown] OLD NEW [LOG ...]

OLD and NEW are specifications or compiled programs. Both are watched over each
LOG, a trace as r2u2 takes it, and over traces that are made at random: their
fields are 0 and 1, and integers next to the constants of both versions.

For each output of both, the first row at which their verdicts differ is
printed, with the first line of why for each; outputs of one version alone are
listed. The table below has the difference in cost, as r2u2-budget counts it.
--markdown prints the same for a review.

The exit code is 0 where no verdict differs and both versions have the same
outputs, 1 where not, and 2 where something can't be read.

example: r2u2-compare --random 50 old.c2po new.c2po monday.csv tuesday.csv
"""

import sys
import tempfile
from argparse import Namespace
from pathlib import Path
from typing import Iterator

from r2u2tools.common import cli
from r2u2tools.common.output import write
from r2u2tools.compare.cost_changes import cost_changes
from r2u2tools.compare.differences import Comparison, Trace, Version, compare, order_note, version
from r2u2tools.compare.random_traces import columns_of, trace
from r2u2tools.compare.report import as_markdown, as_text

DEEPEST = 200_000


def parse_args() -> Namespace:
    parser = cli.parser(__doc__)
    parser.add_argument("--timed", action="store_true", help="the rows of the logs have stamps")
    parser.add_argument("--random", metavar="N", type=cli.count, default=20, help="how many traces at random; 20")
    parser.add_argument("--rows", metavar="N", type=cli.count, default=200, help="the rows of such a trace; 200")
    parser.add_argument("--seed", metavar="N", type=cli.count, default=0, help="other traces for another number; 0")
    parser.add_argument("--keep", metavar="FOLDER", help="write the random traces into this folder")
    parser.add_argument("--markdown", action="store_true", help="print Markdown")
    parser.add_argument("old", metavar="OLD", help="a specification or a compiled program")
    parser.add_argument("new", metavar="NEW", help="another version of it")
    parser.add_argument("logs", metavar="LOG", nargs="*", help="a trace")
    args = parser.parse_args()
    if "-" in (args.old, args.new, *args.logs):
        parser.error("each file is read more than once: - can't be one")
    return args


def traces(args: Namespace, versions: list[Version], folder: Path) -> Iterator[Trace]:
    """The logs, then the traces at random."""
    yield from (Trace(log, log, args.timed) for log in args.logs)
    columns = columns_of([it.made.shown for it in versions])
    for k in range(args.random):
        path = Path(args.keep or folder, f"random{args.seed + k}.csv")
        write(path, trace(columns, args.rows, args.seed + k))
        yield Trace(str(path), str(path) if args.keep else f"the random trace {args.seed + k}")


def compared(args: Namespace, folder: Path) -> tuple[Comparison, list[str]]:
    old, new = version(args.old, folder / "old"), version(args.new, folder / "new")
    found = compare(old, new, traces(args, [old, new], folder))
    found.notes = order_note(old, new, args.logs)
    changes = cost_changes(old, new)
    if args.markdown:
        return found, list(as_markdown(found, changes, args.old, args.new))
    return found, list(as_text(found, changes))


def main() -> int:
    sys.setrecursionlimit(DEEPEST)
    args = parse_args()
    with tempfile.TemporaryDirectory(prefix="compare-") as folder:
        found, lines = compared(args, Path(folder))
    print("\n".join(lines))
    return 0 if found.is_same() else 1
