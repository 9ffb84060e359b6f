"""Watches a live stream, and acts where a requirement fails.

usage: watch [--timed] [--on-false COMMAND] [--stop-at-first] [--keep N]
             [--quiet] SPEC [TRACE]

SPEC is a specification or a compiled program; TRACE is a file, a fifo or a
device, by default the standard input. Rows go to r2u2 as they come. On a
terminal a table shows the rate of rows and, of each output, its last verdict,
the time that it speaks of, how many rows it is behind, and how often it was F
or invalid. Elsewhere each stretch of F or invalid is one line where it begins,
and the table is printed at the end.

COMMAND is a line of shell. It is run once for each stretch, while the stream goes on,
with R2U2_OUTPUT, R2U2_TIME, R2U2_WORD and R2U2_REASON in its environment; the
reason is that of r2u2-why. It has 60 seconds, and no input.

  $ sensors | r2u2-watch --on-false 'logger "$R2U2_REASON"' flight.obs

The exit code is 0 where no verdict was F or invalid, 1 where one was, and 2
where the stream or SPEC can't be read, or no row came. An interrupt or SIGTERM
ends r2u2 too, prints the table, and gives 130 or 143.
"""

import shutil
import signal
import sys
import tempfile
from argparse import Namespace
from pathlib import Path
from typing import NoReturn, Optional

from r2u2tools.common import cli
from r2u2tools.common.cli import ToolError
from r2u2tools.common.specs import read_spec
from r2u2tools.watch.alarm import Alarms, Event, Reasons, words_of
from r2u2tools.watch.board import Board
from r2u2tools.watch.stream import Rows, Stream

DRAW = 0.25
UP, WIPE = "\x1b[{}A", "\x1b[K"


class Interrupted(Exception):
    """A signal came."""

    def __init__(self, number: int) -> None:
        super().__init__()
        self.number = number


def parse_args() -> Namespace:
    parser = cli.parser(__doc__)
    parser.add_argument("--timed", action="store_true", help="the rows have stamps")
    parser.add_argument("--on-false", metavar="COMMAND", help="a line of shell that is run where an output gets F or invalid")
    parser.add_argument("--stop-at-first", action="store_true", help="end with exit code 1 at the first F or invalid")
    parser.add_argument(
        "--keep", metavar="N", type=cli.count, default=100_000, help="how many of the latest rows are kept for reasons; by default 100000"
    )
    parser.add_argument("--quiet", action="store_true", help="print no table and no lines")
    parser.add_argument("spec", metavar="SPEC", help="a specification or a compiled program")
    parser.add_argument("trace", metavar="TRACE", nargs="?", default="-", help="rows; by default the standard input")
    return parser.parse_args()


class Watch:
    """A stream that is watched, with what is shown and done."""

    def __init__(self, args: Namespace, folder: str) -> None:
        self.found = args
        spec = read_spec(args.spec)
        self.board = Board([output.name for output in spec.outputs])
        self.rows = Rows(args.keep)
        self.reasons = Reasons(args.spec, Path(folder, "rows.csv"), self.rows, args.timed)
        self.alarms = Alarms(args.on_false, self.reasons) if args.on_false else None
        self.first: Optional[Event] = None
        self.drawn = 0
        self.shows = sys.stdout.isatty() and not args.quiet
        words = words_of(args.spec, spec.is_program(), args.timed)
        self.stream = Stream(words, cli.opened(args.trace), self.rows, self.on_verdict)

    def on_verdict(self, name: str, first: int, last: int, word: str) -> None:
        """Takes a stretch of verdicts, in the thread that reads them."""
        if self.first and self.found.stop_at_first:
            return
        if not self.board.take(name, first, last, word):
            return
        event = Event(name, first, word)
        self.first = self.first or event
        if not self.shows and not self.found.quiet:
            print(event.line(), flush=True)
        if self.alarms:
            self.alarms.put(event)
        if self.found.stop_at_first:
            self.stream.ended.set()

    def draw(self, rate: Optional[float] = None) -> None:
        """Shows the table in place of the one before."""
        size = shutil.get_terminal_size()
        lines = self.board.table(self.rows.count, rate, size.lines if self.shows else None, self.found.timed)
        if self.shows:
            lines = [line[: size.columns - 1] + WIPE for line in lines]
        up = UP.format(self.drawn) if self.drawn else ""
        sys.stdout.write(up + "\n".join(lines) + "\n")
        sys.stdout.flush()
        self.drawn = len(lines) if self.shows else 0

    def run(self) -> int:
        """Watches to the end; the exit code."""
        at_once = True
        try:
            self.stream.start()
            while not self.stream.ended.wait(DRAW):
                if self.shows:
                    self.draw(self.board.rate(self.rows.count))
            at_once = False
            if self.first and self.found.stop_at_first:
                self.stream.stop()
            self.stream.finish()
        finally:
            self.stream.stop()
            if self.alarms:
                self.alarms.finish(at_once)
            if not self.found.quiet:
                self.draw()
        if not self.rows.count and not self.found.stop_at_first:
            raise ToolError("no row came")
        if self.first and self.found.stop_at_first and not self.found.quiet:
            print(self.reasons.of(self.first))
        return 1 if self.first else 0


def ended(number: int, _frame: object) -> NoReturn:
    raise Interrupted(number)


def main() -> int:
    args = parse_args()
    signal.signal(signal.SIGPIPE, signal.SIG_IGN)
    for number in (signal.SIGINT, signal.SIGTERM, signal.SIGHUP):
        signal.signal(number, ended)
    with tempfile.TemporaryDirectory(prefix="watch-") as folder:
        try:
            return Watch(args, folder).run()
        except Interrupted as fault:
            return 128 + fault.number
