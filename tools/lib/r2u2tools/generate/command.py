"""Writes a monitor as C99 source, for processors that the library isn't built for.

usage: generate -o NAME [--handlers] [--on OUTPUT=WORD,..] [--keep-rows]
                [--signals FILE] SPEC
       generate -o NAME --signals FILE

SPEC is a specification or a compiled program. NAME.h and NAME.c are written;
the last part of NAME is the name of the struct and the beginning of all names
in C. Nothing of them is proved: dev/generated compares their verdicts with
those of r2u2.

  NAME_init        resets the monitor to its state before the first row
  NAME_row         takes a row of 32-bit integers, one for each column
  NAME_next        returns the next report of the row: output, time and word
  NAME_next_run    the same with one report for a run of times with one word

Outputs, times and words are those that r2u2_next of the library returns, after
the same row. The source allocates nothing, and needs stdint.h, stdbool.h and
limits.h alone; a compiler may call memset.

--handlers adds NAME_step, which takes a row and calls a function of yours for
each verdict: of a formula NAME_on_OUTPUT_false(time), of a contract
NAME_on_OUTPUT_invalid(time). --on chooses other words, as --on granted=true,false,
and handlers of the named outputs alone. NAME_row_at returns the row of a time: of
the row that was taken, and with --keep-rows of all verdicts.

--signals adds NAME_signals.h and NAME_signals.c: of the raw values of telemetry
they compute the columns of SPEC, or without SPEC all columns of the file.

The status is 1 where a name or a program can't be taken, and 2 where the arguments
are wrong or a file can't be read or written. No file is left half written.

example: r2u2-generate --handlers -o grant grant.c2po
"""

from argparse import Namespace
from pathlib import Path

from r2u2tools.common import cli
from r2u2tools.common.specs import read_spec
from r2u2tools.generate.files import write_pairs
from r2u2tools.generate.handlers import handlers_of
from r2u2tools.generate.names import struct_name
from r2u2tools.generate.program import read
from r2u2tools.generate.source import Options, Source
from r2u2tools.signals import emit, read as read_signals
from r2u2tools.telemetry.signal_columns import chosen_signals


def asked() -> Namespace:
    words = cli.words(__doc__)
    words.add_argument("-o", dest="output", metavar="NAME", required=True, help="the files NAME.h and NAME.c")
    words.add_argument("--handlers", action="store_true", help="add NAME_step, which calls functions of yours")
    words.add_argument("--on", metavar="OUTPUT=WORD,..", action="append", default=[], help="the words that an output's handlers are for")
    words.add_argument("--keep-rows", action="store_true", help="with --handlers: keep the rows of all verdicts")
    words.add_argument("--signals", metavar="FILE", help="how columns come from raw values: add NAME_signals.h and NAME_signals.c")
    words.add_argument("spec", metavar="SPEC", nargs="?", help="a specification or a compiled program")
    found = words.parse_args()
    if not found.handlers and (found.on or found.keep_rows):
        words.error("--on and --keep-rows go with --handlers")
    if not found.spec and (found.handlers or not found.signals):
        words.error("give a SPEC")
    return found


def signals_of(found: Namespace, name: str) -> tuple[str, str]:
    """The header and the source of the signals."""
    inputs = read_spec(found.spec).signals if found.spec else None
    return emit(chosen_signals(read_signals(found.signals), inputs, None), name)


def main() -> None:
    found = asked()
    base = Path(found.output)
    name = struct_name(base.name)
    pairs = [(f"{name}_signals", *signals_of(found, name))] if found.signals else []
    if found.spec:
        program = read(found.spec)
        handlers = handlers_of(program, name, found.on) if found.handlers else {}
        source = Source(program, Options(name, handlers, found.handlers, found.keep_rows))
        pairs.append((name, source.header(), source.source()))
    write_pairs(base.parent, pairs)
