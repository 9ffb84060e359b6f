"""Checks specifications, and says at which token each fault is.

usage: check [--json] [--sarif] SPEC..
       check [--json] [--sarif] [--timed] SPEC TRACE
       check --format [--diff] [--write] SPEC..
       check --server

Each fault is printed as compilers do, FILE:LINE:COLUMN: error: and what is
wrong, with the line, a mark below the token, and what to write instead. More
than the first fault is found where items don't depend on one another. The
verdict is that of c2po, whose own message is the last line of a file that it
refuses. SPEC may be `-`, the standard input.

  $ r2u2-check flight.c2po
  flight.c2po:2:24: error: unknown name 'grnt' (did you mean 'grant'?)
    FTSPEC granted: request -> F[0,3] grnt;

A second file whose name doesn't end in .c2po is a trace for the specification:
what r2u2 refuses in it is shown at its field, with what to write.

--format prints a specification with its blanks set in one way; comments and
line ends stay, and the compiled program is the same.

--server is a language server over the standard input and output, for editors:
faults as one types, and what was meant as an edit; kind and cost of the name under
the pointer, definitions, references, another name, completion and layout.

The exit code is 0 where c2po takes all, 1 where it refuses one, or where
--diff found other blanks, and 2 where a file can't be read or c2po isn't there.
"""

import difflib
import os
import sys
from argparse import Namespace
from pathlib import Path
from typing import List, Tuple

from r2u2tools.check import layout, report
from r2u2tools.check.faults import check
from r2u2tools.check.server import Server
from r2u2tools.common.source import LARGEST, decoded, encoded
from r2u2tools.check.trace import check_trace
from r2u2tools.common import cli
from r2u2tools.common.specs import MAGIC


def parse_args() -> Namespace:
    parser = cli.parser(__doc__)
    parser.add_argument("--json", action="store_true", help="print one object of JSON")
    parser.add_argument("--sarif", action="store_true", help="print SARIF 2.1.0, as tools for reviews of code take it")
    parser.add_argument("--timed", action="store_true", help="the rows of TRACE have stamps")
    parser.add_argument("--format", action="store_true", help="print the specification with its blanks set in one way")
    parser.add_argument("--diff", action="store_true", help="with --format: print what would change")
    parser.add_argument("--write", action="store_true", help="with --format: change the file")
    parser.add_argument("--server", action="store_true", help="serve an editor by the language server protocol")
    parser.add_argument("specs", metavar="SPEC", nargs="*", help="a specification, or - for the standard input; then a trace")
    args = parser.parse_args()
    if args.server == bool(args.specs):
        parser.error("give specifications, or --server alone")
    if (args.diff or args.write) and not args.format:
        parser.error("--diff and --write need --format")
    if args.write and "-" in args.specs:
        parser.error("--write needs files")
    return args


def text_of(path: str) -> str:
    """A specification as text; no more of it is read than c2po takes."""
    with cli.opened(path) as file:
        raw = file.read(LARGEST + 1)
    if raw.startswith(MAGIC):
        raise cli.ToolError(f"{path}: a compiled program, not a specification")
    if b"\0" in raw:
        raise cli.ToolError(f"{path}: not a text of UTF-8: it has a byte 0")
    if len(raw) > LARGEST:
        raise cli.ToolError(f"{path}: longer than {LARGEST} bytes")
    return decoded(raw)


def written(text: str) -> None:
    sys.stdout.flush()
    sys.stdout.buffer.write(encoded(text))
    sys.stdout.buffer.flush()


def replaced(path: str, text: str) -> None:
    try:
        Path(path).write_bytes(encoded(text))
    except OSError as fault:
        raise cli.os_error(path, "write", fault) from None


def formatted(args: Namespace) -> int:
    """Formats files: to the standard output, or into the files, or only what would change."""
    changed = False
    for path in args.specs:
        text = text_of(path)
        new = layout.laid_out(text)
        changed |= new != text
        if args.diff:
            lines = difflib.unified_diff(text.splitlines(True), new.splitlines(True), path, path)
            written("".join(line if line.endswith("\n") else line + "\n" for line in lines))
        elif not args.write:
            written(new)
        elif new != text:
            replaced(path, new)
    return 1 if args.diff and changed else 0


def main() -> int:
    args = parse_args()
    if args.server:
        # A separate stream: a thread that still waits for it must not find it closed with the interpreter.
        return Server(os.fdopen(os.dup(0), "rb"), sys.stdout.buffer).run()
    if args.format:
        return formatted(args)
    specs, traces = parted(args.specs)
    checked = [(path, check(text_of(path))) for path in specs]
    if not any(found.answer.status for _, found in checked):
        checked += [(path, check_trace(specs[0], path, args.timed)) for path in traces]
    if args.json or args.sarif:
        print(report.as_sarif(checked) if args.sarif else report.as_json(checked))
    else:
        for path, found in checked:
            for line in report.as_text(path, found):
                print(line)
    return 1 if any(found.answer.status or any(it.level == "error" for it in found.faults) for _, found in checked) else 0


def parted(paths: List[str]) -> Tuple[List[str], List[str]]:
    """The specifications, and the trace where the second of two files is one."""
    is_trace = len(paths) == 2 and paths[1] != "-" and not paths[1].endswith(".c2po")
    return (paths[:1], paths[1:]) if is_trace else (paths, [])
