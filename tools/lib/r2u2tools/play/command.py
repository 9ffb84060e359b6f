"""Opens a page in the browser to try requirements over a trace.

usage: play [--port N] [--no-browser] [--timed] [SPEC [TRACE]]

The page has a requirement on the left, with marks at faults, and a trace on the
right: typed, pasted, dropped as a file, or made at random. Below are the
verdicts of r2u2 as one types; a click on one shows what decides it. Delay and
cost are beside them. A menu has the examples and the patterns. A link holds all of
it in its fragment, which the browser sends to nobody; given as SPEC, such a
link is shown again.

The page is served on 127.0.0.1 alone, at a port and with a token that are new
at each start, and printed; requests without the token are refused. Nothing is
written but files of single requests, in a folder that goes with them. Each run
has 10 seconds of the processor. An interrupt ends the server.

  $ r2u2-play grant.c2po grant.csv
  http://127.0.0.1:40211/YE9xU5CqdFHGnsJOnWCmcVJmlXTXIs0t/

The exit code is 0, or 2 where a file can't be read or the port is taken.
"""

import signal
import webbrowser
from argparse import Namespace
from typing import NoReturn, Optional

from r2u2tools.common import cli
from r2u2tools.common.programs import program
from r2u2tools.play.runs import file_of
from r2u2tools.play.server import Play


def parse_args() -> Namespace:
    parser = cli.parser(__doc__)
    parser.add_argument("--port", metavar="N", type=cli.count, default=0, help="the port; by default a free one")
    parser.add_argument("--no-browser", action="store_true", help="print the link, and open no browser")
    parser.add_argument("--timed", action="store_true", help="the rows of TRACE have stamps")
    parser.add_argument("spec", metavar="SPEC", nargs="?", help="a specification to begin with, or a link of this page")
    parser.add_argument("trace", metavar="TRACE", nargs="?", help="a trace to begin with")
    args = parser.parse_args()
    if args.port > 65535:
        parser.error("--port is at most 65535")
    return args


def fragment_of(word: Optional[str]) -> str:
    """The fragment of a link of this page; "" for the name of a file."""
    head, _, rest = (word or "").partition("#p.")
    return f"#p.{rest}" if rest and (not head or head.startswith("http://")) else ""


def interrupted(_signal: int, _frame: object) -> NoReturn:
    raise KeyboardInterrupt


def main() -> int:
    args = parse_args()
    for name in ("c2po", "r2u2"):
        program(name)
    fragment = fragment_of(args.spec)
    given = args.spec and not fragment
    first = {"spec": file_of(args.spec), "trace": file_of(args.trace), "timed": args.timed} if given else {}
    signal.signal(signal.SIGTERM, interrupted)
    try:
        with Play(args.port, first) as server:
            link = server.url() + fragment
            print(link, flush=True)
            if not args.no_browser:
                webbrowser.open(link)
            server.serve_forever()
    except KeyboardInterrupt:
        return 0
    return 0
