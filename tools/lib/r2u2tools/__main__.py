"""Runs a tool by its name.

usage: r2u2-tools NAME [ARGUMENT..]

{questions}
`r2u2-tools NAME --help` has the options of a tool. Each tool is also a command
by itself, r2u2-NAME.

example: r2u2-tools check flight.c2po
"""

import importlib
import sys
from pathlib import Path
from typing import NoReturn

from r2u2tools.common import cli

# The tools: the module of each, and the question that it answers.
TOOLS = {
    "check": ("check.command", "What is wrong with a specification, and at which token?"),
    "trace": ("telemetry.command", "How does telemetry become a trace?"),
    "convert": ("convert.command", "How do requirements come in from other tools, and verdicts go out?"),
    "play": ("play.command", "What does a requirement say of a trace, as I type it?"),
    "verdicts": ("verdicts.command", "Did the logs pass, and where did which requirement fail?"),
    "why": ("why.command", "Why is a verdict what it is?"),
    "timeline": ("timeline.command", "What do verdicts and signals look like over time?"),
    "watch": ("watch.command", "What holds right now, and who is told when it doesn't?"),
    "probe": ("probe.command", "Would my logs notice if a requirement were wrong?"),
    "compare": ("compare.command", "Where do two versions of a specification differ?"),
    "generate": ("generate.command", "How does a monitor become C source, for any processor?"),
    "budget": ("budget.command", "What does a specification cost in memory, time and delay?"),
}


def questions() -> str:
    """The tools by question, for the help."""
    return "".join(f"  {question}\n    {name}\n" for name, (_, question) in TOOLS.items())


def chosen(argv: list[str]) -> str:
    """The tool that the command line names: by the name of the command, or by the first argument."""
    name = Path(argv[0]).name.removeprefix("r2u2-")
    if name in TOOLS:
        return name
    argv[0] = "r2u2-tools"
    parser = cli.parser((__doc__ or "").format(questions=questions()))
    parser.add_argument("name", metavar="NAME", choices=list(TOOLS), help="the tool")
    name = parser.parse_args(argv[1:2]).name
    argv[:2] = [f"r2u2-{name}"]
    return str(name)


def main() -> NoReturn:
    """Runs a tool to its end."""
    cli.run(lambda: importlib.import_module(f"r2u2tools.{TOOLS[chosen(sys.argv)][0]}").main())


if __name__ == "__main__":
    main()
