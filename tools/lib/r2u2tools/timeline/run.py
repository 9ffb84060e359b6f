"""A run of r2u2 for a timeline: over the same trace, with one output more, which has a line with every row."""

from __future__ import annotations

import shlex
import sys
import tempfile
from pathlib import Path
from typing import Optional

from r2u2tools.common.rerun import as_text, fresh, made
from r2u2tools.common.r2u2_run import Command, RunResult
from r2u2tools.common.cli import ToolError
from r2u2tools.common.specs import Spec
from r2u2tools.timeline.model import Model, take_lines, take_trace


def title_of(spec: Spec) -> str:
    """The requirement, where a specification has one alone."""
    requirements = [item for item in spec.items if item.section in ("FTSPEC", "PTSPEC")]
    text = " ".join(spec.text[requirements[0].start : requirements[0].end].split()) if len(requirements) == 1 else ""
    return text if len(text) <= 100 and "--" not in text else ""


def why_command(spec: str, trace: str, timed: bool) -> str:
    """The beginning of the command that explains a verdict of a run; its end is the output and the time."""
    tool = Path(sys.argv[0])
    words = [str(tool.with_name(tool.name.replace("timeline", "why"))), *["--timed"] * timed, spec, trace]
    return " ".join(shlex.quote(str(word)) for word in words)


def run(words: list[str], model: Model, every: bool) -> Optional[str]:
    """Takes a run into the model; where r2u2 fails, the lines before that, and its message is returned."""
    command = Command(words)
    r2u2_args = command.r2u2
    if not r2u2_args or r2u2_args.file is None or "-" in (r2u2_args.file, r2u2_args.trace):
        raise ToolError("the command has to be r2u2 with a specification or program, and a trace, that are files")
    result = RunResult()
    with tempfile.TemporaryDirectory() as folder:
        spec, given = as_text(r2u2_args.file, "timeline")
        ticks = fresh(spec, "tick")
        text = f"{spec.text}\nFTSPEC {ticks}: true;\n"
        file = made(given, text, folder, "timeline")
        model.take_spec(given)
        model.why = why_command(r2u2_args.file, r2u2_args.trace, "--timed" in r2u2_args.flags)
        model.title = title_of(given) if not given.is_program() else ""
        take_trace(model, r2u2_args.trace, given.signals, every)
        flags = [] if "--runs" in r2u2_args.flags else ["--runs"]
        again = Command([command.words[0], *flags, *r2u2_args.with_file(file, not given.is_program())], quiet=True)
        again.run(lambda lines: take_lines(model, lines, "", ticks), result)
    return str(result.failed[0]["message"]) if result.failed else None
