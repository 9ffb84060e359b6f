"""The verdicts of all outputs of a program or a specification over a trace, from r2u2, as runs of equal words."""

from __future__ import annotations

import subprocess
from pathlib import Path
from typing import Union

from r2u2tools.common.cli import ToolError
from r2u2tools.common.programs import message, program
from r2u2tools.common.traces import Runs
from r2u2tools.common.verdict_lines import Reader


def verdict_runs(file: Union[str, Path], trace: str, timed: bool = False, source: bool = False) -> dict[str, Runs]:
    """The words of each output that has any, by name."""
    words = [program("r2u2"), "--runs", *["--timed"] * timed, *["--source"] * source, str(file), trace]
    found: dict[str, Runs] = {}
    with subprocess.Popen(words, stdout=subprocess.PIPE, stderr=subprocess.PIPE) as run:
        assert run.stdout and run.stderr
        for parts in Reader("r2u2").parts(run.stdout):
            for name, part in parts.items():
                found.setdefault(name, Runs()).extend(part.times, part.words)
        text = message(run.stderr.read())
    if run.returncode:
        raise ToolError(f"{trace}: {text or f'r2u2 ended with status {run.returncode}'}")
    return found
