"""Other requirements over a trace that r2u2 watches: further outputs for a specification or a compiled program."""

from __future__ import annotations

from pathlib import Path
from typing import Sequence

from r2u2tools.common import programs
from r2u2tools.common.program_file import Signal
from r2u2tools.common.specs import Spec, read_spec, spec_of_text
from r2u2tools.common.cli import ToolError

TOLD = ("FTSPEC", "PTSPEC")


def as_text(path: str, doing: str) -> tuple[Spec, Spec]:
    """A specification as it is, or the text of a compiled program, and what was read."""
    given = read_spec(path)
    if not given.is_program():
        return given, given
    if not given.signals:
        raise ToolError(f"{doing}: a program of version 1 stores no signals: c2po --upgrade")
    shown = programs.written([programs.program("c2po"), "--show", str(path)], doing)
    return spec_of_text(str(path), shown.decode("ascii")), given


def fresh(spec: Spec, stem: str) -> str:
    """A beginning that no name of a specification has."""
    words = {token.text for item in spec.items for token in item.body} | {item.name for item in spec.items}
    while any(word and word.startswith(stem) for word in words):
        stem += "_"
    return stem


def header_for(signals: Sequence[Signal]) -> str:
    """A header with each signal at its column, for a program that stores them."""
    taken, names = {signal.column: signal.name for signal in signals}, {signal.name for signal in signals}
    stem = "other"
    while any(name.startswith(stem) for name in names):
        stem += "_"
    return "# " + ",".join(taken.get(k, f"{stem}{k}") for k in range(max(taken, default=-1) + 1)) + "\n"


def made(given: Spec, text: str, folder: str, doing: str) -> Path:
    """The file that r2u2 takes in place of the given one: a text, or its program with the columns of the given one."""
    path, header, program = Path(folder) / "more.c2po", Path(folder) / "header.csv", Path(folder) / "more.obs"
    path.write_text(text, encoding="latin-1")
    if not given.is_program():
        return path
    header.write_text(header_for(given.signals))
    programs.written([programs.program("c2po"), "--header", *map(str, [header, "-o", program, path])], doing)
    return program
