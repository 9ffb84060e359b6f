"""What the tools have to know of a specification or of a compiled program: its signals and its outputs.

c2po alone says what is a specification. Here its text is cut into items, so
that names can be found; a text that c2po refuses may pass.
"""

from __future__ import annotations

from dataclasses import dataclass, field
from pathlib import Path
from typing import Union

from r2u2tools.common.cli import ToolError, os_error
from r2u2tools.common.program_file import Signal, read_program
from r2u2tools.common.source import Item, Token, items

MAGIC = b"MLTL"


@dataclass
class Output:
    """A requirement: its name, its section, and in a specification the tokens of its formula or contract."""

    name: str
    section: str
    body: list[Token] = field(default_factory=list)


@dataclass
class Spec:
    """A specification, with its text, or a compiled program, with its bytes."""

    path: str
    signals: list[Signal]
    outputs: list[Output]
    text: str = ""
    items: list[Item] = field(default_factory=list)
    raw: bytes = b""

    def is_program(self) -> bool:
        return bool(self.raw)


def declared(item: Item) -> list[tuple[str, str]]:
    """The names and the kind of one item of INPUT."""
    names = [token.text for token in item.body]
    if len(names) < 3 or names[-2] != ":":
        raise ToolError("an item of INPUT isn't `names: type`")
    return [(name, names[-1]) for name in names[:-2] if name != ","]


def spec_of_text(path: str, text: str) -> Spec:
    found = items(text)
    pairs = [pair for item in found if item.section == "INPUT" for pair in declared(item)]
    signals = [Signal(name, kind, column) for column, (name, kind) in enumerate(pairs)]
    requirements = [item for item in found if item.section in ("FTSPEC", "PTSPEC")]
    outputs = [Output(item.name or str(k), item.section, item.body) for k, item in enumerate(requirements)]
    return Spec(path, signals, outputs, text, found)


def spec_of_bytes(path: str, raw: bytes) -> Spec:
    """The names that a compiled program stores."""
    found = read_program(path, raw)
    return Spec(path, found.signals, [Output(it.name, it.section) for it in found.outputs], raw=raw)


def read_spec(path: Union[str, Path]) -> Spec:
    """A specification or a compiled program, by what the file begins with."""
    try:
        with open(path, "rb") as file:
            raw = file.read((1 << 24) + 1)
    except OSError as fault:
        raise os_error(path, "open", fault) from None
    if raw.startswith(MAGIC):
        return spec_of_bytes(str(path), raw)
    try:
        return spec_of_text(str(path), raw.decode("latin-1"))
    except ToolError as trouble:
        raise ToolError(f"{path}: {trouble}") from None
