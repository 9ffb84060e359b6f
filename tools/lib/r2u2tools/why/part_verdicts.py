"""The verdicts of the parts of a formula, from r2u2 itself.

The program, with each part of one of its outputs as an output, is watched over
rows. Of each part the verdicts of those times
are kept on which the output may depend.
"""

from __future__ import annotations

import subprocess
from dataclasses import dataclass, field
from pathlib import Path
from typing import Iterable, Optional, Sequence

from r2u2tools.common.program_file import Program
from r2u2tools.common.program_text import Node, ProgramText, Requirement
from r2u2tools.common.programs import message, program
from r2u2tools.common.cli import ToolError
from r2u2tools.common.verdict_lines import Reader

FALSE, TRUE, UNKNOWN = 0, 1, 2
WORDS = {"T": TRUE, "F": FALSE, "verified": TRUE, "invalid": FALSE, "inactive": FALSE}
MOST_TIMES = 1 << 22


@dataclass
class Part:
    """The verdicts of a part at the times from `low` to `high`; `known` is the first time that has none."""

    low: int
    high: int
    words: bytearray = field(default_factory=bytearray)
    known: int = 0

    def at(self, time: int) -> int:
        return self.words[time - self.low]

    def fill(self, first: int, last: int, word: int) -> None:
        self.known = last + 1
        low, high = max(first, self.low), min(last, self.high)
        if low <= high:
            self.words[low - self.low : high + 1 - self.low] = bytes([word]) * (high - low + 1)


class Parts:
    """The parts of an output below its references, operands first, and how far from a time those rows lie that matter."""

    def __init__(self, shown: ProgramText, requirement: Requirement) -> None:
        self.shown, self.requirement = shown, requirement
        below = shown.below(*requirement.operands())
        self.refs = [ref for ref in (*shown.signals, "true", *shown.nodes) if ref in below and shown.is_truth(ref)]
        self.ahead, self.back = self.farthest("U"), self.farthest("S")
        self.signals = [name for name in shown.signals if name in below]

    def node(self, ref: str) -> Optional[Node]:
        """The definition of a part; a leaf has none."""
        return None if self.shown.is_leaf(ref) else self.shown.nodes[ref]

    def farthest(self, op: str) -> int:
        """How many rows after a time, or before it, those may lie on which the output depends there."""
        far: dict[str, int] = {}
        for ref in self.refs:
            node = self.node(ref)
            own = node.high if node and node.op == op else 0
            far[ref] = own + max(far[operand] for operand in node.operands()) if node else 0
        return max(far[ref] for ref in self.requirement.operands())

    def first(self, time: int, rows: int) -> int:
        """The first time whose verdict may keep that of a time back, over that number of rows."""
        return min(time, max(0, rows - self.ahead))

    def spans(self, first: int, last: int) -> dict[str, tuple[int, int]]:
        """The times of each part that matter to the output from one time to another."""
        spans = {ref: (first, last) for ref in self.refs}
        for ref in reversed(self.refs):
            node, (low, high) = self.node(ref), spans[ref]
            for operand in node.operands() if node else ():
                before, after = spans[operand]
                back = node.high if node and node.op == "S" else 0
                ahead = node.high if node and node.op == "U" else 0
                spans[operand] = min(before, max(0, low - back)), max(after, high + ahead)
        if sum(high - low + 1 for low, high in spans.values()) > MOST_TIMES:
            raise ToolError(f"{self.requirement.name} at {last} reads more than {MOST_TIMES} times of its parts: too many to explain")
        return spans


@dataclass
class Verdicts:
    """The verdicts of parts over some rows."""

    parts: Parts
    by_ref: dict[str, Part]

    def at(self, ref: str, time: int) -> int:
        return self.by_ref[ref].at(time)

    def word(self, time: int) -> Optional[str]:
        """The word of the output at a time by those of its references; None where they leave it open."""
        words = [self.at(ref, time) for ref in self.parts.requirement.operands()]
        if words[0] == FALSE and len(words) == 2:
            return "inactive"
        if UNKNOWN in words:
            return None
        return "FT"[words[0]] if len(words) == 1 else ("invalid", "verified")[words[1]]


class PartWatch:
    """Asks r2u2 for the verdicts of all parts, over any rows."""

    def __init__(self, parts: Parts, program: Program, folder: Path) -> None:
        self.parts, self.trace, self.path = parts, Path(folder, "parts.csv"), Path(folder, "parts.obs")
        part = "ft" if parts.requirement.section == "FTSPEC" else "pt"
        places = {parts.shown.refs[place]: place for place in program.instructions if place[0] == part}
        stem = fresh_stem([output.name for output in program.outputs])
        self.names = {f"{stem}{k}": ref for k, ref in enumerate(parts.refs)}
        self.path.write_bytes(program.with_outputs({name: places[ref] for name, ref in self.names.items()}))

    def over(self, rows: Iterable[bytes], origin: int, spans: dict[str, tuple[int, int]]) -> Verdicts:
        """The verdicts over rows, of which the first one is that of the time `origin`."""
        with open(self.trace, "wb") as file:
            file.writelines(rows)
        found = {ref: Part(low, high, bytearray([UNKNOWN]) * (high - low + 1), origin) for ref, (low, high) in spans.items()}
        self.listen({name: found[ref] for name, ref in self.names.items()}, origin)
        return Verdicts(self.parts, found)

    def listen(self, parts: dict[str, Part], origin: int) -> None:
        """Takes the lines of a run until all that was asked for is there, or the run ends."""
        missing = len(parts)
        words = [program("r2u2"), "--runs", str(self.path), str(self.trace)]
        with subprocess.Popen(words, stdout=subprocess.PIPE, stderr=subprocess.PIPE) as run:
            assert run.stdout and run.stderr
            for name, first, last, word in Reader("r2u2").stretches(run.stdout):
                part = parts.get(name)
                if part is None:
                    continue
                part.fill(first + origin, last + origin, WORDS[word])
                missing -= first + origin <= part.high <= last + origin
                if not missing:
                    run.kill()
                    return
            text = message(run.stderr.read())
        if run.returncode:
            raise ToolError(text or f"r2u2 ended with status {run.returncode}")


def fresh_stem(names: Sequence[str]) -> str:
    """A beginning that no name has."""
    stem = "p"
    while any(name.startswith(stem) for name in names):
        stem += "_"
    return stem
