"""Programs and rows over which monitors in C are compared with r2u2."""

from __future__ import annotations

import sys
from dataclasses import dataclass
from itertools import product
from pathlib import Path
from random import Random
from typing import Iterator, List, Optional

ROOT = Path(__file__).resolve().parent.parent.parent
sys.path[:0] = [str(ROOT / "tools/lib"), str(ROOT / "dev/lib"), str(ROOT / "bench")]

import cases
import random_programs
from r2u2tools.generate.program import Program

ROWS = 2000
MAGIC = b"MLTL"


@dataclass
class Case:
    """A program or a specification, and its rows: as lines of a trace, or made for its width."""

    title: str
    raw: bytes
    trace: Optional[bytes] = None
    rows: Optional[List[List[int]]] = None

    def rows_of(self, program: Program) -> List[List[int]]:
        if self.rows is not None:
            return self.rows
        return rows_of_trace(program, (self.trace or b"").decode("utf-8", "replace"))


def whole(text: str) -> int:
    """The number of a field; 0 where it isn't one, in a column that isn't read."""
    try:
        value = int(text.strip())
    except ValueError:
        return 0
    return value if -(1 << 31) <= value < 1 << 31 else 0


def rows_of_trace(program: Program, text: str) -> List[List[int]]:
    """The rows of a trace, in the columns of the program whatever its header says."""
    lines, place = text.split("\n"), {k: k for k in range(program.width)}
    if lines[0].startswith("#"):
        names = [name.strip() for name in lines.pop(0)[1:].strip("\r").split(",")]
        place = {it.column: names.index(it.name) for it in program.signals if it.name in names} or place
    found = list[list[int]]()
    for line in lines:
        if line.strip():
            fields = [whole(it) for it in line.split(",")]
            found.append([fields[place[k]] if place.get(k, len(fields)) < len(fields) else 0 for k in range(program.width)])
    return found


def worked(longest: int) -> Iterator[Case]:
    """The runs over a trace with rows of the worked cases that end well, over texts and programs up to some bytes."""
    for run in cases.runs(cases.SCRIPT.read_text(encoding="utf-8")):
        files = [word for word in run.words[1:] if word in run.files]
        is_run = run.words[0] == "r2u2" and run.status == 0 and "--timed" not in run.words and len(files) == 2
        if is_run and len(run.files[files[0]]) <= longest and run.files[files[1]].strip():
            yield Case(f"worked case {run.case}", run.files[files[0]], trace=run.files[files[1]])


def examples() -> Iterator[Case]:
    for spec in sorted(ROOT.glob("examples/**/*.c2po")):
        trace = spec.with_suffix(".csv")
        if trace.is_file():
            yield Case(str(spec.relative_to(ROOT)), spec.read_bytes(), trace=trace.read_bytes())


def measured() -> Iterator[Case]:
    """The workloads of bench/, over the first rows of their traces."""
    import workloads

    for load in workloads.ALL:
        rows = [list(row) for row in load.make(Random(7), ROWS)]
        yield Case(f"workload {load.name}", load.spec.encode(), rows=rows)


WINDOWS = ((0, 0), (0, 1), (1, 1), (0, 63), (1, 63), (63, 63), (0, 64), (64, 64), (1, 65), (65, 65), (64, 130), (64, 1000), (300, 310))
LONGEST = ((0, 1 << 20), (1, 1 << 20), (1000, 1 << 20), (1 << 20, 1 << 20), (1048000, 1 << 20))
FORMS = ("F{0} p", "G{0} p", "p U{0} q", "p R{0} q", "(F[0,1] p) U{0} q", "p U{0} (G[0,2] q)", "p -> F{0} q", "(p U[0,3] q) U{0} (F[0,2] r)", "F{0} (p && G[0,2] q)", "(p U[0,2] (F[0,1] q)) U{0} r")
PAST = ("O{0} p", "H{0} p", "p S{0} q", "H[0,2] (p S{0} q)", "(!p) S{0} (O[1,3] q)")
CONTRACTS = ("p => F{0} q", "F{0} p => q", "F{0} p => G{0} q", "(p U[1,2] r) => F{0} q")


def windows(traces: int = 2) -> Iterator[Case]:
    """Each form at each edge of the windows, and the longest windows over rows that pass them."""
    dice = Random(5)
    for low, high in WINDOWS:
        text = random_programs.INPUTS
        for section, forms in (("FTSPEC", FORMS + CONTRACTS), ("PTSPEC", PAST)):
            text += "".join(f"{section} {form.format(f'[{low},{high}]')};\n" for form in forms)
        for _ in range(traces):
            yield Case(f"windows [{low},{high}]", text.encode(), rows=random_programs.rows(dice, ROWS))


def long_windows() -> Iterator[Case]:
    """Windows of 2^20, over more rows: p is true once in a while, q once in the middle."""
    rows = [[int(k % 400_000 == 399_999), int(k == 700_000), int(k % 3 == 0), 0, k, 0, 0] for k in range((1 << 20) + 5000)]
    for low, high in LONGEST:
        window = f"[{low},{high}]"
        text = random_programs.INPUTS
        text += "".join(f"FTSPEC {form.format(window)};\n" for form in ("F{0} p", "p -> F{0} q", "(G[0,2] !q) U{0} p", "p => F{0} q"))
        text += "".join(f"PTSPEC {form.format(window)};\n" for form in ("O{0} p", "(!q) S{0} p", "H{0} r"))
        yield Case(f"windows {window}", text.encode(), rows=rows)


def at_random(count: int, seed: int) -> Iterator[Case]:
    for k, _ in product(range(seed, seed + count), (0,)):
        dice = Random(k)
        spec = random_programs.Specs(dice).text()
        yield Case(f"random program {k}", spec.encode(), rows=random_programs.rows(dice, ROWS))
