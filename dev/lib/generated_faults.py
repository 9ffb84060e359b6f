"""Wrong generators: each has one fault, and some of the lines that its monitors print have to differ from those of r2u2."""

from __future__ import annotations

import shutil
import subprocess
import sys
import tempfile
from dataclasses import dataclass
from pathlib import Path
from typing import Dict, Sequence

import generated_runs
from generated_cases import ROOT, Case
from generated_runs import Made, Result

# What the lines of wrong generators are compared with: calls of handlers aside.
ENDINGS = generated_runs.ENDINGS[:2]

GENERATOR = Path("r2u2tools/generate")
FEW = 4
# The most bytes of a file and the most seconds of a run: a wrong monitor may run without end.
LIMITS = (1 << 24, 10)


@dataclass(frozen=True)
class Fault:
    """A text of a file of the generator, and what takes its place."""

    title: str
    file: str
    right: str
    wrong: str


FAULTS = (
    Fault("a once looks back one row less", "past.py", "(1 << it.high + 1) - (1 << it.low)", "(1 << it.high) - (1 << it.low)"),
    Fault("a since holds one row less", "past.py", "{it.high - it.low + 1};", "{it.high - it.low};"),
    Fault("a since goes on where its left operand is false", "past.py", 'drops = [] if left == "true"', 'drops = [] if True'),
    Fault("a box ends one row early", "parts.c", "kept[tail].last = now + high;", "kept[tail].last = now + high - 1;"),
    Fault("an until decides one row late", "future.py", "{f}_lag == {node.high}", "{f}_lag == {node.high + 1}"),
    Fault("an until forgets its lower bound", "future.py", 'ready = f"{f}_lag >= {node.low}" if node.low else ""', 'ready = ""'),
    Fault("an until of words ends one row early", "parts.c", "if (place + high < left) {", "if (place + high <= left) {"),
    Fault("a ring writes its second word one bit off", "parts.c", "| top << (64 - shift);", "| top << (63 - shift);"),
    Fault("a ring is half as long", "nodes.py", "while 64 * words < size:", "while 128 * words < size:"),
    Fault("a window isn't reset", "source.py", 'lines.append(f"    it->{member} = 0;")', "pass"),
    Fault("a minus is lost", "arithmetic.py", 'return f"-{cast}', 'return f"{cast}'),
    Fault("a contract reads its assumption as its guarantee", "reports.py", "self.shifted(other, width, lag), self.shifted(one", "self.shifted(one, width, lag), self.shifted(one"),
    Fault("a run has the time of its last row but one", "source.py", "(open->lag + open->left) - 1;", "(open->lag + open->left) - 2;"),
)

# Writes the monitors of some programs by the generator of a folder.
WRITE = """
import sys
from pathlib import Path
from r2u2tools.generate.program import parsed
from r2u2tools.generate.source import Source
from generated_runs import options_of
for path in map(Path, sys.argv[1:]):
    program = parsed(path.with_suffix(".obs").read_bytes())
    source = Source(program, options_of(program, path.name))
    path.with_suffix(".h").write_text(source.header())
    path.with_suffix(".c").write_text(source.source())
"""


def wrong_generator(fault: Fault, folder: Path) -> Path:
    """A copy of the generator with a fault."""
    shutil.copytree(ROOT / "tools/lib", folder, ignore=shutil.ignore_patterns("__pycache__"))
    file = folder / GENERATOR / fault.file
    text = file.read_text(encoding="utf-8")
    if fault.right not in text:
        raise SystemExit(f"generated: {fault.title}: no text {fault.right!r} in {fault.file}")
    file.write_text(text.replace(fault.right, fault.wrong), encoding="utf-8")
    return folder


def is_found(fault: Fault, monitors: Sequence[Made], lines: Dict[str, bytes]) -> bool:
    """Whether the lines of some programs show a fault: they are built and run a few at a time."""
    with tempfile.TemporaryDirectory(prefix="wrong-") as place:
        library = wrong_generator(fault, Path(place) / "lib")
        words = [sys.executable, "-B", "-c", WRITE, *(str(it.folder / it.name) for it in monitors)]
        subprocess.run(words, env={"PYTHONPATH": f"{library}:{ROOT / 'dev/lib'}"}, check=True)
    return any(shows(monitors[k : k + FEW], lines) for k in range(0, len(monitors), FEW))


def shows(monitors: Sequence[Made], lines: Dict[str, bytes]) -> bool:
    """Whether a run of some monitors fails, or prints other lines."""
    folder = monitors[0].folder
    generated_runs.build(monitors, ("cc", "-O0", "-std=c99"), folder / "run")
    if generated_runs.run([str(folder / "run")], folder, *LIMITS).returncode:
        return True
    return any(generated_runs.differs(it, ending, lines[f"{it.name}.{ending}"]) for it in monitors for ending, _ in ENDINGS)


def faults(cases: Sequence[Case]) -> Result:
    """Tries each wrong generator over some cases."""
    missed = []
    with tempfile.TemporaryDirectory(prefix="generated-") as name:
        monitors = [it for k, case in enumerate(cases) if (it := generated_runs.made(case, f"m{k}", Path(name))) and it.program.width]
        lines = {f"{it.name}.{ending}": generated_runs.wanted(it, *flags) for it in monitors for ending, flags in ENDINGS}
        for fault in FAULTS:
            if not is_found(fault, monitors, lines):
                missed.append(fault.title)
                print(f"generated: not found: {fault.title}", flush=True)
    return Result(f"{len(FAULTS)} wrong generators, {len(missed)} not found", len(missed))
