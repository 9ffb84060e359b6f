"""Builds monitors in C in batches, runs them, and compares their lines with those of r2u2."""

from __future__ import annotations

import os
import resource
import shutil
import subprocess
import sys
import tempfile
from array import array
from concurrent.futures import ThreadPoolExecutor
from dataclasses import dataclass
from itertools import islice
from pathlib import Path
from typing import Iterable, Iterator, List, Optional, Sequence

from generated_cases import MAGIC, ROOT, Case

from r2u2tools.generate import program as programs
from r2u2tools.generate.handlers import words_of
from r2u2tools.generate.source import Options, Source

RUNNER = ROOT / "dev/lib/run_generated.c"
BATCH = 25
# The files that a run prints, and the options with which r2u2 prints the same.
ENDINGS = (("each", ()), ("runs", ("--runs",)), ("step", ()))
WARNINGS = ("-std=c99", "-pedantic", "-Wall", "-Wextra", "-Wconversion", "-Werror")
SANITIZERS = ("-g", "-fsanitize=address,undefined", "-fno-sanitize-recover=all")
# The compilers of the part `strict`.
STRICT = (
    ("gcc", "-O2", *WARNINGS),
    ("gcc", "-O1", "-m32", *WARNINGS),
    ("gcc", "-O1", *WARNINGS, *SANITIZERS),
    ("clang", "-O1", *WARNINGS),
)


@dataclass
class Result:
    """How many programs were compared, how many failed, and what was skipped."""

    text: str
    failed: int = 0
    skipped: int = 0


@dataclass
class Made:
    """A monitor's source with its rows, in the folder of its batch."""

    name: str
    case: Case
    program: programs.Program
    rows: List[List[int]]
    folder: Path
    has_step: bool


def command(name: str) -> str:
    path = os.environ.get(name.upper()) or str(ROOT / "build" / name)
    if not os.access(path, os.X_OK):
        sys.exit(f"generated: no {path}: make builds it, and {name.upper()} may name another")
    return os.path.abspath(path)


def compiled(case: Case, out: Path) -> bool:
    """Whether a case has a program, which is then written."""
    if case.raw.startswith(MAGIC):
        out.write_bytes(case.raw)
        return True
    spec = out.with_suffix(".c2po")
    spec.write_bytes(case.raw)
    return subprocess.run([command("c2po"), "-o", str(out), str(spec)], stderr=subprocess.DEVNULL).returncode == 0


def options_of(program: programs.Program, name: str) -> Options:
    """Handlers for each word of each output; none where two outputs have names that differ by case alone."""
    names = [it.name.lower() for it in program.outputs]
    if len(set(names)) < len(names) or not names:
        return Options(name)
    return Options(name, {k: words_of(it) for k, it in enumerate(program.outputs)}, True)


def handlers_of(it: Made) -> str:
    """The handlers of a monitor: each prints the line of its verdict."""
    if not it.has_step:
        return f"#define {it.name}_step {it.name}_row\n"
    made = [(output.name, number, word) for output in it.program.outputs for number, word in enumerate(words_of(output))]
    shown = {"false": "F", "true": "T"}
    return "".join(
        f'void {it.name}_on_{name}_{word}(uint64_t time) {{ fprintf(out, "{name}:%llu,{shown.get(word, word)}\\n", (unsigned long long)time); }}\n'
        for name, _, word in made
    )


def made(case: Case, name: str, folder: Path) -> Optional[Made]:
    """Writes the monitor and the rows of a case; none where c2po refuses its specification."""
    out = folder / f"{name}.obs"
    if not compiled(case, out):
        return None
    program = programs.parsed(out.read_bytes())
    rows = case.rows_of(program)
    source = Source(program, options_of(program, name))
    (folder / f"{name}.h").write_text(source.header())
    (folder / f"{name}.c").write_text(source.source())
    with open(folder / f"{name}.csv", "w") as file:
        file.writelines(",".join(map(str, row)) + "\n" for row in rows)
    with open(folder / f"{name}.rows", "wb") as file:
        array("i", [it for row in rows for it in row]).tofile(file)
    return Made(name, case, program, rows, folder, source.options.has_step)


def build(found: Sequence[Made], compiler: Sequence[str], out: Path) -> None:
    """Builds one program of some monitors."""
    folder = found[0].folder
    listed = " ".join(f"MONITOR({it.name}, {it.program.width}, {int(it.has_step)})" for it in found)
    heads = "#include <stdio.h>\nstatic FILE *out;\n" + "".join(f'#include "{it.name}.h"\n{handlers_of(it)}' for it in found)
    (folder / "main.c").write_text(f'{heads}#define MONITORS {listed}\n#include "{RUNNER}"\n')
    words = [*compiler, "-o", str(out), "-I", str(folder), str(folder / "main.c")]
    ran = subprocess.run([*words, *(str(folder / f"{it.name}.c") for it in found)], capture_output=True, text=True)
    if ran.returncode:
        raise RuntimeError(f"{' '.join(compiler)}: {ran.stderr[:3000]}")


def run(words: Sequence[str], folder: Path, most_bytes: int = 1 << 30, most_seconds: int = 600) -> subprocess.CompletedProcess[str]:
    """Runs monitors in a folder; a file that gets too long ends them, and so does a processor's time."""

    def limit() -> None:
        resource.setrlimit(resource.RLIMIT_FSIZE, (most_bytes, most_bytes))
        resource.setrlimit(resource.RLIMIT_CPU, (most_seconds, most_seconds))

    return subprocess.run(words, cwd=folder, capture_output=True, text=True, preexec_fn=limit)


def wanted(it: Made, *flags: str) -> bytes:
    path = str(it.folder / it.name)
    return subprocess.run([command("r2u2"), *flags, f"{path}.obs", f"{path}.csv"], stdout=subprocess.PIPE, check=True).stdout


def differs(it: Made, ending: str, lines: bytes) -> Optional[str]:
    """How the lines of a monitor differ from those of r2u2."""
    if ending == "step" and not it.has_step:
        return None
    path = it.folder / f"{it.name}.{ending}"
    got = path.read_bytes() if path.is_file() else b""
    if got == lines:
        return None
    both = zip(got.split(b"\n"), lines.split(b"\n"))
    place = next((k for k, (one, other) in enumerate(both) if one != other), min(got.count(b"\n"), lines.count(b"\n")))
    at = lambda text: text.split(b"\n")[place : place + 1]
    return f"{it.case.title}, {ending}: line {place + 1} is {at(got)}, not {at(lines)}"


def faults_of_batch(batch: Sequence[Case], compiler: Sequence[str]) -> Iterator[str]:
    """The programs of a batch whose lines differ; `yield`s a line for each."""
    with tempfile.TemporaryDirectory(prefix="generated-") as name:
        folder = Path(name)
        found = [it for k, case in enumerate(batch) if (it := made(case, f"m{k}", folder)) and it.program.width]
        if not found:
            return
        build(found, compiler, folder / "run")
        ran = run([str(folder / "run")], folder)
        if ran.returncode:
            yield f"{batch[0].title} and others: status {ran.returncode} {ran.stderr[:2000]}"
        for it in found:
            lines = {flags: wanted(it, *flags) for _, flags in ENDINGS}
            yield from filter(None, (differs(it, ending, lines[flags]) for ending, flags in ENDINGS))
        counted.append(len(found))


def strict(cases: Sequence[Case], jobs: int) -> Result:
    """Compares with each strict compiler that can build a program here."""
    found = [compared("strict", cases, jobs, it) if builds(it) else Result(f"skipped: no {' '.join(it[:3])}", skipped=1) for it in STRICT]
    return Result("; ".join(f"{' '.join(words[:3])}: {it.text}" for words, it in zip(STRICT, found)), sum(it.failed for it in found), sum(it.skipped for it in found))


def builds(compiler: Sequence[str]) -> bool:
    """Whether a compiler is there, with the libraries that its options need."""
    words = [*compiler, "-x", "c", "-o", os.devnull, "-"]
    text = "#include <stdio.h>\nint main(void) { return puts(\"\") < 0; }\n"
    return bool(shutil.which(compiler[0])) and subprocess.run(words, input=text, capture_output=True, text=True).returncode == 0


counted: List[int] = []


def batches(found: Iterable[Case]) -> Iterator[List[Case]]:
    rest = iter(found)
    while batch := list(islice(rest, BATCH)):
        yield batch


def compared(name: str, found: Iterable[Case], jobs: int, compiler: Sequence[str] = ("cc", "-O0", "-std=c99")) -> Result:
    """Compares monitors with r2u2."""
    if not shutil.which(compiler[0]):
        return Result(f"skipped: no {compiler[0]}", skipped=1)
    counted.clear()
    failed = 0
    with ThreadPoolExecutor(jobs) as pool:
        for faults in pool.map(lambda batch: list(faults_of_batch(batch, compiler)), batches(found)):
            for fault in faults:
                print(f"generated: {fault}", flush=True)
                failed += 1
    return Result(f"{sum(counted)} programs, {failed} differ", failed)
