"""Runs of the programs and of the other tools for a page: each within bounds of time, of memory and of what it prints."""

import json
import re
import subprocess
import tempfile
import threading
from dataclasses import dataclass
from pathlib import Path
from typing import Any, Dict, List, Optional

from r2u2tools.common.cli import ToolError
from r2u2tools.common import programs
from r2u2tools.common.programs import program
from r2u2tools.common.specs import MAGIC, Spec, read_spec
from r2u2tools.common.traces import Runs, Trace, read_trace
from r2u2tools.common.verdict_lines import LONGEST, WORDS

# The seconds of the processor and of the clock, and the memory, of one run.
SECONDS, CLOCK, KILOBYTES = 10, 30, 2_000_000
MOST_OUTPUT = 8 << 20
# How many runs go side by side.
PLACES = threading.BoundedSemaphore(4)
LIMITED = 'ulimit -t "$1" && ulimit -v "$2" && shift 2 && exec "$@"'


@dataclass
class Ran:
    """A run that has ended: its exit code, what it printed up to the bound, and the last line of its errors."""

    status: int
    out: bytes
    error: str


def bounded(words: List[str], give: bytes = b"") -> Ran:
    """Runs a program with these bounds; one past them is ended, and said so."""
    limited = ["sh", "-c", LIMITED, "sh", str(SECONDS), str(KILOBYTES), *words]
    with PLACES, tempfile.TemporaryFile() as out, tempfile.TemporaryFile() as errors, tempfile.TemporaryFile() as given:
        given.write(give)
        given.seek(0)
        with subprocess.Popen(limited, stdin=given, stdout=out, stderr=errors) as child:
            try:
                status = child.wait(CLOCK)
            except subprocess.TimeoutExpired:
                child.kill()
                child.wait()
                raise ToolError(f"it took more than {CLOCK} seconds") from None
        out.seek(0)
        errors.seek(0)
        lines = errors.read(1 << 16).decode("utf-8", "replace").strip().splitlines()
        return Ran(status, out.read(MOST_OUTPUT), lines[-1] if lines else "")


def tool(name: str, *words: str) -> Ran:
    return bounded([*programs.tool(name), *words])


class Files:
    """The specification and the trace of one request, as files of a separate folder."""

    def __init__(self, folder: str, given: Dict[str, Any]):
        self.spec, self.trace = Path(folder, "spec.c2po"), Path(folder, "trace.csv")
        text = str(given.get("spec", ""))
        if text.startswith(MAGIC.decode()):
            raise ToolError("a compiled program, not a specification")
        self.spec.write_text(text, encoding="utf-8", errors="replace")
        self.trace.write_text(str(given.get("trace", "")), encoding="utf-8", errors="replace")
        self.timed = ["--timed"] if given.get("timed") else []


def checked(files: Files) -> Dict[str, Any]:
    """The faults of the specification, as r2u2-check prints them."""
    ran = tool("check", "--json", str(files.spec))
    if not ran.out:
        raise ToolError(ran.error.removeprefix("r2u2-check: ") or "c2po gave no answer")
    found = json.loads(ran.out)["files"][0]
    return {"accepted": found["status"] == 0, "c2po": found["c2po"], "faults": found["faults"]}


def verdicts(files: Files) -> Dict[str, Any]:
    """The verdicts of all outputs, as runs of equal words; what r2u2 says of a trace that it refuses comes along."""
    spec = read_spec(files.spec)
    ran = bounded([program("r2u2"), "--source", "--runs", *files.timed, str(files.spec), str(files.trace)])
    lanes: Dict[str, List[Any]] = {output.name: [] for output in spec.outputs}
    for line in ran.out.split(b"\n")[:-1]:
        name, _, rest = line[:LONGEST].decode("ascii").rpartition(":")
        time, _, word = rest.partition(",")
        joined(lanes.setdefault(name, []), int(time), WORDS.index(word))
    hints = trace_hints(files) if ran.status else []
    trace = taken_rows(files, spec, ran.error)
    columns = trace.columns or [Runs() for _ in spec.signals]
    return {
        "words": WORDS,
        "lanes": [{"name": name, "runs": runs} for name, runs in lanes.items()],
        "signals": [{"name": it.name, "kind": it.kind, "runs": list(zip(runs.lasts, runs.values))} for it, runs in zip(spec.signals, columns)],
        "times": trace.times,
        "constants": constants(spec),
        "message": ran.error.removeprefix("r2u2: ") if ran.status else "",
        "hints": hints,
        "cut": len(ran.out) >= MOST_OUTPUT,
    }


def trace_hints(files: Files) -> List[str]:
    """What r2u2-check says of a trace that r2u2 refuses."""
    ran = tool("check", "--json", *files.timed, str(files.spec), str(files.trace))
    found = json.loads(ran.out)["files"][1:] if ran.out else []
    faults = [it for one in found for it in one["faults"]][:5]
    return [f"line {it['line']}, column {it['column']}: {it['message']}" + (f"; {it['note']}" if it["note"] else "") for it in faults]


def taken_rows(files: Files, spec: Spec, message: str) -> Trace:
    """The rows that r2u2 took: all, or the ones before the line that it refuses."""
    refused = re.match(r"r2u2: trace line (\d+):", message)
    if refused:
        lines = files.trace.read_bytes().splitlines(True)
        files.trace.write_bytes(b"".join(lines[: int(refused[1]) - 1]))
    try:
        return read_trace(files.trace, spec.signals)
    except ToolError:
        return Trace()


def joined(runs: List[Any], last: int, word: int) -> None:
    """Takes one more line: its last time and its word; an equal word goes on."""
    if runs and runs[-1][1] == word:
        runs[-1][0] = last
    else:
        runs.append([last, word])


def constants(spec: Any) -> List[int]:
    """The numbers of a specification: values near them are what a trace at random should hold."""
    found = {int(token.text) for item in spec.items for token in item.body if token.text.isdigit() and len(token.text) < 11}
    return sorted(it for it in found if it < 1 << 31)[:64]


def answered(given: Dict[str, Any]) -> Dict[str, Any]:
    """What a page shows: faults, and of a specification that c2po takes the verdicts over the trace."""
    with tempfile.TemporaryDirectory(prefix="play-") as folder:
        files = Files(folder, given)
        found = checked(files)
        return found | (verdicts(files) if found["accepted"] else {})


def costs(given: Dict[str, Any]) -> Dict[str, Any]:
    """What r2u2-budget says of a specification."""
    with tempfile.TemporaryDirectory(prefix="play-") as folder:
        ran = tool("budget", "--json", "--top", "0", str(Files(folder, given).spec))
        if ran.status or not ran.out:
            raise ToolError(ran.error.partition(": ")[2] or "r2u2-budget gave no answer")
        found: Dict[str, Any] = json.loads(ran.out)
        return {"whole": found["whole"], "outputs": found["outputs"]}


def reason(given: Dict[str, Any]) -> Dict[str, Any]:
    """What r2u2-why says of a verdict."""
    with tempfile.TemporaryDirectory(prefix="play-") as folder:
        files = Files(folder, given)
        asked = f"{given.get('name')}:{given.get('time')}"
        ran = tool("why", *files.timed, "--", str(files.spec), str(files.trace), asked)
        if ran.status:
            raise ToolError(ran.error.removeprefix("r2u2-why: ").replace(folder, ""))
        return {"text": ran.out.decode("utf-8", "replace")}


def laid_out(given: Dict[str, Any]) -> Dict[str, Any]:
    """The specification with its blanks set in one way."""
    with tempfile.TemporaryDirectory(prefix="play-") as folder:
        return {"spec": tool("check", "--format", str(Files(folder, given).spec)).out.decode("utf-8", "replace")}


def file_of(path: Optional[str]) -> str:
    """A file to begin with, as text."""
    if path is None:
        return ""
    try:
        return Path(path).read_text(encoding="utf-8", errors="replace")
    except OSError as fault:
        raise ToolError(f"cannot open {path}: {fault.strerror}") from None
