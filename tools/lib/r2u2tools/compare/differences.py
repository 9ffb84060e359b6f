"""Where two versions of a specification part: r2u2 watches both over the same traces."""

from __future__ import annotations

from dataclasses import dataclass, field
from pathlib import Path
from typing import Iterator, Optional, Sequence

from r2u2tools.common.cli import ToolError
from r2u2tools.common.compiled import Compiled, compiled
from r2u2tools.common.traces import Runs
from r2u2tools.common.verdict_runs import verdict_runs
from r2u2tools.why.explanation import Explainer
from r2u2tools.why.sentences import Sentences
from r2u2tools.why.trace_window import Cells


@dataclass
class Version:
    """One version of a specification, with a folder for what is made of it."""

    path: str
    made: Compiled
    folder: Path
    explainers: dict[str, Explainer] = field(default_factory=dict)

    def outputs(self) -> list[str]:
        return [output.name for output in self.made.shown.outputs]

    def why(self, name: str, time: int, trace: Trace) -> str:
        """The first line of the explanation of a verdict."""
        if name not in self.explainers:
            folder = Path(self.folder, f"why{len(self.explainers)}")
            folder.mkdir()
            self.explainers[name] = Explainer(self.made, self.made.shown.output(name), folder)
        explainer = self.explainers[name]
        window = explainer.window(trace.path, time, trace.timed)
        says = Sentences(self.made.shown, Cells(window, explainer.signals), trace.timed)
        return says.first_line(explainer.explain(window, time), name, time)


@dataclass(frozen=True)
class Trace:
    """A trace in a file, and what a report calls it."""

    path: str
    title: str
    timed: bool = False


@dataclass(frozen=True)
class Parting:
    """The first time at which an output has two words, in the first trace that has one."""

    trace: Trace
    time: int
    words: tuple[str, str]
    why: tuple[str, str]


@dataclass
class Comparison:
    """What was found: the outputs of one version alone, those that part, and how many verdicts of each were the same."""

    removed: list[str]
    added: list[str]
    both: list[str]
    parted: dict[str, Parting] = field(default_factory=dict)
    equal: dict[str, int] = field(default_factory=dict)
    traces: int = 0
    notes: list[str] = field(default_factory=list)

    def is_same(self) -> bool:
        return not (self.removed or self.added or self.parted)


def version(path: str, folder: Path) -> Version:
    folder.mkdir()
    return Version(path, compiled(path, folder), folder)


def first_difference(one: Runs, other: Runs) -> tuple[int, Optional[tuple[str, str]]]:
    """The first time at which both have a word and these differ, with both; else how many times both have one."""
    end, time = min(one.end(), other.end()), 0
    i = k = 0
    while time < end:
        if one.values[i] != other.values[k]:
            return time, (one.values[i], other.values[k])
        last = min(one.lasts[i], other.lasts[k])
        i, k, time = i + (one.lasts[i] == last), k + (other.lasts[k] == last), last + 1
    return end, None


def compare(old: Version, new: Version, traces: Iterator[Trace]) -> Comparison:
    """Watches both versions over each trace."""
    names = old.outputs(), new.outputs()
    both = [name for name in names[0] if name in names[1]]
    found = Comparison([it for it in names[0] if it not in both], [it for it in names[1] if it not in both], both)
    found.equal = dict.fromkeys(both, 0)
    for trace in traces:
        found.traces += 1
        take(found, old, new, trace)
    return found


def take(found: Comparison, old: Version, new: Version, trace: Trace) -> None:
    """Compares the outputs that haven't parted yet over one trace."""
    left = [name for name in found.both if name not in found.parted]
    if not left:
        return
    ours, theirs = (verdict_runs(it.made.path, trace.path, trace.timed) for it in (old, new))
    for name in left:
        time, words = first_difference(ours.get(name, Runs()), theirs.get(name, Runs()))
        found.equal[name] += time
        if words:
            why = old.why(name, time, trace), new.why(name, time, trace)
            found.parted[name] = Parting(trace, time, words, why)


def order_note(old: Version, new: Version, logs: Sequence[str]) -> list[str]:
    """What is said where a log without a header is read in two ways."""
    if old.made.program.columns() == new.made.program.columns():
        return []
    return [
        f"{log} has no header, and the versions declare their signals in different orders"
        for log in logs
        if not first_byte(log).startswith(b"#")
    ]


def first_byte(path: str) -> bytes:
    try:
        with open(path, "rb") as file:
            return file.read(1)
    except OSError as fault:
        raise ToolError(f"cannot open {path}: {fault.strerror}") from None
