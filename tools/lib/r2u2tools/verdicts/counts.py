"""Counts of verdict lines: of each output how often it has each word, and its events, the stretches of F or invalid."""

from __future__ import annotations

import os
from dataclasses import dataclass, field
from typing import IO, Any, Iterable, Optional

from r2u2tools.common.cli import Stopped, ToolError, opened
from r2u2tools.common.progress import Progress
from r2u2tools.common.r2u2_run import RunResult
from r2u2tools.common.streams import lines_of
from r2u2tools.common.traces import LONGEST
from r2u2tools.common.verdict_lines import BAD, Reader

NO_VERDICT = "no verdict"
UNTRIED = "never tried: its left side was never true"


@dataclass
class Event:
    """A stretch of times of one log at which an output is F or invalid."""

    first: int
    last: int
    log: Optional[str] = None

    def times(self) -> int:
        return self.last - self.first + 1

    def __str__(self) -> str:
        return f"{self.first}" if self.first == self.last else f"{self.first} to {self.last}"


@dataclass
class Output:
    """What the lines of one log, or of many, said of one output."""

    name: str
    logs: int = 1
    words: dict[str, int] = field(default_factory=dict)
    decided: int = 0
    undecided: int = 0
    bad_logs: int = 0
    first: Optional[dict[str, Any]] = None
    stretches: int = 0
    longest: Optional[Event] = None
    last: Optional[Event] = None
    left: Optional[dict[str, int]] = None
    requirement: str = ""
    line: int = 0

    def take(self, first: int, last: int, word: str, log: Optional[str] = None) -> None:
        """Adds a stretch of times with one word; times rise from call to call."""
        self.words[word] = self.words.get(word, 0) + last - first + 1
        self.decided += last - first + 1
        if word not in BAD:
            return
        event = self.last
        if event is not None and event.last == first - 1:
            event.last = last
        else:
            event = self.last = Event(first, last, log)
            self.stretches += 1
        if self.first is None:
            self.bad_logs, self.first = 1, {"time": first, "word": word, "log": log}
        if self.longest is None or event.times() > self.longest.times():
            self.longest = event

    def never_tried(self) -> bool:
        """Returns whether the left side was counted and never true."""
        return self.left is not None and self.left["true"] == 0

    def add(self, other: Output) -> None:
        """Adds what a later log said of the same output."""
        self.logs += other.logs
        for word, count in other.words.items():
            self.words[word] = self.words.get(word, 0) + count
        self.decided += other.decided
        self.undecided += other.undecided
        self.bad_logs += other.bad_logs
        self.stretches += other.stretches
        self.first, self.last = self.first or other.first, other.last or self.last
        self.requirement, self.line = self.requirement or other.requirement, self.line or other.line
        if other.longest and (self.longest is None or other.longest.times() > self.longest.times()):
            self.longest = other.longest
        if other.left is not None:
            mine = self.left or {"true": 0, "of": 0}
            self.left = {key: mine[key] + other.left[key] for key in ("true", "of")}


@dataclass(frozen=True)
class Rules:
    """What makes a build fail besides F, invalid and no verdict, and which outputs never do."""

    ignored: tuple[str, ...] = ()
    untried: bool = False
    undecided: bool = False

    def fault(self, output: Output) -> str:
        """Returns why an output fails the build, or an empty text."""
        if output.name in self.ignored:
            return ""
        return self.finding(output)

    def finding(self, output: Output) -> str:
        """Returns the same as if no output were ignored."""
        if output.first:
            log = output.first.get("log")
            return f"{log + ': ' if log else ''}{output.first['word']} at {output.first['time']}"
        if not output.words:
            return NO_VERDICT
        if self.untried and output.never_tried():
            return UNTRIED
        if self.undecided and output.undecided:
            return f"undecided at {output.undecided} time{'s' * (output.undecided != 1)}"
        return ""


@dataclass
class Result(RunResult):
    """What one log or many gave: outputs by name in their order, runs that failed, logs without a verdict."""

    names: Iterable[str] = ()
    logs: int = 1
    spec: Optional[str] = None
    rows: Optional[int] = None
    lines: int = 0
    seconds: float = 0.0
    empty: list[str] = field(default_factory=list)
    suites: list[Result] = field(default_factory=list)
    outputs: dict[str, Output] = field(default_factory=dict)

    def __post_init__(self) -> None:
        self.outputs.update((name, Output(name)) for name in self.names)

    def output(self, name: str) -> Output:
        found = self.outputs.get(name)
        if found is None:
            found = self.outputs[name] = Output(name)
        return found

    def close(self) -> None:
        """Counts the times that are undecided at the end of a log, of its trace or of the output decided furthest."""
        furthest = max((output.decided for output in self.outputs.values()), default=0)
        rows = max(furthest, self.rows or 0)
        for output in self.outputs.values():
            output.undecided = rows - output.decided
        if self.logs == 1 and not self.lines and not self.failed:
            self.empty = [self.log or ""]

    def faults(self, rules: Rules) -> dict[str, str]:
        """Returns why outputs fail the build, by name."""
        found = ((name, rules.fault(output)) for name, output in self.outputs.items())
        return {name: why for name, why in found if why}

    def status(self, rules: Rules) -> int:
        """Returns the exit code: that of a signal, 2 for a run that failed, 1 for a fault or no verdict, else 0."""
        if self.stopped:
            return 128 + self.stopped
        if self.failed:
            return 2
        nothing = not self.outputs or self.empty
        return 1 if nothing or self.faults(rules) else 0


def counted(file: IO[bytes], result: Result) -> Result:
    """Reads lines to their end into a result, in constant memory; an interrupt ends the reading, and is kept."""
    reader, progress = Reader(result.log or ""), Progress()
    outputs = result.outputs
    try:
        for name, first, last, word in reader.stretches(file):
            output = outputs.get(name) or result.output(name)
            output.take(first, last, word, result.log)
            if not reader.count & 0x3FFF:
                progress.tell(f"{reader.count:,} lines, {name} to {last:,}")
    except (KeyboardInterrupt, Stopped) as signal:
        result.stopped = getattr(signal, "number", 2)
    finally:
        progress.done()
        result.lines = reader.count
    return result


def rows_of(path: str, timed: bool) -> Optional[int]:
    """Returns how many rows a trace in a file has, with stamps how many times; None where that can't be read."""
    if not os.path.isfile(path):
        return None
    count, last = 0, b""
    try:
        with opened(path) as file:
            for number, line in lines_of(file, LONGEST):
                if line.strip(b" \t\r") and not (number == 1 and line[:1] == b"#"):
                    count, last = count + 1, line
    except (ToolError, OSError):
        return None
    if not timed:
        return count
    stamp = last.partition(b",")[0][1:]
    return int(stamp) + 1 if stamp.isdigit() and len(stamp) < 14 else None
