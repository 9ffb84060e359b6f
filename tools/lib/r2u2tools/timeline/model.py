"""What a timeline shows: columns of a trace, and outputs with their verdicts and with the rows that decided them."""

from __future__ import annotations

import re
from bisect import bisect_left
from dataclasses import dataclass, field
from itertools import chain, repeat, starmap
from operator import sub
from typing import Any, Optional, Sequence

from r2u2tools.common.cli import ToolError, opened
from r2u2tools.common.progress import Progress
from r2u2tools.common.traces import Runs, filled
from r2u2tools.common.verdict_lines import Part, Reader

COMMENT = re.compile(r"--[^\n]*")


class Watched:
    """A file that shows on a terminal how far it was read."""

    def __init__(self, file: Any, what: str) -> None:
        self.file, self.what, self.bytes, self.progress = file, what, 0, Progress()

    def read1(self, size: int) -> bytes:
        block: bytes = getattr(self.file, "read1", self.file.read)(size)
        self.bytes += len(block)
        if block:
            self.progress.tell(f"{self.what}: {self.bytes / 1e6:,.1f} MB")
        else:
            self.progress.done()
        return block

    read = read1


@dataclass
class Lane:
    """One output: the word of each time, and of each time the row with which the word was printed."""

    name: str
    words: Any = field(default_factory=Runs)
    printed: Any = field(default_factory=lambda: Runs(whole=True))
    text: str = ""

    def delay(self, first: int, last: int) -> Optional[tuple[int, int]]:
        """Returns the least and the greatest number of rows from a time in a stretch to the row that decided it."""
        found = [(row - end, row - begin) for begin, end, row in self.printed.between(first, last)]
        return (min(low for low, _ in found), max(high for _, high in found)) if found else None


class Column:
    """One column of the trace, of Booleans, integers or texts, as runs of fields."""

    def __init__(self, name: str, runs: Any, kind: Optional[str]) -> None:
        self.name, self.runs = name, runs
        self.kind = kind or ("bool" if set(runs.values) <= {"0", "1"} else "int")


@dataclass
class Model:
    """All that a picture or a page has, and the times that it shows."""

    columns: list[Column] = field(default_factory=list)
    lanes: dict[str, Lane] = field(default_factory=dict)
    stamps: Any = None
    first: int = 0
    last: int = -1
    title: str = ""
    # Units of columns by name, rows of a second, and the command that explains a verdict, where they are known.
    units: dict[str, str] = field(default_factory=dict)
    rate: Optional[float] = None
    why: Optional[str] = None
    # Columns and outputs that aren't shown, since nothing changes in them.
    constant: list[str] = field(default_factory=list)

    def take_spec(self, spec: Any) -> None:
        """Adds the outputs of a specification in their order, with the texts of their requirements."""
        for output in spec.outputs:
            lane = self.lane(output.name)
            if output.body and not spec.is_program():
                text = spec.text[output.body[0].start : output.body[-1].end]
                lane.text = " ".join(COMMENT.sub(" ", text).split())

    def lane(self, name: str) -> Lane:
        if name not in self.lanes:
            self.lanes[name] = Lane(name)
        return self.lanes[name]

    def times(self) -> int:
        return self.last - self.first + 1

    def axis(self) -> str:
        """Returns what the axis counts."""
        return "row" if self.stamps is None else "time"


def kind_of(signals: Optional[list[Any]], name: str, k: int) -> tuple[str, Optional[str]]:
    """Returns the name and the kind of a column, as a specification gives them."""
    for signal in signals or []:
        if signal.name == name or name == f"column {k}" and signal.column == k:
            return signal.name, signal.kind
    return name, None


def watched_trace(path: str, signals: Optional[list[Any]]) -> Any:
    """Returns the columns of a trace, all of them, or those of signals in their order."""
    wanted = None if signals is None else [signal.name for signal in signals]
    columns = None if signals is None else [signal.column for signal in signals]
    try:
        with opened(path) as file:
            return filled(Watched(file, "reading the trace"), wanted, columns)
    except ToolError as trouble:
        text = str(trouble)
        raise ToolError(text if text.startswith("cannot") else f"{path}: {text}") from None


def take_trace(model: Model, path: str, signals: Optional[list[Any]], every: bool) -> None:
    """Adds the columns: those of the signals of a specification, or with `every` all that the trace has."""
    trace = watched_trace(path, None if every else signals)
    for k, (name, runs) in enumerate(zip(trace.names, trace.columns)):
        known, kind = kind_of(signals, name, k)
        model.columns.append(Column(known, runs, kind))
    model.stamps = trace.stamps
    model.last = max(model.last, trace.times - 1)


def take_lines(model: Model, file: Any, what: str = "", ticks: Optional[str] = None) -> None:
    """Adds the word of each line. Where an output `ticks` has a line with each row, it shows which row decided the others."""
    waiting: list[tuple[Lane, Sequence[int]]] = []
    for parts in Reader(what).parts(Watched(file, "reading verdicts")):
        rows = parts.pop(ticks, None) if ticks else None
        for name, part in parts.items():
            model.lane(name).words.extend(part.times, part.words)
            model.last = max(model.last, part.times[-1])
        if rows:
            decided(model, parts, rows, waiting)
        elif ticks:
            waiting += [(model.lane(name), part.times) for name, part in parts.items()]


def decided(model: Model, parts: dict[str, Part], ticks: Part, waiting: list[tuple[Lane, Sequence[int]]]) -> None:
    """Gives lanes the rows that decided their words, each that of the next tick. What has no tick yet waits."""
    rows = ticks.times if model.stamps is None else [decided_by(model.stamps, time) for time in ticks.times]
    for lane, times in waiting:
        lane.printed.extend(times, [rows[0]] * len(times))
    waiting.clear()
    gaps = map(sub, ticks.places, chain([-1], ticks.places))
    row_of = list(chain.from_iterable(starmap(repeat, zip(rows, gaps))))
    for name, part in parts.items():
        lane, count = model.lane(name), bisect_left(part.places, len(row_of))
        lane.printed.extend(part.times[:count], list(map(row_of.__getitem__, part.places[:count])))
        if count < len(part.times):
            waiting.append((lane, part.times[count:]))


def decided_by(stamps: Any, row: int) -> int:
    """Returns the time of the line of the trace that brings a row: in a gap between stamps it is the next stamp."""
    k = bisect_left(stamps, row)
    return int(stamps[k]) if k < len(stamps) else row


def cut_to(model: Model, first: Optional[int], last: Optional[int]) -> None:
    """Shows a stretch of times alone."""
    model.first = max(model.first, first or 0)
    if last is not None:
        model.last = min(model.last, last)


def is_constant(runs: Any, first: int, last: int) -> bool:
    """Returns whether one value holds at all times of a stretch, or none at any."""
    values = set(runs.within(first, last)[1])
    return not values or len(values) == 1 and runs.end() > last


def keep_changing(model: Model) -> None:
    """Leaves out columns and outputs that keep one value over the times shown, and keeps their names."""
    still = [it for it in model.columns if is_constant(it.runs, model.first, model.last)]
    quiet = [name for name, it in model.lanes.items() if is_constant(it.words, model.first, model.last)]
    model.columns = [it for it in model.columns if it not in still]
    model.lanes = {name: it for name, it in model.lanes.items() if name not in quiet}
    model.constant = [it.name for it in still] + quiet
