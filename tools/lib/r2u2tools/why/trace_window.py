"""The rows of a trace that the windows of one verdict reach: the others are passed over."""

from __future__ import annotations

from dataclasses import dataclass, field
from typing import IO, Iterable, Iterator, Optional, Sequence

from r2u2tools.common.cli import ToolError, opened
from r2u2tools.common.program_file import Signal
from r2u2tools.common.streams import lines_of
from r2u2tools.common.traces import LONGEST, header_of, places_of, stamp_of

BLANK = b" \t\r"


@dataclass
class Line:
    """A row of a file: its number there, the first and the last time for which it holds, and its fields as one text."""

    number: int
    first: int
    last: int
    text: bytes


@dataclass
class TraceWindow:
    """The rows that hold from one time to another. `rows` is the first time without one, or the first after what was read;
    `begin` is the time of the first row of the file: above 0 for the rest of a longer trace."""

    path: str
    header: Optional[bytes] = None
    lines: list[Line] = field(default_factory=list)
    rows: int = 0
    begin: int = 0
    stamped: bool = False

    def reach(self, first: int) -> None:
        """Refuses to explain what depends on rows from a time on, where the file begins after it."""
        if first < self.begin:
            raise ToolError(f"{self.path}: the verdict needs the rows from {first} on, and the first is {self.begin}")

    def since(self, first: int) -> Iterator[tuple[int, bytes]]:
        """One row for each time from `first` on, with its number in the file."""
        for line in self.lines:
            for _ in range(max(first, line.first), line.last + 1):
                yield line.number, line.text + b"\n"

    def places(self, signals: Sequence[Signal]) -> dict[str, int]:
        """The place of each signal's field in a row."""
        names = [signal.name for signal in signals]
        if self.header is None:
            return {signal.name: signal.column for signal in signals}
        return dict(zip(names, places_of(header_of(self.header), names)))


class Cells:
    """The fields of a window by signal and time."""

    def __init__(self, window: TraceWindow, signals: Sequence[Signal]) -> None:
        self.rows, self.places = window.rows, window.places(signals)
        self.by_time: dict[int, list[str]] = {}
        for line in window.lines:
            fields = [it.strip(" \t\r") for it in line.text.decode("utf-8", "replace").split(",")]
            if len(fields) <= max(self.places.values(), default=-1):
                raise ToolError(f"{window.path}: line {line.number}: too few fields")
            self.by_time.update(dict.fromkeys(range(line.first, line.last + 1), fields))

    def value(self, name: str, time: int) -> str:
        return self.by_time[time][self.places[name]]


def rows_of(file: IO[bytes], window: TraceWindow, timed: bool) -> Iterator[tuple[int, int, bytes]]:
    """The number, the time and the fields of each row; the header goes into the window."""
    time = window.begin - 1
    for number, line in lines_of(file, LONGEST):
        if number == 1 and line[:1] == b"#":
            window.header = line
        elif line.strip(BLANK):
            if timed:
                at, line = stamp_of(line, number)
                if at <= time or (time < window.begin and at != window.begin):
                    raise ToolError(f"line {number}: times not rising")
                time = at
            else:
                window.stamped = window.stamped or line[:1] == b"@"
                time += 1
            window.rows = time + 1
            yield number, time, line


def kept_rows(rows: Iterable[tuple[int, int, bytes]], low: int, high: int) -> Iterator[Line]:
    """The rows that hold at a time from `low` to `high`, each once it is known how long it holds."""
    before: Optional[tuple[int, int, bytes]] = None
    for row in rows:
        if before and row[1] > low:
            yield Line(before[0], max(low, before[1]), min(high, row[1] - 1), before[2])
        before = row
        if row[1] > high:
            return
    if before and before[1] >= low:
        yield Line(before[0], before[1], before[1], before[2])


def read_window(path: str, low: int, high: int, timed: bool, begin: int = 0) -> TraceWindow:
    """The rows of a file, or of the standard input for `-`, from `low` to `high`; what follows isn't read."""
    window = TraceWindow(path, begin=begin)
    try:
        with opened(path) as file:
            window.lines = list(kept_rows(rows_of(file, window, timed), low, high))
    except ToolError as trouble:
        text = str(trouble)
        raise ToolError(text if text.startswith("cannot") else f"{path}: {text}") from None
    if window.stamped:
        raise ToolError(f"{path}: the rows have stamps: give --timed")
    window.rows = min(window.rows, high + 1)
    return window
