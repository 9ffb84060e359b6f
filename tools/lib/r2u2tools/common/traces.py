"""Traces of r2u2, as pictures and checks need them: columns as runs of equal fields.

A trace of a million rows is kept in little memory where its fields stay the
same for long, and a gap of millions of stamps takes no time.
"""

from __future__ import annotations

import csv
import re
from array import array
from bisect import bisect_left
from itertools import compress, islice, repeat
from operator import lt, ne
from pathlib import Path
from typing import Any, Iterator, Optional, Sequence, Union

from r2u2tools.common.cli import ToolError, opened
from r2u2tools.common.program_file import Signal
from r2u2tools.common.streams import Readable, blocks_of, lines_in, too_long

LONGEST = 65536
LATEST = 1 << 40
MOST_KNOWN = 1 << 16
BLANKS = " \t\r"
DIGITS = re.compile("[0-9]{1,13}")
NO_SEPARATORS = bytes(byte for byte in range(256) if byte not in b",\n")


class Runs:
    """Values over the times from `first` on: each holds up to its own last time."""

    def __init__(self, first: int = 0, whole: bool = False) -> None:
        self.first, self.lasts = first, array("Q")
        self.values: Any = array("Q") if whole else []

    def add(self, last: int, value: Any) -> None:
        """Adds the value of all times after those added before, up to `last`; an equal one goes on."""
        if self.values and self.values[-1] == value:
            self.lasts[-1] = last
        else:
            self.lasts.append(last)
            self.values.append(value)

    def extend(self, lasts: Sequence[int], values: Sequence[Any]) -> None:
        """The same for many values, each up to the time at its place, in as few calls as for one."""
        if not values:
            return
        if self.values and self.values[-1] == values[0]:
            self.values.pop()
            self.lasts.pop()
        if values[0] == values[-1] and values.count(values[0]) == len(values):
            lasts, values = lasts[-1:], values[-1:]
        ends = [*map(ne, values, islice(values, 1, None)), True]
        self.lasts.extend(compress(lasts, ends))
        self.values.extend(compress(values, ends))

    def end(self) -> int:
        """The first time that has no value."""
        return self.lasts[-1] + 1 if self.lasts else self.first

    def __len__(self) -> int:
        return len(self.lasts)

    def __iter__(self) -> Iterator[tuple[int, int, Any]]:
        """First time, last time and value of each run."""
        first = self.first
        for last, value in zip(self.lasts, self.values):
            yield first, last, value
            first = last + 1

    def between(self, first: int, last: int) -> Iterator[tuple[int, int, Any]]:
        """The runs that meet a stretch of times, cut to it."""
        begin = max(first, self.first)
        for end, value in zip(*self.within(first, last)):
            yield begin, end, value
            begin = end + 1

    def within(self, first: int, last: int) -> tuple[array[int], Any]:
        """The last times of the same runs, and their values."""
        start = bisect_left(self.lasts, first)
        stop = bisect_left(self.lasts, last, start) + 1 if last >= max(first, self.first) else start
        lasts = self.lasts[start:stop]
        if lasts:
            lasts[-1] = min(last, lasts[-1])
        return lasts, self.values[start:stop]

    def at(self, time: int) -> Any:
        """The value at a time, or None."""
        k = bisect_left(self.lasts, time)
        return self.values[k] if k < len(self.lasts) and time >= self.first else None


class Trace:
    """The columns of a trace by name, how many times it has, and its stamps where it has some."""

    def __init__(self) -> None:
        self.names: list[str] = []
        self.columns: list[Runs] = []
        self.times = 0
        self.stamps: Optional[array[int]] = None


def header_of(line: bytes) -> list[str]:
    """The names of a header, which is one record of CSV after its sign."""
    text = line[1:].decode("utf-8", "replace").rstrip("\r\n")
    return [name.strip(" \t") for name in next(csv.reader([text]), [""])]


def stamp_of(line: bytes, number: int) -> tuple[int, bytes]:
    """The time of a stamped row, and its rest."""
    stamp, _, rest = line.partition(b",")
    if not stamp[1:].isdigit() or len(stamp.lstrip(b"@0")) > len(str(LATEST)) or int(stamp[1:]) >= LATEST:
        raise ToolError(f"line {number}: bad time stamp")
    return int(stamp[1:]), rest


def times_of(stamps: list[str], before: int) -> list[int]:
    """The times of stamps, or none where they aren't stamps whose times rise from that before them."""
    digits = "".join(stamps)[1:].split("@")
    if len(digits) != len(stamps) or not all(map(DIGITS.fullmatch, digits)):
        return []
    times = [before, *map(int, digits)]
    return times[1:] if times[-1] < LATEST and all(map(lt, times, islice(times, 1, None))) else []


def width_of(block: bytes) -> int:
    """Of how many fields each line of a block is; 0 where they differ, or where one is too long."""
    commas = block.split(b"\n", 1)[0].count(b",")
    if block.translate(None, NO_SEPARATORS) + b"\n" != (b"," * commas + b"\n") * (block.count(b"\n") + 1):
        return 0
    return commas + 1 if len(block) <= LONGEST or max(map(len, block.split(b"\n"))) <= LONGEST else 0


class Filler:
    """Takes rows, and keeps the runs of those columns that are wanted. The last run of each goes on until the next row."""

    def __init__(self, places: Sequence[int]) -> None:
        self.places = places
        self.width = max(places, default=0) + 1
        self.columns = [Runs() for _ in places]
        self.time = -1
        self.stamps: Optional[array[int]] = None
        # Equal fields as one text, so that a long trace takes little memory.
        self.known: dict[str, str] = {}

    def take(self, number: int, block: bytes) -> None:
        """Takes lines, the first of which has this number: all at once where they are alike, else one by one."""
        if self.take_alike(block):
            return
        for k, line in lines_in(block, number, LONGEST):
            if line.strip(BLANKS.encode()):
                self.take_row(k, line)

    def take_alike(self, block: bytes) -> bool:
        """Takes lines with no call for each, where all have as many fields and all or none have a stamp; returns whether they do."""
        count, width, stamped = block.count(b"\n") + 1, width_of(block), block[:1] == b"@"
        if width < self.width + stamped or block.count(b"\n@") != (count - 1) * stamped:
            return False
        try:
            fields = block.decode().replace("\n", ",").split(",")
        except UnicodeDecodeError:
            return False
        times = times_of(fields[::width], self.time) if stamped else range(self.time + 1, self.time + 1 + count)
        if any(blank.encode() in block for blank in BLANKS):
            fields = list(map(str.strip, fields, repeat(BLANKS)))
        if not times or width == 1 and "" in fields:
            return False
        self.add(times, stamped, [fields[place + stamped :: width] for place in self.places])
        return True

    def take_row(self, number: int, line: bytes) -> None:
        time, rest = stamp_of(line, number) if line[:1] == b"@" else (self.time + 1, line)
        if time <= self.time:
            raise ToolError(f"line {number}: times not rising")
        fields = rest.split(b",")
        if len(fields) < self.width:
            raise ToolError(f"line {number}: too few fields")
        texts = [fields[place].decode("utf-8", "replace").strip(BLANKS) for place in self.places]
        self.add([time], line[:1] == b"@", [[text] for text in texts])

    def add(self, times: Sequence[int], stamped: bool, columns: Sequence[list[str]]) -> None:
        """Adds rows by column. A row holds up to the next one's time."""
        lasts = times
        if stamped:
            lasts = [*(time - 1 for time in times[1:]), times[-1]]
            self.stamps = array("Q") if self.stamps is None else self.stamps
            self.stamps.extend(times)
        share = self.known.setdefault if len(self.known) < MOST_KNOWN else self.known.get
        for runs, texts in zip(self.columns, columns):
            if runs.lasts:
                runs.lasts[-1] = times[0] - 1
            runs.extend(lasts, list(map(share, texts, texts)))
        self.time = times[-1]


def places_of(names: list[str], wanted: Optional[Sequence[str]]) -> list[int]:
    """The places of the wanted columns; all, where none are named."""
    if wanted is None:
        return list(range(len(names)))
    for name in wanted:
        if names.count(name) != 1:
            raise ToolError(f"line 1: name {name} {'twice' if name in names else 'missing'}")
    return [names.index(name) for name in wanted]


def filled(file: Readable, wanted: Optional[list[str]], columns: Optional[list[int]]) -> Trace:
    """The trace of a file. `wanted` are names of columns; without a header they are at `columns`."""
    trace = Trace()
    filler: Optional[Filler] = None
    for number, block in blocks_of(file, LONGEST):
        if number == 1 and block[:1] == b"#":
            line, _, block = block.partition(b"\n")
            if len(line) > LONGEST:
                raise too_long(number, LONGEST)
            names, number = header_of(line), 2
            trace.names = wanted if wanted is not None else names
            filler = Filler(places_of(names, wanted))
        if filler is None and block.strip(b"\n" + BLANKS.encode()):
            row = next(line for line in block.split(b"\n") if line.strip(BLANKS.encode()))
            width = row.count(b",") + 1 - (row[:1] == b"@")
            trace.names = wanted if wanted is not None else [f"column {k}" for k in range(width)]
            filler = Filler(columns if columns is not None else list(range(width)))
        if filler is not None:
            filler.take(number, block)
    if filler is not None:
        trace.columns, trace.times, trace.stamps = filler.columns, filler.time + 1, filler.stamps
    return trace


def read_trace(path: Union[str, Path], signals: Optional[Sequence[Signal]] = None) -> Trace:
    """The columns of a trace, all of them, or those of the signals of a specification in their order."""
    wanted = None if signals is None else [signal.name for signal in signals]
    columns = None if signals is None else [signal.column for signal in signals]
    try:
        with opened(path) as file:
            return filled(file, wanted, columns)
    except ToolError as trouble:
        text = str(trouble)
        raise ToolError(text if text.startswith("cannot") else f"{path}: {text}") from None
