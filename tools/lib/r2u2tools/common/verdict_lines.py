"""Verdict lines of r2u2, as a stream: `NAME:TIME,WORD`.

A line gives its word to all times after the line of the same output before
it, up to its own time: so both styles of r2u2 are read alike.
"""

from __future__ import annotations

import re
from itertools import islice
from operator import lt
from typing import Iterable, Iterator, NamedTuple, Optional, Sequence, TypeVar

from r2u2tools.common.streams import Readable, blocks_of, lines_in, lines_of
from r2u2tools.common.cli import ToolError

LINE = re.compile(rb"([A-Za-z0-9_]{1,64}):(\d{1,13}),(T|F|inactive|invalid|verified)\r?")
WORDS = ("T", "F", "inactive", "invalid", "verified")
BAD = ("F", "invalid")
NAMED = {word.encode(): word for word in WORDS}
# What may come after the comma of a line.
ENDS = {raw + end: word for raw, word in NAMED.items() for end in (b"", b"\r")}
NAME = re.compile(rb"[A-Za-z0-9_]{1,64}")
DIGITS = 13
NO_SEPARATORS = bytes(byte for byte in range(256) if byte not in b":,\n")
ONE_SEPARATOR = bytes.maketrans(b":\n", b",,")
LONGEST = 128

Item = TypeVar("Item")
Name = TypeVar("Name", str, bytes)


def shown(line: bytes) -> str:
    """The start of a line that isn't one, as a message can hold it."""
    text = line[:40].decode("ascii", "backslashreplace")
    text = "".join(letter if letter.isprintable() else "?" for letter in text)
    return text + ("..." if len(line) > 40 else "") if text.strip() else "an empty line"


class Part(NamedTuple):
    """The lines of one output among many: their times, their words and their places."""

    times: list[int]
    words: list[str]
    places: list[int]


def parted(names: Sequence[Name], times: Sequence[int], words: Sequence[str]) -> dict[Name, Part]:
    """Lines by output, in the order in which the outputs come."""
    places: dict[Name, list[int]] = {name: [] for name in dict.fromkeys(names)}
    for place, name in enumerate(names):
        places[name].append(place)
    return {name: Part(list(map(times.__getitem__, them)), list(map(words.__getitem__, them)), them) for name, them in places.items()}


class Reader:
    """Reads verdict lines, and keeps of each output the first time of which no line spoke yet."""

    def __init__(self, what: str = "") -> None:
        self.next: dict[bytes, int] = {}
        self.names: dict[bytes, str] = {}
        self.count = 0
        self.where = f"{what} " if what else ""

    def fault(self, number: int, line: bytes, found: Optional[re.Match[bytes]]) -> ToolError:
        """What is wrong with a line."""
        if not found:
            return ToolError(f"{self.where}line {number}: not a verdict line: {shown(line)}")
        return ToolError(f"{self.where}line {number}: time {int(found[2])} of {found[1].decode()} comes twice")

    def stretches(self, file: Readable) -> Iterator[tuple[str, int, int, str]]:
        """What each line of a file says: the output's name, the first and the last time, and the word."""
        return self.spans(lines_of(file, LONGEST))

    def spans(self, lines: Iterable[tuple[int, bytes]]) -> Iterator[tuple[str, int, int, str]]:
        """The same of lines with their numbers."""
        match, after, names = LINE.fullmatch, self.next, self.names
        for number, line in self.placed(lines):
            found = match(line)
            if not found:
                raise self.fault(number, line, found)
            raw, time, word = found.groups()
            last, first = int(time), after.get(raw, 0)
            if last < first:
                raise self.fault(number, line, found)
            if raw not in names:
                names[raw] = raw.decode()
            after[raw] = last + 1
            self.count = number
            yield names[raw], first, last, NAMED[word]

    def parts(self, file: Readable) -> Iterator[dict[str, Part]]:
        """What the lines of a file say, many at a time and by output, in the order in which the outputs come."""
        for number, block in self.placed(blocks_of(file, LONGEST)):
            found = self.parts_alike(block)
            if found is None:
                spans = list(self.spans(lines_in(block, number, LONGEST)))
                names, _, times, words = zip(*spans)
                found = parted(names, times, words)
            yield found

    def parts_alike(self, block: bytes) -> Optional[dict[str, Part]]:
        """The same of a block, with no call for a line; None where one isn't a verdict line, or a time comes twice."""
        if block.translate(None, NO_SEPARATORS) + b"\n" != b":,\n" * (block.count(b"\n") + 1):
            return None
        cells = block.translate(ONE_SEPARATOR).split(b",")
        digits = cells[1::3]
        if not (b"".join(digits).isdigit() and all(digits) and max(map(len, digits)) <= DIGITS and ENDS.keys() >= set(cells[2::3])):
            return None
        found = parted(cells[::3], list(map(int, digits)), list(map(ENDS.__getitem__, cells[2::3])))
        for name, part in found.items():
            if not NAME.fullmatch(name) or part.times[0] < self.next.get(name, 0) or not all(map(lt, part.times, islice(part.times, 1, None))):
                return None
        self.next.update((name, part.times[-1] + 1) for name, part in found.items())
        return {name.decode(): part for name, part in found.items()}

    def placed(self, items: Iterable[Item]) -> Iterator[Item]:
        try:
            yield from items
        except ToolError as trouble:
            raise ToolError(f"{self.where}{trouble}") from None
