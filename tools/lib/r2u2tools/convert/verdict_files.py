"""Verdict lines in the forms of other programs: a value change dump, a table by rows, objects of JSON."""

from __future__ import annotations

import csv
import json
from collections import deque
from dataclasses import dataclass, field
from fractions import Fraction
from typing import IO, Iterator, Optional

from r2u2tools.common.cli import ToolError
from r2u2tools.common.verdict_lines import Reader
from r2u2tools.common.output import Output

# Of each word the value of a wire, and the text that a viewer shows next to it.
WIRES = {"T": "1", "verified": "1", "F": "0", "invalid": "0", "inactive": "z", None: "x"}
NANOSECONDS = 10**9


@dataclass
class Pending:
    """What is known of one output and not yet written: stretches of words, by their last times."""

    stretches: deque[tuple[int, str]] = field(default_factory=deque)
    end: int = 0


def changes(file: IO[bytes], names: list[str]) -> tuple[list[str], list[tuple[int, int, Optional[str]]], int]:
    """Returns the outputs, their changes as time, place and word, in the order of time, and the first time after all."""
    found: dict[str, list[tuple[int, Optional[str]]]] = {name: [] for name in names}
    ends: dict[str, int] = {}
    for name, first, last, word in Reader().stretches(file):
        kept = found.setdefault(name, [])
        if not kept or kept[-1][1] != word:
            kept.append((first, word))
        ends[name] = last + 1
    after = max(ends.values(), default=0)
    for name, kept in found.items():
        if ends.get(name, 0) < after:
            kept.append((ends.get(name, 0), None))
    every = [(time, k, word) for k, kept in enumerate(found.values()) for time, word in kept]
    return list(found), sorted(every, key=lambda it: it[:2]), after


def code(number: int) -> str:
    """Returns the short code of a wire in a dump."""
    text = ""
    while True:
        text += chr(33 + number % 94)
        number = number // 94 - 1
        if number < 0:
            return text


def to_vcd(file: IO[bytes], out: Output, names: list[str], rate: Optional[Fraction]) -> None:
    """Writes a dump: a wire for each output, 1 where it is true or verified, z where inactive, x where undecided."""
    outputs, found, after = changes(file, names)
    step = Fraction(NANOSECONDS) / rate if rate else Fraction(1)
    out.write(f"$comment verdicts of r2u2: 1 true or verified, 0 false or invalid, z inactive, x undecided $end\n$timescale 1 {'ns' if rate else 's'} $end\n")
    out.write("$scope module r2u2 $end\n")
    for k, name in enumerate(outputs):
        out.write(f"$var wire 1 {code(k)} {name} $end\n")
    out.write("$upscope $end\n$enddefinitions $end\n")
    before = None
    for time, k, word in found:
        if time != before:
            out.write(f"#{round(time * step)}\n")
            before = time
        out.write(f"{WIRES[word]}{code(k)}\n")
    out.write(f"#{round(after * step)}\n")


def to_csv(file: IO[bytes], out: Output, names: list[str], rate: Optional[Fraction]) -> None:
    """Writes a line for each row with the word of each output, empty where undecided; a row is written once all have it."""
    table = Table(names)
    writer = csv.writer(out, lineterminator="\n")
    if names:
        writer.writerow(["time", *names])
    for row, words in table.rows(file):
        if table.fresh:
            writer.writerow(["time", *table.names])
            table.fresh = False
        time = row if rate is None else f"{float(row / rate):.9g}"
        writer.writerow([time, *words])


class Table:
    """Verdicts by rows. With the names of all outputs a row comes as soon as it is complete, else at the end."""

    def __init__(self, names: list[str]) -> None:
        self.names, self.known = list(names), bool(names)
        self.pending = {name: Pending() for name in names}
        self.next, self.fresh = 0, not names

    def rows(self, file: IO[bytes]) -> Iterator[tuple[int, list[str]]]:
        for name, _, last, word in Reader().stretches(file):
            if name not in self.pending:
                if self.known:
                    raise ToolError(f"no output {name} in the specification")
                self.names.append(name)
                self.pending[name] = Pending()
            it = self.pending[name]
            it.stretches.append((last, word))
            it.end = last + 1
            if self.known:
                yield from self.upto(min(kept.end for kept in self.pending.values()))
        yield from self.upto(max((kept.end for kept in self.pending.values()), default=0))

    def upto(self, end: int) -> Iterator[tuple[int, list[str]]]:
        for time in range(self.next, end):
            yield time, [self.word(self.pending[name], time) for name in self.names]
            self.next = time + 1

    def word(self, it: Pending, time: int) -> str:
        while it.stretches and it.stretches[0][0] < time:
            it.stretches.popleft()
        return it.stretches[0][1] if it.stretches else ""


def to_json(file: IO[bytes], out: Output, _names: list[str], rate: Optional[Fraction]) -> None:
    """Writes an object for each stretch of times with one word, as the lines come."""
    for name, first, last, word in Reader().stretches(file):
        kept: dict[str, object] = {"output": name, "from": first, "to": last, "word": word}
        if rate is not None:
            kept |= {"seconds": float(first / rate)}
        out.line(json.dumps(kept))


WRITERS = {"vcd": to_vcd, "csv": to_csv, "json": to_json}
