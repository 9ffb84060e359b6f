"""Where telemetry comes from: one file of any form, a list of names and values, or several files merged by time."""

from __future__ import annotations

import heapq
from contextlib import ExitStack
from fractions import Fraction
from typing import Any, BinaryIO, Iterator, Optional

from r2u2tools.common.cli import ToolError, opened
from r2u2tools.telemetry.fields import counted, pairs
from r2u2tools.telemetry.json_lines import JsonLines
from r2u2tools.telemetry.records import Records, Refused, shown
from r2u2tools.telemetry.times import Clock
from r2u2tools.telemetry.vcd import Dump

ENDINGS = {".vcd": "vcd", ".jsonl": "json", ".ndjson": "json", ".json": "json"}
FORMATS = ("csv", "json", "vcd")


def format_of(path: str, asked: Optional[str]) -> str:
    """Returns the form of a file: what is asked for, else by the end of its name."""
    ending = path[path.rfind(".") :].lower() if "." in path else ""
    return asked if asked else ENDINGS.get(ending, "csv")


def wanted_names(found: Any, signals: Optional[list[Any]]) -> list[str]:
    """Returns the names that the files have for the columns of the trace, where those are known, and for the time."""
    before = {new: old for old, new in pairs("--rename", found.rename)}
    names = [it.name for it in signals] if signals is not None else [it.strip() for it in (found.columns or "").split(",")]
    return [before.get(name, name) for name in [*names, found.time or ""] if name]


class Long:
    """A list of times, names and values: each line changes one column."""

    sparse = True

    def __init__(self, source: Any, found: Any, wanted: list[str]) -> None:
        self.source, self.line = source, source.line
        name, value = (part.strip() for part in found.long.split(","))
        self.places = [self.place(it) for it in (name, value, wanted[-1])]
        self.names = list(dict.fromkeys(wanted))
        self.by_name = {it: k for k, it in enumerate(self.names)}

    def place(self, name: str) -> int:
        names = self.source.names
        if names.count(name) != 1:
            what = "two columns" if name in names else "no column"
            raise Refused(f"line {self.line}: {what} {name} (it has {', '.join(names[:20])})")
        return int(names.index(name))

    def __iter__(self) -> Iterator[tuple[Any, list[Optional[str]]]]:
        name, value, time = self.places
        for number, fields in self.source:
            if len(fields) != len(self.source.names):
                raise Refused(f"line {number}: {len(fields)} fields, where {len(self.source.names)} columns have names")
            place = self.by_name.get(fields[name].strip())
            if place is not None and place != len(self.names) - 1:
                row: list[Optional[str]] = [None] * len(self.names)
                row[place], row[-1] = fields[value], fields[time]
                yield number, row


class Ordered:
    """The lines of one file in the order of their times with `--sort`, without repeated ones with `--dedupe`."""

    def __init__(self, source: Any, found: Any, clock: Clock) -> None:
        self.source, self.clock, self.line = source, clock, source.line
        self.names, self.sparse = source.names, source.sparse
        self.sorts, self.unites, self.repeated = found.sort, found.dedupe, 0
        before = {new: old for old, new in pairs("--rename", found.rename)}
        self.time = before.get(found.time, found.time)

    def lines(self) -> Iterator[tuple[Any, list[Optional[str]]]]:
        if not self.sorts or self.time not in self.names:
            yield from self.source
            return
        at = self.names.index(self.time)
        kept = []
        for number, fields in self.source:
            if len(fields) != len(self.names):
                raise Refused(f"line {number}: {len(fields)} fields, where {len(self.names)} columns have names")
            time = self.clock.read((fields[at] or "").strip())
            if time is None:
                raise Refused(f"line {number}: {shown(fields[at] or '')} is no time in seconds")
            kept.append((Fraction(*time), number, fields))
        for _, number, fields in sorted(kept, key=lambda it: it[0]):
            yield number, fields

    def __iter__(self) -> Iterator[tuple[Any, list[Optional[str]]]]:
        before: Optional[list[Optional[str]]] = None
        for number, fields in self.lines():
            if self.unites and fields == before:
                self.repeated += 1
                continue
            before = fields
            yield number, fields


class Merged:
    """Several files, line by line in the order of their times; of equal times the earlier file comes first."""

    sparse = True

    def __init__(self, sources: list[tuple[str, Any]], found: Any, clock: Clock) -> None:
        self.sources, self.clock, self.line = sources, clock, 1
        renamed = dict(pairs("--rename", found.rename))
        self.names, self.shifts, self.times = [found.time], [], []
        self.has_unknown = any(getattr(source, "has_unknown", False) for _, source in sources)
        self.own_names = {name for _, source in sources for name in source.names}
        for path, source in sources:
            names = [renamed.get(name, name) for name in source.names]
            if names.count(found.time) != 1:
                raise Refused(f"{path}: {'two columns' if found.time in names else 'no column'} {found.time}, asked for by --time")
            self.times.append(names.index(found.time))
            self.shifts.append(len(self.names))
            self.names += [name for name in source.names if renamed.get(name, name) != found.time]

    def of(self, k: int) -> Iterator[tuple[Fraction, int, str, list[Optional[str]]]]:
        """Yields the lines of one file with their times."""
        path, source = self.sources[k]
        at, shift = self.times[k], self.shifts[k]
        for number, fields in source:
            place = f"{number} of {path}"
            if len(fields) != len(source.names):
                raise Refused(f"line {place}: {len(fields)} fields, where {len(source.names)} columns have names")
            time = self.clock.read((fields[at] or "").strip())
            if time is None:
                raise Refused(f"line {place}: {shown(fields[at] or '')} is no time in seconds")
            row: list[Optional[str]] = [None] * len(self.names)
            row[0] = fields[at]
            row[shift : shift + len(fields) - 1] = fields[:at] + fields[at + 1 :]
            yield Fraction(*time), k, place, row

    def __iter__(self) -> Iterator[tuple[str, list[Optional[str]]]]:
        streams = [self.of(k) for k in range(len(self.sources))]
        for _, _, place, row in heapq.merge(*streams, key=lambda it: it[:2]):
            yield place, row


class Sources:
    """Opens the files of a command line, as one source; `files` are those that are open."""

    def __init__(self, found: Any, signals: Optional[list[Any]], clock: Clock) -> None:
        self.found, self.clock, self.wanted = found, clock, wanted_names(found, signals)
        self.stack = ExitStack()
        self.files: list[BinaryIO] = []
        self.ordered: list[Ordered] = []

    def __enter__(self) -> Any:
        paths = self.found.telemetry
        try:
            sources = [(path, self.source(path)) for path in paths]
            return sources[0][1] if len(sources) == 1 else Merged(sources, self.found, self.clock)
        except BaseException:
            self.stack.close()
            raise

    def source(self, path: str) -> Any:
        file: Any = opened(path)
        self.files.append(file)
        self.stack.enter_context(file)
        try:
            made = self.made(file, format_of(path, self.found.format))
            if (self.found.sort or self.found.dedupe) and not getattr(made, "has_unknown", False):
                made = Ordered(made, self.found, self.clock)
                self.ordered.append(made)
            return Long(made, self.found, self.wanted) if self.found.long else made
        except Refused as fault:
            raise Refused(f"{path}: {fault}", fault.status) if len(self.found.telemetry) > 1 else fault from None

    def made(self, file: BinaryIO, form: str) -> Any:
        found = self.found
        if form == "vcd":
            if not found.time:
                raise ToolError("a dump has times: --rate is needed")
            return Dump(file, found.time)
        if form == "json":
            return JsonLines(file, [] if found.long or len(found.telemetry) > 1 else self.wanted, found.skip, found.comment)
        return Records(file, found.delimiter, found.names, found.skip, found.comment)

    def remarks(self) -> Iterator[str]:
        repeated = sum(it.repeated for it in self.ordered)
        if repeated:
            yield f"{counted(repeated, 'line')} left out that repeat{'s' * (repeated == 1)} the one before"

    def __exit__(self, *_: Any) -> None:
        self.stack.close()
