"""What is wrong with a trace for a specification: at which field, and what to write. r2u2 alone says whether it takes it."""

import csv
import re
import subprocess
from typing import Dict, Iterator, List, Optional, Tuple

from r2u2tools.check.faults import Answer, Fault, Report, near
from r2u2tools.check.notes import Row
from r2u2tools.common.source import Source, decoded
from r2u2tools.common.cli import opened
from r2u2tools.common.program_file import Signal
from r2u2tools.common.programs import message, program
from r2u2tools.common.specs import Spec, read_spec

# How much of a trace is looked at, and how many faults are told.
LARGEST, MOST = 1 << 24, 20
WHOLE = re.compile(r"[+-]?\d+", re.ASCII)
TRUTHS = {"true": "1", "false": "0", "yes": "1", "no": "0", "on": "1", "off": "0", "t": "1", "f": "0"}
COMMENTS = ("#", "--", "//")
RANGES = {"bool": (0, 1), "int": (-(1 << 31), (1 << 31) - 1)}
CR_ALONE, NO_ROW = "lines end with a carriage return alone, so that all are the first one", "no row: nothing is checked"
# A field: where it begins in its line, and its text without blanks.
Field = Tuple[int, str]


def check_trace(spec_path: str, path: str, timed: bool) -> Report:
    """What r2u2 says of a trace, with the faults that are found where it refuses it."""
    spec = read_spec(spec_path)
    with opened(path) as file:
        raw = file.read(LARGEST)
    words = [program("r2u2"), *["--source"] * (not spec.is_program()), *["--timed"] * timed, spec_path, path]
    ran = subprocess.run(words, stdin=subprocess.DEVNULL, stdout=subprocess.DEVNULL, stderr=subprocess.PIPE)
    answer = Answer(ran.returncode, message(ran.stderr).removeprefix("r2u2: "))
    report = Report(Source(decoded(raw)), answer, [], program="r2u2")
    for fault in TraceFaults(spec, raw, timed).all():
        if answer.status or fault.level == "note" or fault.what == CR_ALONE:
            report.more = len(report.faults) == MOST
            if report.more:
                break
            report.faults.append(fault)
    return report


class TraceFaults:
    """Looks for faults in the text of a trace."""

    def __init__(self, spec: Spec, raw: bytes, timed: bool):
        self.spec, self.raw, self.timed = spec, raw, timed
        words = {token.text for item in spec.items if item.section != "INPUT" for token in item.body}
        self.read = [it for it in spec.signals if it.name in words or spec.is_program()]
        self.columns: Dict[str, int] = {it.name: it.column for it in spec.signals}

    def all(self) -> Iterator[Fault]:
        if self.raw[:2] in (b"\xff\xfe", b"\xfe\xff") or b"\0" in self.raw[:4096]:
            yield fault("not UTF-8, but a text of 16 bits a letter or a binary file", "save it as UTF-8")
            return
        text = decoded(self.raw)
        if "\r" in text.rstrip("\r") and "\n" not in text:
            yield fault(CR_ALONE, "end them with a newline, as `tr '\\r' '\\n'` does")
            return
        lines = [line.rstrip("\r") for line in text.split("\n")]
        if lines[0].startswith("\ufeff"):
            yield fault("a byte order mark before the first line", "save it as UTF-8 without one")
            lines[0] = " " + lines[0][1:]
        if not self.spec.outputs:
            yield fault("the specification has no requirement: nothing is checked", level="note")
        yield from self.rows(lines)

    def rows(self, lines: List[str]) -> Iterator[Fault]:
        first = next((k for k, line in enumerate(lines) if line.strip()), None)
        if first is None:
            yield fault(NO_ROW, level="note")
            return
        other = next((sign for sign in ";\t" if sign in lines[first] and "," not in lines[first]), "")
        if other:
            place = lines[first].index(other)
            yield at(first, (place, other), "fields are parted by commas", lines[first], lines[first].replace(other, ","))
            return
        headed = lines[first].lstrip().startswith("#")
        names = self.names(lines[first])
        if not headed and any(name.lower() in map(str.lower, self.columns) for _, name in names):
            yield at(first, names[0], "a header begins with #", lines[first], f"# {lines[first].strip()}")
            headed = True
        if headed:
            yield from self.header(first, lines[first], names)
        elif len(self.columns) > 1:
            order = ", ".join(sorted(self.columns, key=lambda it: self.columns[it]))
            yield fault(f"no header: the columns are taken as {order}", level="note")
        rows = [(number, line) for number, line in enumerate(lines[first + headed :], first + headed) if line.strip()]
        if not rows:
            yield fault(NO_ROW, level="note")
        for number, line in rows:
            yield from self.row(number, line)

    def names(self, line: str) -> List[Field]:
        """The names of a header with their places."""
        found, place = [], 0
        for name in next(csv.reader([line.strip().lstrip("#")]), []):
            name = name.strip()
            place = max(line.find(name, place), place)
            found.append((place, name))
            place += len(name)
        return found

    def header(self, number: int, line: str, names: List[Field]) -> Iterator[Fault]:
        """Names that are missing or there twice; columns go by their names."""
        known = [name for _, name in names]
        for name in self.columns:
            if known.count(name) > 1:
                yield at(number, names[len(known) - 1 - known[::-1].index(name)], f"two columns {name}", line, "")
            elif name not in known:
                free = [it for it in known if it not in self.columns]
                close = next((it for it in free if it.lower() == name.lower() or near(name, [it])), None)
                place = names[known.index(close)] if close else (len(line), " ")
                right = line[: place[0]] + name + line[place[0] + len(place[1]) :] if close else f"{line.rstrip()},{name}"
                yield at(number, place, f"no column {name}", line, right)
                known = [name if it == close else it for it in known]
        self.columns = {name: known.index(name) if name in known else -1 for name in self.columns}

    def row(self, number: int, line: str) -> Iterator[Fault]:
        if line.lstrip().startswith(COMMENTS):
            yield at(number, (0, line), "a comment as a row", line, "", "leave the line out")
            return
        fields = fields_of(line)
        stamped = re.fullmatch(r"@\d+", fields[0][1]) is not None
        if stamped != self.timed:
            why = "a row begins with @ and its time" if self.timed else "a stamp: r2u2 takes it with --timed"
            yield at(number, fields[0], why, line, f"@{number},{line.strip()}" if self.timed else "")
            return
        fields = fields[stamped:]
        for signal in self.read:
            column = self.columns[signal.name]
            if column >= len(fields):
                yield at(number, (len(line), " "), f"{len(fields)} fields, and {signal.name} is column {column + 1}", line, "")
                return
            if column >= 0:
                yield from self.field(number, line, fields[column], signal)

    def field(self, number: int, line: str, field: Field, signal: Signal) -> Iterator[Fault]:
        low, high = RANGES[signal.kind]
        if WHOLE.fullmatch(field[1]) and low <= int(field[1][:40]) <= high:
            return
        why, right = reason(field[1], signal)
        text = line[: field[0]] + right + line[field[0] + len(field[1]) :] if right else ""
        what = f"{signal.name} is {'0 or 1' if signal.kind == 'bool' else 'a whole number'}, and not {field[1] or 'empty'}"
        yield at(number, field, what, line, text, why)


def reason(text: str, signal: Signal) -> Tuple[str, str]:
    """Why a field isn't a value, and what to write in its place, where that is known."""
    bare = text.strip('"')
    if bare != text and WHOLE.fullmatch(bare):
        return "without quotes", bare
    if bare.lower() in TRUTHS:
        return "a truth is a number", TRUTHS[bare.lower()]
    if re.fullmatch(r"[+-]?\d*\.\d+", bare):
        digits = len(bare.partition(".")[2])
        return f"scale it, as `r2u2-trace --scale {signal.name}={10**digits}` does", str(int(bare.replace(".", "")))
    if not text:
        return "r2u2-trace --missing or --hold fills empty fields", ""
    return ("a bool is 0 or 1" if signal.kind == "bool" else "an int has 32 bits"), ""


def fields_of(line: str) -> List[Field]:
    found, place = [], 0
    for text in line.split(","):
        found.append((place + len(text) - len(text.lstrip()), text.strip()))
        place += len(text) + 1
    return found


def fault(what: str, right: str = "", level: str = "error") -> Fault:
    """What is wrong with a whole trace."""
    return Fault(what, 1, 0, 1, note=Row(right, "", "") if right else None, level=level)


def at(number: int, field: Field, what: str, line: str, right: str, why: str = "write") -> Fault:
    """A fault of a field, with its line as it should be."""
    note: Optional[Row] = Row(why, line, right.strip()) if right or why != "write" else None
    return Fault(what, number + 1, field[0], max(1, len(field[1])), note=note)
