"""Results of many logs, made into one."""

from __future__ import annotations

import copy
import hashlib
import json
import os
from typing import Any, Iterator

from r2u2tools.common import cli
from r2u2tools.common.cli import ToolError, opened
from r2u2tools.verdicts.counts import Result
from r2u2tools.verdicts.records import from_json

UNREADABLE = "its result can't be read"


def documents(text: str) -> Iterator[Any]:
    """Yields the values of a text of JSON, one after another."""
    reader, place = json.JSONDecoder(), 0
    while True:
        while place < len(text) and text[place].isspace():
            place += 1
        if place == len(text):
            return
        value, place = reader.raw_decode(text, place)
        yield value


def results(raw: bytes) -> list[Result]:
    """Returns the results in the text of a file."""
    try:
        found = [from_json(record) for record in documents(raw.decode("utf-8"))]
    except ValueError as fault:
        raise ToolError(f"not JSON: {fault}") from None
    except RecursionError:
        raise ToolError("not JSON that verdicts prints: nested too deeply") from None
    if not found:
        raise ToolError("an empty file")
    return found


class Merger:
    """Adds results file by file. A file named twice counts once; both that and equal bytes are reported."""

    def __init__(self) -> None:
        self.total = Result(logs=0)
        self.files: set[str] = set()
        self.bytes: dict[str, str] = {}

    def take(self, path: str) -> None:
        """Adds the results of one file; what can't be read is reported, and counts as a run that failed."""
        place = path if path == "-" else os.path.realpath(path)
        if place in self.files:
            cli.note(f"{path} is given twice: it counts once")
            return
        self.files.add(place)
        try:
            with opened(path) as file:
                raw = file.read()
            self.compare(path, raw)
            for result in results(raw):
                self.join(result, path)
        except ToolError as fault:
            text = str(fault)
            cli.note(text if text.startswith("cannot") else f"{path}: {text}")
            self.lost(path)

    def compare(self, path: str, raw: bytes) -> None:
        """Reports a file with the same bytes as an earlier one."""
        before = self.bytes.setdefault(hashlib.sha256(raw).hexdigest(), path)
        if before != path:
            cli.note(f"{path} has the same bytes as {before}: both count")

    def lost(self, path: str) -> None:
        fault = {"log": str(path), "code": None, "message": UNREADABLE}
        self.total.logs += 1
        self.total.failed.append(fault)
        self.total.suites.append(Result(str(path), failed=[fault]))

    def join(self, result: Result, path: str) -> None:
        """Adds one result to the total; a log without a name goes by its file."""
        total, name = self.total, result.log or str(path)
        result.log = name
        total.logs += result.logs
        total.lines += result.lines
        total.seconds += result.seconds
        total.spec = total.spec or result.spec
        total.failed += [fault | {"log": fault.get("log") or name} for fault in result.failed]
        total.empty += [log or name for log in result.empty]
        for output in result.outputs.values():
            if output.first:
                output.first = output.first | {"log": output.first.get("log") or name}
            for event in (output.longest, output.last):
                if event is not None:
                    event.log = event.log or name
            if output.name in total.outputs:
                total.outputs[output.name].add(output)
            else:
                total.outputs[output.name] = copy.copy(output)
                total.outputs[output.name].words = dict(output.words)
        total.suites.append(result)


def merged(paths: list[str]) -> Result:
    """Returns one result of many files."""
    merger = Merger()
    for path in paths:
        merger.take(path)
    return merger.total
