"""Telemetry with an object of JSON on each line as records of fields."""

from __future__ import annotations

import json
from itertools import chain
from typing import Any, BinaryIO, Iterator, Optional

from r2u2tools.telemetry.records import Refused, shown, texts_of

WORDS = {True: "true", False: "false", None: ""}


def flat(value: Any, name: str = "") -> Iterator[tuple[str, str]]:
    """Yields the names and texts of a value: a member of a member is called outer.inner."""
    if isinstance(value, (dict, list)):
        parts = value.items() if isinstance(value, dict) else enumerate(value)
        for key, part in parts:
            yield from flat(part, f"{name}.{key}" if name else str(key))
    else:
        yield name, value if isinstance(value, str) else WORDS[value]


class JsonLines:
    """The objects of a file, as fields under the names of the first object and those that are asked for."""

    sparse = False

    def __init__(self, file: BinaryIO, wanted: list[str], skip: int = 0, comment: Optional[str] = None) -> None:
        self.objects = self.read(file, skip, comment)
        self.line, first = next(self.objects, (0, None))
        if first is None:
            raise Refused("no object")
        self.names = list(dict.fromkeys([*first, *wanted]))
        self.objects = chain([(self.line, first)], self.objects)

    def read(self, file: BinaryIO, skip: int, comment: Optional[str]) -> Iterator[tuple[int, dict[str, str]]]:
        for number, text in texts_of(file, skip, comment):
            if not text.strip():
                continue
            try:
                found = json.loads(text, parse_int=str, parse_float=str, parse_constant=str)
            except (ValueError, RecursionError) as fault:
                why = fault.msg if isinstance(fault, json.JSONDecodeError) else "nested too deeply"
                raise Refused(f"line {number}: not JSON: {why}") from None
            if not isinstance(found, dict):
                raise Refused(f"line {number}: {shown(text.strip())} isn't an object")
            yield number, dict(flat(found))

    def __iter__(self) -> Iterator[tuple[int, list[str]]]:
        for number, found in self.objects:
            yield number, [found.get(name, "") for name in self.names]
