"""Value change dumps of simulators as records: one for each time, with the values that change then."""

from __future__ import annotations

import re
from dataclasses import dataclass
from typing import BinaryIO, Iterator, Optional

from r2u2tools.telemetry.records import Refused, shown, texts_of

UNITS = {"s": 0, "ms": -3, "us": -6, "ns": -9, "ps": -12, "fs": -15}
SCALE = re.compile(r"(1|10|100)\s*(s|ms|us|ns|ps|fs)")
NUMBER = re.compile(r"[+-]?[0-9.eE+-]+")
SIGNED = ("integer",)


@dataclass
class Variable:
    name: str
    scope: str
    kind: str
    width: int


class Dump:
    """The signals of a dump by their names, those of equal names with their scopes; the first column is the time."""

    sparse = True
    # An unknown value of a signal is the text x.
    has_unknown = True

    def __init__(self, file: BinaryIO, time: str) -> None:
        self.words = self.tokens(file)
        self.number, self.line = 0, 1
        self.unit = "e0"
        self.variables: dict[str, Variable] = {}
        scope: list[str] = []
        while (word := self.next()) != "$enddefinitions":
            self.declare(word, scope)
        self.body()
        names = [it.name for it in self.variables.values()]
        self.names = [time] + [it.name if names.count(it.name) == 1 else it.scope for it in self.variables.values()]
        self.places = {code: k + 1 for k, code in enumerate(self.variables)}

    def tokens(self, file: BinaryIO) -> Iterator[tuple[int, str]]:
        for number, text in texts_of(file):
            for word in text.split():
                yield number, word

    def next(self) -> str:
        self.number, word = next(self.words, (self.number, None))
        if word is None:
            raise Refused(f"line {self.number}: the dump ends within its definitions")
        return word

    def body(self) -> list[str]:
        """Reads up to $end."""
        found: list[str] = []
        while (word := self.next()) != "$end":
            found.append(word)
        return found

    def declare(self, word: str, scope: list[str]) -> None:
        """Reads one item of the definitions."""
        if not word.startswith("$"):
            raise Refused(f"line {self.number}: {shown(word)} isn't an item of a dump")
        body = self.body()
        if word == "$scope":
            scope.append(body[-1] if body else "")
        elif word == "$upscope" and scope:
            scope.pop()
        elif word == "$timescale":
            found = SCALE.fullmatch("".join(body))
            if not found:
                raise Refused(f"line {self.number}: {shown(' '.join(body))} isn't a time scale")
            self.unit = f"{'0' * (len(found[1]) - 1)}e{UNITS[found[2]]}"
        elif word == "$var":
            if len(body) < 4 or not body[1].isdigit():
                raise Refused(f"line {self.number}: not a $var of a dump")
            name = body[3].partition("[")[0]
            self.variables.setdefault(body[2], Variable(name, ".".join([*scope, name]), body[0], int(body[1])))

    def change(self, word: str) -> tuple[str, str]:
        """Returns the code of a signal and its new value as a text; a value with an unknown bit, x or z, is x."""
        if word[0] in "bBrR":
            value, code = word[1:], self.next()
        else:
            value, code = word[:1], word[1:]
        if code not in self.variables:
            raise Refused(f"line {self.number}: no $var has {shown(code)}")
        if word[0] in "rR":
            return code, value
        if set(value) & set("xXzZ-uUwW"):
            return code, "x"
        if not value or set(value) - set("01"):
            raise Refused(f"line {self.number}: {shown(word)} isn't a value of a dump")
        it, number = self.variables[code], int(value, 2)
        return code, str(number - (1 << it.width) if it.kind in SIGNED and number >> (it.width - 1) else number)

    def __iter__(self) -> Iterator[tuple[int, list[Optional[str]]]]:
        """Yields a record for each time with its changes; values before the first time count from 0 on."""
        fields: list[Optional[str]] = [f"0{self.unit}"] + [None] * len(self.variables)
        comment = False
        for self.number, word in self.words:
            if comment or word.startswith("$"):
                comment = word != "$end" and (comment or word == "$comment")
            elif word[0] == "#":
                if not word[1:].isdigit():
                    raise Refused(f"line {self.number}: {shown(word)} isn't a time of a dump")
                if any(field is not None for field in fields[1:]):
                    yield self.number, fields
                fields = [f"{word[1:]}{self.unit}"] + [None] * len(self.variables)
            else:
                code, value = self.change(word)
                fields[self.places[code]] = value
        yield self.number, fields
