"""Telemetry files of comma-separated text as records of fields, with the lines at which they begin."""

from __future__ import annotations

import csv
from typing import BinaryIO, Iterator, Optional

from r2u2tools.common.cli import TROUBLE, ToolError

REFUSED = 1
LONGEST = 1 << 20
BYTES_16 = (b"\xff\xfe", b"\xfe\xff")
BYTE_ORDER = b"\xef\xbb\xbf"


class Refused(ToolError):
    """What the file has can't be converted."""

    def __init__(self, text: str, status: int = REFUSED) -> None:
        super().__init__(text, status)


def shown(text: str) -> str:
    """Returns a text as a message can quote it."""
    text = text if len(text) <= 40 else text[:40] + "..."
    return "'" + "".join(letter if letter.isprintable() else "?" for letter in text) + "'"


def texts_of(file: BinaryIO, skip: int = 0, comment: Optional[str] = None) -> Iterator[tuple[int, str]]:
    """Yields the lines of a file with their numbers, without a byte order mark, the first ones and comments."""
    number = 0
    while raw := file.readline(LONGEST + 1):
        number += 1
        if len(raw) > LONGEST:
            raise Refused(f"line {number}: longer than {LONGEST} bytes")
        if number == 1:
            if raw.startswith(BYTES_16):
                raise Refused("line 1: a text of 16 bits a letter: make it UTF-8 first", TROUBLE)
            raw = raw.removeprefix(BYTE_ORDER)
        if number <= skip or (comment and raw.startswith(comment.encode())):
            continue
        try:
            yield number, raw.decode("utf-8")
        except UnicodeDecodeError as fault:
            raise Refused(f"line {number}, byte {fault.start + 1}: not UTF-8", TROUBLE) from None


class Records:
    """The records of a file, after the names of its columns."""

    sparse = False

    def __init__(self, file: BinaryIO, delimiter: str, names: str, skip: int = 0, comment: Optional[str] = None) -> None:
        self.lines, self.number = texts_of(file, skip, comment), skip
        self.headed = bool(names)
        self.reader = csv.reader(self.texts(), delimiter=delimiter, strict=True, skipinitialspace=True)
        self.line = 1
        if names:
            self.names = [name.strip() for name in names.split(",")]
        else:
            self.line, self.names = self.first()
            self.names = [name.strip() for name in self.names]

    def texts(self) -> Iterator[str]:
        """Yields the lines, the first one without its #."""
        first = True
        for self.number, text in self.lines:
            if first and text.lstrip(" \t").startswith("#"):
                text = text.lstrip(" \t").removeprefix("#")
            first = False
            yield text

    def first(self) -> tuple[int, list[str]]:
        for number, fields in self:
            return number, fields
        raise Refused("no line with the names of the columns")

    def __iter__(self) -> Iterator[tuple[int, list[str]]]:
        """Yields each record that isn't blank, with the number of its first line."""
        while True:
            number = self.number + 1
            try:
                fields = next(self.reader)
            except StopIteration:
                return
            except csv.Error as fault:
                raise Refused(f"line {number}: {fault}") from None
            if fields and (len(fields) > 1 or fields[0].strip()):
                yield number, fields
