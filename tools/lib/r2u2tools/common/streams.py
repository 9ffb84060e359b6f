"""Lines of a file or a pipe, in constant memory."""

from __future__ import annotations

from typing import Iterator, Protocol

from r2u2tools.common.cli import ToolError

BLOCK = 1 << 16


class Readable(Protocol):
    """What bytes are read from: a file, a pipe, or what passes one on."""

    def read(self, size: int, /) -> bytes:
        """Up to `size` bytes; none at the end."""


def blocks_of(file: Readable, longest: int) -> Iterator[tuple[int, bytes]]:
    """The lines of a file of bytes, as soon as they are there, many at a time: the number of the first, and all without the last newline."""
    read = getattr(file, "read1", file.read)
    rest, number = b"", 1
    while block := read(BLOCK):
        whole, newline, rest = (rest + block).rpartition(b"\n")
        if newline:
            yield number, whole
            number += whole.count(b"\n") + 1
        if len(rest) > longest:
            raise too_long(number, longest)
    if rest:
        yield number, rest


def lines_of(file: Readable, longest: int) -> Iterator[tuple[int, bytes]]:
    """The lines of a file of bytes, as soon as they are there, with their numbers; none is longer than `longest`."""
    for first, block in blocks_of(file, longest):
        yield from lines_in(block, first, longest)


def lines_in(block: bytes, first: int, longest: int) -> Iterator[tuple[int, bytes]]:
    """The lines of a block with their numbers."""
    for number, line in enumerate(block.split(b"\n"), first):
        if len(line) > longest:
            raise too_long(number, longest)
        yield number, line


def too_long(number: int, longest: int) -> ToolError:
    return ToolError(f"line {number}: longer than {longest} bytes")
