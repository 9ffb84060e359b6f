"""A compiled program as its file has it, by the layout of docs/reference/formats.md."""

from __future__ import annotations

import struct
from dataclasses import dataclass
from itertools import islice
from typing import Iterator, Sequence

from r2u2tools.common.cli import ToolError

# The part and the number of an instruction.
Place = tuple[str, int]
PARTS = ("bz", "ft", "pt")
BZ = ("column", "istrue", "const", "neg", "add", "sub", "mul", "div", "rem", "eq", "lt", "le")
OPERATIONS = {"bz": (0x01, BZ), "ft": (0x10, ("true", "load", "not", "and", "until")), "pt": (0x20, ("true", "load", "not", "and", "since"))}
NO_OPERANDS, UNARY = ("column", "istrue", "const", "true"), ("neg", "not", "load")
FORMULA, CONTRACT = 0x30, 0x31


@dataclass(frozen=True)
class Instruction:
    """An instruction with the places that it reads, its interval and its size; `value` is a column or a constant."""

    op: str
    reads: tuple[Place, ...]
    low: int
    high: int
    size: int
    value: int


@dataclass(frozen=True)
class Reported:
    """An output: its name, its section, and the place of its formula or the two of its contract."""

    name: str
    section: str
    roots: tuple[Place, ...]


@dataclass(frozen=True)
class Signal:
    name: str
    kind: str
    column: int


@dataclass(frozen=True)
class Program:
    """A program with the bytes that it was read from."""

    raw: bytes
    version: int
    width: int
    instructions: dict[Place, Instruction]
    outputs: list[Reported]
    signals: list[Signal]

    def columns(self) -> list[str]:
        """The names of the columns of a row, with others in columns without a signal."""
        by_column = {signal.column: signal.name for signal in self.signals}
        names = set(by_column.values())
        free = (f"_{k}" for k in range(1 << 32) if f"_{k}" not in names)
        return [by_column[k] if k in by_column else next(free) for k in range(self.width)]

    def with_outputs(self, named: dict[str, Place]) -> bytes:
        """The same program with other formulas as its outputs; contracts stay, on which sizes of queues depend."""
        kept = [it for it in self.outputs if len(it.roots) == 2] + [Reported(name, "", (place,)) for name, place in named.items()]
        rows = b"".join(output_bytes(it) for it in kept)
        first = 40 + 24 * len(self.instructions)
        signals = first + 24 * len(self.outputs)
        names = signals + 8 * len(self.signals)
        ends = names + sum(len(it.name) for it in self.outputs)
        text = "".join(it.name for it in kept).encode("ascii")
        head = self.raw[:24] + struct.pack("<II", len(kept), len(text)) + self.raw[32:first]
        return head + rows + self.raw[signals:names] + text + self.raw[ends:]


def output_bytes(output: Reported) -> bytes:
    (part, left), right = output.roots[0], output.roots[-1][1]
    is_contract = len(output.roots) == 2
    return struct.pack("<BBxxIII8x", CONTRACT if is_contract else FORMULA, part == "pt", left, right * is_contract, len(output.name))


def instruction(raw: bytes, at: int, part: str) -> Instruction:
    code, left, right, low, high, size = struct.unpack_from("<BxxxIIIII", raw, at)
    first, ops = OPERATIONS[part]
    op = ops[code - first] if first <= code < first + len(ops) else ""
    if op == "const":
        return Instruction(op, (), 0, 0, 0, struct.unpack_from("<q", raw, at + 8)[0])
    operands = () if op in NO_OPERANDS else (left,) if op in UNARY else (left, right)
    return Instruction(op, tuple(("bz" if op == "load" else part, it) for it in operands), low, high, size, left)


def read_program(path: str, raw: bytes) -> Program:
    """The program that some bytes spell. What is wrong with one, c2po and r2u2 say."""
    try:
        return parsed(raw)
    except (struct.error, UnicodeDecodeError, IndexError):
        raise ToolError(f"{path}: not a program that c2po wrote") from None


def parsed(raw: bytes) -> Program:
    version, width, *counts, outs, _ = struct.unpack_from("<HxxIIIIII", raw, 4)
    stored, at = (struct.unpack_from("<I", raw, 32)[0], 40) if version == 2 else (0, 32)
    found: dict[Place, Instruction] = {}
    for part, count in zip(PARTS, counts):
        found.update(((part, k), instruction(raw, at + 24 * k, part)) for k in range(count))
        at += 24 * count
    rows = [struct.unpack_from("<BBxxIII8x", raw, at + 24 * k) for k in range(outs)]
    at += 24 * outs
    kept = [struct.unpack_from("<IBBxx", raw, at + 8 * k) for k in range(stored)]
    names = iter(names_of(raw, at + 8 * stored, [it[4] for it in rows] + [it[2] for it in kept]))
    outputs = [reported(it, name) for it, name in zip(rows, islice(names, len(rows)))]
    signals = [Signal(name, "bool" if kind else "int", column) for (column, kind, _), name in zip(kept, names)]
    return Program(raw, version, width, found, outputs, signals)


def reported(row: tuple[int, ...], name: str) -> Reported:
    code, engine, left, right, _ = row
    part = "pt" if engine else "ft"
    return Reported(name, f"{part.upper()}SPEC", ((part, left), (part, right))[: 1 + (code == CONTRACT)])


def names_of(raw: bytes, at: int, sizes: Sequence[int]) -> Iterator[str]:
    """The names that stand one after another."""
    for size in sizes:
        yield raw[at : at + size].decode("ascii")
        at += size
