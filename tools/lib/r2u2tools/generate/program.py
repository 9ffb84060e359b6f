"""The bytes of a checked program as lists of instructions, by the layout of docs/reference/formats.md."""

from __future__ import annotations

import hashlib
import struct
import subprocess
import tempfile
from dataclasses import dataclass
from pathlib import Path
from typing import Iterator, Union

from r2u2tools.common.cli import Trouble, opened
from r2u2tools.common.compiled import make
from r2u2tools.common.programs import program, ran
from r2u2tools.common.specs import MAGIC

BZ = {1: "column", 2: "truth", 3: "const", 4: "neg", 5: "+", 6: "-", 7: "*", 8: "/", 9: "%", 10: "==", 11: "<", 12: "<="}
FORMULAS = ("true", "load", "not", "and", "until")
INSTRUCTION = struct.Struct("<BxxxIIIII")


@dataclass(frozen=True)
class Instruction:
    """One instruction: its operation, its operands by number, its interval, and a constant's value."""

    op: str
    left: int
    right: int
    low: int = 0
    high: int = 0
    value: int = 0


@dataclass(frozen=True)
class Output:
    """What is reported: the instruction of a formula, or the two of a contract, of the future or the past engine."""

    name: str
    is_past: bool
    is_contract: bool
    left: int
    right: int


@dataclass(frozen=True)
class Signal:
    """A stored signal."""

    name: str
    column: int
    is_truth: bool


@dataclass(frozen=True)
class Program:
    """A program's three lists, its outputs and signals, and the SHA-256 of its bytes."""

    version: int
    width: int
    bz: tuple[Instruction, ...]
    ft: tuple[Instruction, ...]
    pt: tuple[Instruction, ...]
    outputs: tuple[Output, ...]
    signals: tuple[Signal, ...]
    digest: str


def instruction(raw: bytes, at: int) -> Instruction:
    code, left, right, low, high, _ = INSTRUCTION.unpack_from(raw, at)
    if code == 3:
        return Instruction("const", 0, 0, value=int.from_bytes(raw[at + 8 : at + 16], "little", signed=True))
    op = BZ[code] if code in BZ else FORMULAS[code & 0xF]
    return Instruction(op, left, right, low, high)


def names(raw: bytes, sizes: list[int], at: int) -> Iterator[str]:
    """The names that stand one after another from a byte on."""
    for size in sizes:
        yield raw[at : at + size].decode("ascii")
        at += size


def parsed(raw: bytes) -> Program:
    """The program that sound bytes spell."""
    version, width, *counts, outs, name_bytes = struct.unpack_from("<HxxIIIIII", raw, 4)
    stored = struct.unpack_from("<I", raw, 32)[0] if version == 2 else 0
    at = 40 if version == 2 else 32
    parts = list[tuple[Instruction, ...]]()
    for count in counts:
        parts.append(tuple(instruction(raw, at + 24 * k) for k in range(count)))
        at += 24 * count
    told = [struct.unpack_from("<BBxxIII", raw, at + 24 * k) for k in range(outs)]
    at += 24 * outs
    kept = [struct.unpack_from("<IBB", raw, at + 8 * k) for k in range(stored)]
    at += 8 * stored
    outputs = tuple(
        Output(name, engine == 1, code == 0x31, left, right)
        for (code, engine, left, right, _), name in zip(told, names(raw, [it[4] for it in told], at))
    )
    signals = tuple(
        Signal(name, column, kind == 1)
        for (column, kind, _), name in zip(kept, names(raw, [it[2] for it in kept], at + name_bytes))
    )
    bz, ft, pt = parts
    return Program(version, width, bz, ft, pt, outputs, signals, hashlib.sha256(raw).hexdigest())


def checked(path: str, raw: bytes, folder: Path) -> Program:
    """The program of some bytes, which r2u2 has read and verified: over a trace without rows it does no more."""
    copy, empty = folder / "checked.obs", folder / "empty.csv"
    copy.write_bytes(raw)
    empty.write_bytes(b"")
    status, _, text = ran([program("r2u2"), str(copy), str(empty)], stdin=subprocess.DEVNULL)
    if status:
        raise Trouble(f"{path}: {text.removeprefix('r2u2: ') or f'r2u2 ended with status {status}'}", 1)
    return parsed(raw)


def read(path: Union[str, Path]) -> Program:
    """The checked program of a file, which may be a specification: that is compiled first."""
    with opened(path) as file:
        raw = file.read()
    with tempfile.TemporaryDirectory(prefix="generate-") as folder:
        if raw.startswith(MAGIC):
            return checked(str(path), raw, Path(folder))
        spec, out = Path(folder, "spec.c2po"), Path(folder, "spec.obs")
        spec.write_bytes(raw)
        try:
            make(spec, out)
        except Trouble as trouble:
            raise Trouble(f"{path}: {trouble}", 1) from None
        return checked(str(path), out.read_bytes(), Path(folder))
