"""Traces at random over the signals of specifications, the same for the same seed."""

from __future__ import annotations

import random
from dataclasses import dataclass
from typing import Iterable, Iterator, Sequence

from r2u2tools.common.program_text import ProgramText

LEAST, GREATEST = -(1 << 31), (1 << 31) - 1
# A field stays as it is for some rows: so windows see both rest and change.
STAYS = (0.2, 0.5, 0.9)


@dataclass(frozen=True)
class Column:
    """A signal with the values that its fields are taken from."""

    name: str
    values: Sequence[int]


def numbers_in(texts: Iterable[ProgramText]) -> list[int]:
    """The constants of programs and the integers next to them, at which comparisons change."""
    found = {0, 1}
    for text in texts:
        for ref in {it for node in text.nodes.values() for it in node.operands()}:
            if ref.lstrip("-").isdigit():
                found.update((int(ref) - 1, int(ref), int(ref) + 1))
    return sorted(it for it in found if LEAST <= it <= GREATEST)


def columns_of(texts: Sequence[ProgramText]) -> list[Column]:
    """The signals of programs, each once. A signal that is Boolean for one of them has 0 and 1 alone."""
    kinds: dict[str, str] = {}
    for text in texts:
        for name, kind in text.signals.items():
            kinds[name] = "bool" if "bool" in (kind, kinds.get(name)) else kind
    numbers = numbers_in(texts)
    return [Column(name, (0, 1) if kind == "bool" else numbers) for name, kind in kinds.items()]


def rows(columns: Sequence[Column], count: int, seed: int) -> Iterator[list[int]]:
    """So many rows of fields."""
    dice = random.Random(seed)
    stays = [dice.choice(STAYS) for _ in columns]
    fields = [dice.choice(column.values) for column in columns]
    for _ in range(count):
        yield list(fields)
        for k, column in enumerate(columns):
            if dice.random() > stays[k]:
                fields[k] = dice.choice(column.values)


def trace(columns: Sequence[Column], count: int, seed: int) -> str:
    """A trace with a header."""
    head = f"#{','.join(column.name for column in columns)}\n"
    return head + "".join(",".join(map(str, fields)) + "\n" for fields in rows(columns, count, seed))
