"""What a file of signals says: of each column its raw field, its conversion to an integer, and what is taken of it."""

from __future__ import annotations

from dataclasses import dataclass, field
from fractions import Fraction
from math import lcm
from typing import Optional, Union

LEAST, GREATEST = -(1 << 31), (1 << 31) - 1
WIDEST = 1 << 20
# Of each integer type its least and its greatest value.
RANGES = {"bool": (0, 1)} | {
    f"{sign}int{bits}": (0, (1 << bits) - 1) if sign else (-(1 << (bits - 1)), (1 << (bits - 1)) - 1)
    for sign in ("", "u") for bits in (8, 16, 32, 64)
}
FLOATS = ("float", "double")
# Words that can't name a member of a struct in C or C++.
C_WORDS = frozenset(
    "alignas alignof and and_eq asm auto bitand bitor bool break case catch char class compl concept const consteval constexpr constinit"
    " const_cast continue decltype default delete do double dynamic_cast else enum explicit export extern false float for friend goto if"
    " inline int long mutable namespace new noexcept not not_eq nullptr operator or or_eq private protected public register"
    " reinterpret_cast requires restrict return short signed sizeof static static_assert static_cast struct switch template this"
    " thread_local throw true try typedef typeid typename typeof union unsigned using virtual void volatile wchar_t while xor xor_eq".split()
)
TYPES = (*RANGES, *FLOATS)
# What a signal may take of its values, and whether it does so over a window of rows.
TAKES = {
    "previous": False, "absolute": False, "difference": False, "rate": False,
    "count": True, "sum": True, "mean": True, "minimum": True, "maximum": True,
}


@dataclass(frozen=True)
class Polynomial:
    """The value c0 + c1 x + .. in units of the column: the coefficients times `under`, as integers."""

    over: tuple[int, ...]
    under: int

    @classmethod
    def of(cls, coefficients: list[Fraction]) -> Polynomial:
        under = lcm(*(it.denominator for it in coefficients))
        return cls(tuple(int(it * under) for it in coefficients), under)

    def at(self, value: Fraction) -> Fraction:
        total = Fraction(0)
        for one in reversed(self.over):
            total = total * value + one
        return total / self.under


@dataclass(frozen=True)
class Points:
    """A line through points: the raw numbers at which pieces begin, the pieces, and the values at both ends."""

    raws: tuple[Fraction, ...]
    pieces: tuple[Polynomial, ...]
    ends: tuple[int, int]
    """The values below the first point and above the last, rounded and in the range of a column."""


@dataclass(frozen=True)
class Bits:
    """Some bits of an integer as a number: `width` of them from `low` on."""

    low: int
    width: int


Conversion = Union[Polynomial, Points, Bits, None]


@dataclass(frozen=True)
class Field:
    """A raw field: its name in telemetry, its member of the struct in C, its type, and its words with their numbers."""

    name: str
    type: str
    names: dict[str, int] = field(default_factory=dict, hash=False)

    @property
    def member(self) -> str:
        found = "".join(letter if letter.isascii() and (letter.isalnum() or letter == "_") else "_" for letter in self.name)
        return f"_{found}" if found[:1].isdigit() else f"{found}_" if found in C_WORDS else found

    @property
    def is_float(self) -> bool:
        return self.type in FLOATS


@dataclass(frozen=True)
class Signal:
    """A column: the field that it comes from with its conversion and what is taken, or the fields that set and clear it."""

    name: str
    line: int
    source: Optional[Field] = None
    conversion: Conversion = None
    scale: Fraction = Fraction(1)
    missing: Optional[int] = None
    take: str = ""
    window: int = 0
    hz: Fraction = Fraction(1)
    wrapped: int = 0
    """The full circle in units of the column, or 0."""
    first: Optional[int] = None
    sets: Optional[Field] = None
    clears: Optional[Field] = None

    @property
    def fields(self) -> list[Field]:
        return [it for it in (self.source, self.sets, self.clears) if it is not None]

    @property
    def is_truth(self) -> bool:
        """Tells whether the column is 0 or 1 in every row."""
        if self.sets:
            return True
        one_bit = isinstance(self.conversion, Bits) and self.conversion.width == 1
        truth = self.source is not None and self.source.type == "bool" and self.conversion is None
        return (one_bit or truth) and self.take in ("", "previous", "absolute", "minimum", "maximum") and not self.wrapped

    @property
    def looks_back(self) -> bool:
        """Tells whether a row that is left out would change the rows after it."""
        return self.take not in ("", "absolute")


@dataclass(frozen=True)
class Signals:
    """The columns of a file, in its order."""

    path: str
    columns: tuple[Signal, ...]

    def by_name(self) -> dict[str, Signal]:
        return {it.name: it for it in self.columns}

    def chosen(self, names: list[str]) -> Signals:
        """Returns the columns of these names, in this order; a KeyError has the first one that no signal makes."""
        found = self.by_name()
        return Signals(self.path, tuple(found[name] for name in names))

    @property
    def fields(self) -> list[Field]:
        """The raw fields in the order of their first use, each once."""
        return list({it.name: it for column in self.columns for it in column.fields}.values())


def saturated(value: int) -> int:
    """Returns the nearest integer that a column can have."""
    return max(LEAST, min(GREATEST, value))
