"""Writes signals as C99: the struct of raw fields, the state, and one function that computes a row.

The C has no arithmetic on floating-point numbers: the bits of a double become an integer times a power of two, and
from there on all is integers, in as many words of 32 bits as the signal can need. `machine` computes the same.
"""

from __future__ import annotations

import struct
from dataclasses import dataclass, field
from fractions import Fraction
from math import ceil, floor
from typing import Iterator

from r2u2tools.signals import c_text
from r2u2tools.signals.model import Bits, Field, Points, Polynomial, Signal, Signals
from r2u2tools.signals.raw import single
from r2u2tools.signals.reading import split

# Of a binary type: bits of its fraction, its least exponent, and one above its greatest.
FORMATS = {"float": (24, -149, 128), "double": (53, -1074, 1024)}


def words_of(value: int, size: int) -> str:
    """Returns an integer as words of 32 bits, the lowest first, in two's complement."""
    return ", ".join(f"0x{value >> 32 * k & 0xFFFFFFFF:x}u" for k in range(size))


def signed_bits(value: int) -> int:
    """Returns how many bits an integer has in two's complement."""
    return (value if value >= 0 else ~value).bit_length() + 1


@dataclass
class Unit:
    """The C of one file on its way: lines of the state, constants and functions, and which helpers they call."""

    prefix: str
    state: list[str] = field(default_factory=list)
    functions: list[str] = field(default_factory=list)
    helpers: set[str] = field(default_factory=set)

    def use(self, name: str) -> str:
        """Returns the name of a helper, which will be written."""
        self.helpers.add(name)
        return name


class Calibration:
    """The C that rounds a polynomial of a raw number: words for the numerator, and the constants."""

    def __init__(self, unit: Unit, made: Polynomial, kind: str) -> None:
        self.unit, self.kind = unit, kind
        # Twice the polynomial, so that a half is an integer.
        self.over, self.under = [2 * it for it in made.over], made.under
        self.degree = len(made.over) - 1
        fraction, lowest, highest = FORMATS.get(kind, (64, 0, 64))
        self.limit = highest
        if kind not in FORMATS:
            bits = max(signed_bits(one) + 64 * k for k, one in enumerate(self.over)) + self.degree + 2
        elif self.degree == 1:
            self.limit = min(highest, self.reach())
            bits = max(signed_bits(self.over[1]) + max(64, self.limit + 1), signed_bits(self.over[0])) + 2
        else:
            low = max(signed_bits(one) + fraction * k - lowest * (self.degree - k) for k, one in enumerate(self.over))
            high = max(signed_bits(one) + highest * k for k, one in enumerate(self.over))
            bits = max(low, high) + self.degree + 2
        self.size = max(2, (bits + 31) // 32)

    def reach(self) -> int:
        """Returns the number of bits from which on each number of that size saturates."""
        least = ((1 << 33) * self.under + abs(self.over[0])) // abs(self.over[1]) + 1
        return least.bit_length() + 1

    def lines(self, raw: str) -> Iterator[str]:
        """Yields statements that set `value` and `limited` by the number `raw`, which is no NaN."""
        factors = split(self.under) if self.under > 1 else []
        narrow = max((signed_bits(one) + 31) // 32 for one in self.over)
        name = self.unit.use("linear" if self.degree == 1 and self.kind in FORMATS else "polynomial")
        divisors = "divisors" if factors else "0"
        if factors:
            yield f"    static const uint32_t divisors[] = {{{', '.join(f'{it}u' for it in factors)}}};"
        yield f"    static const uint32_t over[] = {{{', '.join(words_of(one, narrow) for one in self.over)}}};"
        yield f"    const struct calibration made = {{over, {narrow}, {self.degree}, {self.size}, {self.limit}, {'true' if self.over[-1] > 0 else 'false'}, {divisors}, {len(factors)}}};"
        yield f"    uint32_t sum[{self.size}], product[{self.size}];"
        yield f"    value = {name}(&made, {raw}, sum, product, &limited);"


def decoded(unit: Unit, it: Field) -> str:
    """Returns the raw number of a field as an expression of a struct number."""
    member = f"raw->{it.member}"
    if it.is_float:
        return f"{unit.use('of_' + it.type)}({member})"
    if it.type.startswith("int"):
        return f"{unit.use('of_signed')}({member})"
    return f"{unit.use('of_unsigned')}({member})"


def truth(unit: Unit, it: Field) -> tuple[str, str]:
    """Returns expressions that tell whether a field of a latch is set, and whether it has no value."""
    member = f"raw->{it.member}"
    if not it.is_float:
        return (member if it.type == "bool" else f"{member} != 0"), "false"
    bits = f"{unit.use('bits_of_' + it.type)}({member})"
    width = {"float": 32, "double": 64}[it.type]
    infinite = "0xff000000u" if width == 32 else "UINT64_C(0xffe0000000000000)"
    doubled = f"(uint{width}_t)({bits} << 1)"
    return f"({doubled} != 0 && {doubled} <= {infinite})", f"{doubled} > {infinite}"


def clamped(unit: Unit, it: Field) -> str:
    """Returns an integer field as an integer of 32 bits."""
    member = f"raw->{it.member}"
    if it.type == "bool":
        return f"{member} ? 1 : 0"
    if it.type in ("int8", "int16", "int32", "uint8", "uint16"):
        return member
    if it.type == "int64":
        return f"{unit.use('fit')}({member}, &limited)"
    return f"{unit.use('fit_unsigned')}({member}, &limited)"


def place_of(value: Fraction, kind: str, up: bool) -> int:
    """Returns the place, in the order of all numbers of a type, of the nearest number that isn't below a bound, or isn't above it."""
    if kind not in FORMATS:
        return ceil(value) if up else floor(value)
    found = value.numerator / value.denominator if kind == "double" else single(value, value < 0)
    form, bits = ("<f", 32) if kind == "float" else ("<d", 64)
    packed = int.from_bytes(struct.pack(form, found), "little")
    size = packed & ((1 << (bits - 1)) - 1)
    place = -size if packed >> (bits - 1) else size
    return place + (found < value) if up else place - (found > value)


class ColumnWriter:
    """Writes one column as a function of C."""

    def __init__(self, unit: Unit, signal: Signal, k: int) -> None:
        self.unit, self.signal, self.k = unit, signal, k
        self.state = f"state->of_{signal.name}"

    def write(self) -> None:
        if self.signal.sets:
            self.latch(self.signal.sets)
            return
        assert self.signal.source is not None
        members = ["int32_t last;"]
        parts = [self.head(), "    bool limited = false;", "    int32_t value;"]
        if self.signal.source.is_float:
            parts.append(f"    const struct number number = {decoded(self.unit, self.signal.source)};")
            parts.append("    if (number.kind == NO_NUMBER) {")
            parts.append(f"        value = {self.signal.missing if self.signal.missing is not None else self.state + '.last'};".replace("-2147483648", "INT32_MIN"))
            parts.append(f"        {self.unit.use('counted')}(&state->missing[{self.k}]);")
            parts += ["    } else {", *(f"    {line}" for line in self.conversion()), "    }"]
        else:
            parts += self.conversion()
        parts += self.taken(members)
        parts += [f"    if (limited) {self.unit.use('counted')}(&state->saturated[{self.k}]);", "    return value;", "}"]
        self.unit.functions.append("\n".join(parts))
        self.unit.state.append(f"    struct {{ {' '.join(members)} }} of_{self.signal.name};")

    def head(self) -> str:
        name = f"{self.unit.prefix}_signals"
        return f"static int32_t column_{self.signal.name}(struct {name} *state, const struct {self.unit.prefix}_raw *raw)\n{{"

    def latch(self, sets: Field) -> None:
        one, lost = truth(self.unit, sets)
        other, missing = truth(self.unit, self.signal.clears) if self.signal.clears else ("false", "false")
        lines = [self.head()]
        if (lost, missing) != ("false", "false"):
            both = " || ".join(it for it in (lost, missing) if it != "false")
            lines.append(f"    if ({both}) {self.unit.use('counted')}(&state->missing[{self.k}]);")
        lines.append(f"    if ({one}) {self.state}.last = 1;")
        if self.signal.clears:
            lines.append(f"    else if ({other}) {self.state}.last = 0;")
        lines += [f"    return {self.state}.last;", "}"]
        self.unit.functions.append("\n".join(lines))
        self.unit.state.append(f"    struct {{ int32_t last; }} of_{self.signal.name};")

    def conversion(self) -> list[str]:
        """Returns statements that set `value` by the raw field."""
        source, conversion = self.signal.source, self.signal.conversion
        assert source is not None
        if isinstance(conversion, Bits):
            bits = f"(uint32_t)((uint64_t)raw->{source.member} >> {conversion.low}) & 0x{(1 << conversion.width) - 1:x}u"
            return [f"    value = {self.unit.use('fit_unsigned')}({bits}, &limited);"]
        if conversion is None:
            return [f"    value = {clamped(self.unit, source)};"]
        raw = "number" if source.is_float else decoded(self.unit, source)
        if isinstance(conversion, Points):
            return self.points(conversion, raw, source.type)
        return list(Calibration(self.unit, conversion, source.type).lines(raw))

    def points(self, points: Points, raw: str, kind: str) -> list[str]:
        """Returns statements that find the piece of a raw number by its place among all numbers of its type."""
        wide = "uint64" if kind == "uint64" else "int64"
        order = f"{self.unit.use('place_of_' + kind)}(raw->{self.member})" if kind in FORMATS else f"({wide}_t)raw->{self.member}"
        lines = [f"    const {wide}_t place = {order};"]
        ends = [place_of(points.raws[0], kind, True), place_of(points.raws[-1], kind, False)]
        least, greatest = (0, (1 << 64) - 1) if kind == "uint64" else (-(1 << 63), (1 << 63) - 1)
        # Each piece with its test: those that no number of the type reaches are left out.
        pieces: list[tuple[str, list[str]]] = []
        for sign, end, value in (("<", ends[0], points.ends[0]), (">", ends[1], points.ends[1])):
            if least < end if sign == "<" else end < greatest:
                test = f"place {sign} {constant(max(least, min(greatest, end)), wide)}"
                pieces.append((test, [f"    value = {c_int(value)};", "    limited = true;"]))
        for k, piece in enumerate(points.pieces):
            until = greatest + 1 if k == len(points.pieces) - 1 else place_of(points.raws[k + 1], kind, True)
            if until > least:
                pieces.append((f"place < {constant(until, wide)}" if until <= greatest else "", list(Calibration(self.unit, piece, kind).lines(raw))))
            if until > greatest:
                break
        for k, (test, body) in enumerate(pieces):
            head = f"if ({test}) {{" if test else "{"
            lines += [f"    {'} else ' if k else ''}{head}", *(f"    {it}" for it in body)]
        return [*lines, "    }"]

    @property
    def member(self) -> str:
        assert self.signal.source is not None
        return self.signal.source.member

    def circled(self, value: str) -> str:
        return f"{self.unit.use('circled')}({value}, {self.signal.wrapped})" if self.signal.wrapped else value

    def taken(self, members: list[str]) -> list[str]:
        """Returns statements that take of `value`, and the members of the state that they need."""
        take, last = self.signal.take, f"{self.state}.last"
        if take == "":
            return [f"    {last} = value;", *([f"    value = (int32_t){self.circled('value')};"] if self.signal.wrapped else [])]
        if take == "absolute":
            inside = self.circled("value")
            return [f"    {last} = value;", f"    value = {self.unit.use('fit')}({self.unit.use('absolute')}({inside}), &limited);"]
        if take == "previous":
            first = "value" if self.signal.first is None else c_int(self.signal.first)
            before = f"state->started ? {last} : {first}"
            return ["    {", f"        const int32_t before = {before};", f"        {last} = value;", f"        value = (int32_t){self.circled('before')};", "    }"]
        if take in ("difference", "rate"):
            return self.change(last)
        return [f"    {last} = value;", *self.windowed(members)]

    def change(self, last: str) -> list[str]:
        hz = self.signal.hz
        change = "change" if self.signal.take == "difference" else f"{self.unit.use('rounded')}(change * {hz.numerator}, {hz.denominator})"
        return [
            "    {", f"        int64_t change = state->started ? (int64_t)value - {last} : 0;",
            *([f"        change = {self.circled('change')};"] if self.signal.wrapped else []),
            f"        {last} = value;", f"        value = {self.unit.use('fit')}({change}, &limited);", "    }",
        ]

    def windowed(self, members: list[str]) -> list[str]:
        """Returns statements over a ring of the window's values."""
        take, size = self.signal.take, self.signal.window
        members.append("uint32_t at;")
        ring, at = f"{self.state}.ring", f"{self.state}.at"
        if take in ("minimum", "maximum"):
            members.append(f"uint32_t tree[{2 * size}];")
            return [f"    value = {self.unit.use('extreme')}({self.state}.tree, &{at}, {size}u, value, {'true' if take == 'maximum' else 'false'});"]
        if take == "count":
            members += [f"uint32_t ring[{(size + 31) // 32}];", "uint32_t total;"]
            return [f"    value = {self.unit.use('count')}({ring}, &{at}, {size}u, &{self.state}.total, value != 0);"]
        members += [f"int32_t ring[{size}];", "int64_t total;"]
        if take == "mean":
            members.append("uint32_t filled;")
        lines = [f"    {self.unit.use('summed')}({ring}, &{at}, {size}u, &{self.state}.total, value);"]
        if take == "sum":
            return [*lines, f"    value = {self.unit.use('fit')}({self.state}.total, &limited);"]
        filled = f"{self.state}.filled"
        return [*lines, f"    if ({filled} < {size}u) {filled}++;", f"    value = (int32_t){self.unit.use('rounded')}({self.state}.total, {filled});"]


def c_int(value: int) -> str:
    return "INT32_MIN" if value == -(1 << 31) else str(value)


def constant(value: int, wide: str) -> str:
    if wide == "uint64":
        return f"UINT64_C({value})"
    return "INT64_MIN" if value == -(1 << 63) else f"INT64_C({value})"


def emit(signals: Signals, prefix: str) -> tuple[str, str]:
    """Returns the header PREFIX_signals.h and the source PREFIX_signals.c.

    They declare `struct PREFIX_raw`, `struct PREFIX_signals`, of which zeros are the state before row 0, and
    `PREFIX_signals`, which computes the columns in the order of `signals`.
    """
    unit = Unit(prefix)
    for k, signal in enumerate(signals.columns):
        ColumnWriter(unit, signal, k).write()
    return c_text.header(signals, unit.prefix, unit.state), c_text.source(signals, unit.prefix, unit.functions, unit.helpers)
