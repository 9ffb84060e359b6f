"""Reads a file of signals. Each fault has its line."""

from __future__ import annotations

import re
import tomllib
from dataclasses import replace
from decimal import Decimal, InvalidOperation
from fractions import Fraction
from typing import Any, Optional, Union

from r2u2tools.common.cli import Trouble, opened
from r2u2tools.signals.checking import Fault
from r2u2tools.signals.model import (
    FLOATS, GREATEST, LEAST, RANGES, TAKES, TYPES, WIDEST, Bits, Conversion, Field, Points, Polynomial, Signal, Signals, saturated,
)

MOST_BYTES = 1 << 20
NAME = re.compile(r"[A-Za-z_][A-Za-z0-9_]*", re.ASCII)
HEADER = re.compile(r"\s*\[\s*(?:\"([^\"]*)\"|'([^']*)'|([\w-]+))\s*\]")
KEY = re.compile(r"\s*(?:\"([^\"]*)\"|'([^']*)'|([\w-]+))\s*[.=]")
LATCH = ("set", "clear")
CALIBRATIONS = ("offset", "polynomial", "points")
NUMBERS = ("scale", *CALIBRATIONS)
KEYS = ("from", "type", *NUMBERS, "bit", "bits", "names", "missing", "take", "window", "hz", "wrapped", "first", *LATCH)
DIGITS, DEGREE, MOST_POINTS, FASTEST = 18, 9, 256, 10**8
WORD = 1 << 32
SAME = Polynomial((0, 1), 1)


class Unfit(Exception):
    """Why a signal can't be taken, and the key at which that is."""

    def __init__(self, why: str, key: str = "") -> None:
        super().__init__(why)
        self.key = key


def lines_of(text: str) -> dict[tuple[str, str], int]:
    """Returns the line of each table, under an empty key, and of each key in it."""
    found: dict[tuple[str, str], int] = {}
    table = ""
    for number, line in enumerate(text.splitlines(), 1):
        if header := HEADER.match(line):
            table = next(it for it in header.groups() if it is not None)
            found.setdefault((table, ""), number)
        elif key := KEY.match(line):
            name = next(it for it in key.groups() if it is not None)
            found.setdefault((table, name) if table else (name, ""), number)
    return found


def number(value: Any, key: str) -> Fraction:
    """Returns a number of the file exactly."""
    if isinstance(value, str) and "/" in value:
        over, _, under = value.partition("/")
        parts = [whole(int(it), key) if re.fullmatch(r"\s*[0-9]{1,18}\s*", it) else 0 for it in (over, under)]
        if not parts[1]:
            raise Unfit(f"{key} = {value!r} isn't a quotient of two numbers", key)
        return Fraction(*parts)
    if isinstance(value, bool) or not isinstance(value, (int, Decimal)):
        raise Unfit(f"{key} has {value!r}, which isn't a number", key)
    if not Decimal(value).is_finite():
        raise Unfit(f"{key} is {value}: a number is needed", key)
    found = Fraction(value)
    if max(abs(found.numerator), found.denominator) >= 10**DIGITS:
        raise Unfit(f"{key}: {value} has more than {DIGITS} digits before or after its point", key)
    return found


def whole(value: Any, key: str, least: int = LEAST, greatest: int = GREATEST) -> int:
    if isinstance(value, bool) or not isinstance(value, int):
        raise Unfit(f"{key} has {value!r}, which isn't an integer", key)
    if not least <= value <= greatest:
        raise Unfit(f"{key} = {value} isn't from {least} to {greatest}", key)
    return value


def split(under: int) -> list[int]:
    """Returns factors of a denominator that have at most 32 bits each; none where there are no such factors."""
    factors, rest, prime = [1], under, 2
    while rest >= WORD and prime < 1 << 12:
        if rest % prime:
            prime += 1
            continue
        rest //= prime
        if factors[-1] * prime < WORD:
            factors[-1] *= prime
        else:
            factors.append(prime)
    return [it for it in (*factors, rest) if it > 1] if rest < WORD else []


class Entry:
    """One table of the file on its way to a signal."""

    def __init__(self, name: str, line: int, keys: dict[str, Any]) -> None:
        self.name, self.line, self.keys = name, line, keys
        self.source: Optional[Field] = None

    def signal(self) -> Signal:
        if not NAME.fullmatch(self.name):
            raise Unfit(f"[{self.name}] can't name a column: letters, digits and _, the first no digit")
        for key in self.keys:
            if key not in KEYS:
                raise Unfit(f"no key {key} (there are {', '.join(KEYS)})", key)
        if "set" in self.keys or "clear" in self.keys:
            return self.latch()
        self.source = self.field()
        if self.keys.get("take", "") not in ("", *TAKES):
            raise Unfit(f"take = {self.keys['take']!r} isn't {', '.join(TAKES)}", "take")
        scale = number(self.keys.get("scale", 1), "scale")
        made = Signal(self.name, self.line, self.source, self.conversion(), scale, take=self.keys.get("take", ""))
        if "missing" in self.keys:
            made = replace(made, missing=whole(self.keys["missing"], "missing"))
        return self.taken(made)

    def latch(self) -> Signal:
        """Returns a signal that `set` makes 1 and `clear` makes 0."""
        other = next((key for key in self.keys if key not in (*LATCH, "type")), "")
        if other:
            raise Unfit(f"{other} is no key of a latch, which has set and clear", other)
        if "set" not in self.keys:
            raise Unfit("a latch needs set", "clear")
        kind = self.kind("bool")
        sets = Field(self.text("set"), kind)
        return Signal(self.name, self.line, sets=sets, clears=Field(self.text("clear"), kind) if "clear" in self.keys else None)

    def text(self, key: str) -> str:
        found = self.keys.get(key)
        if not isinstance(found, str) or not found.strip():
            raise Unfit(f"{key} isn't the name of a field" if key in self.keys else f"no {key}: it names the raw field", key)
        return found.strip()

    def kind(self, default: str) -> str:
        found = self.keys.get("type", default)
        if found not in TYPES:
            raise Unfit(f"type = {found!r} isn't {', '.join(TYPES)}", "type")
        return str(found)

    def field(self) -> Field:
        """Returns the raw field with its type, by default one that fits the conversion."""
        own = [key for key in ("bit", "bits", "names") if key in self.keys]
        if len(own) > 1 or own and any(key in self.keys for key in NUMBERS):
            other = next(key for key in (*own[1:], *NUMBERS) if key in self.keys)
            raise Unfit(f"{own[0]} and {other} exclude each other", other)
        kind = self.kind({"bit": "uint32", "bits": "uint32", "names": "int32"}.get("".join(own), "double"))
        if own and (kind in FLOATS or kind == "bool"):
            raise Unfit(f"{own[0]} needs a type of integers", "type")
        return Field(self.text("from"), kind, self.names())

    def names(self) -> dict[str, int]:
        found = self.keys.get("names", {})
        if not isinstance(found, dict):
            raise Unfit("names has the form { WORD = NUMBER, .. }", "names")
        return {word: whole(value, "names") for word, value in found.items()}

    def conversion(self) -> Conversion:
        if "bit" in self.keys or "bits" in self.keys:
            return self.bits()
        scale = number(self.keys.get("scale", 1), "scale")
        if not scale:
            raise Unfit("scale = 0 leaves nothing", "scale")
        own = [key for key in CALIBRATIONS if key in self.keys]
        if len(own) > 1:
            raise Unfit(f"{own[0]} and {own[1]} exclude each other", own[1])
        if "points" in own:
            return self.points(scale)
        if "polynomial" in own:
            found = self.keys["polynomial"]
            if not isinstance(found, list) or not 2 <= len(found) <= DEGREE + 1:
                raise Unfit(f"polynomial has the form [c0, c1, ..], with 2 to {DEGREE + 1} numbers", "polynomial")
            made = [number(it, "polynomial") * scale for it in found]
            if not made[-1]:
                raise Unfit("polynomial: the last number isn't 0", "polynomial")
            return self.divided(Polynomial.of(made), "polynomial")
        offset = number(self.keys.get("offset", 0), "offset")
        if scale == 1 and not offset and self.source and not self.source.is_float:
            return None
        return self.divided(Polynomial.of([offset * scale, scale]), own[0] if own else "scale")

    def divided(self, made: Polynomial, key: str) -> Polynomial:
        if made.under > 1 and not split(made.under):
            raise Unfit(f"{key}: the quotient has a denominator that isn't a product of numbers below 2^32; use fewer digits", key)
        return made

    def bits(self) -> Bits:
        """Returns the bits of `bit` or of `bits`, whose ends both count."""
        key = "bit" if "bit" in self.keys else "bits"
        ends = self.keys[key] if key == "bits" else [self.keys[key]] * 2
        if not isinstance(ends, list) or len(ends) != 2:
            raise Unfit("bits has the form [LOWEST, HIGHEST]", key)
        most = int(re.sub(r"\D", "", self.source.type)) - 1 if self.source else 0
        low, high = (whole(it, key, 0, most) for it in ends)
        if low > high or high - low > 31:
            raise Unfit(f"bits = [{low}, {high}]: the lowest comes first, and there are at most 32", key)
        return Bits(low, high - low + 1)

    def points(self, scale: Fraction) -> Points:
        """Returns the pieces between points, whose raw numbers rise."""
        found = self.keys["points"]
        if not isinstance(found, list) or not 2 <= len(found) <= MOST_POINTS or any(not isinstance(it, list) or len(it) != 2 for it in found):
            raise Unfit(f"points has the form [[RAW, VALUE], ..], with 2 to {MOST_POINTS} points", "points")
        pairs = [(number(raw, "points"), number(value, "points") * scale) for raw, value in found]
        pieces = []
        for (left, low), (right, high) in zip(pairs, pairs[1:]):
            if left >= right:
                raise Unfit(f"points: the raw number {float(right):g} isn't above {float(left):g}", "points")
            slope = (high - low) / (right - left)
            pieces.append(self.divided(Polynomial.of([low - slope * left, slope]), "points"))
        ends = (saturated(round(pairs[0][1])), saturated(round(pairs[-1][1])))
        return Points(tuple(raw for raw, _ in pairs), tuple(pieces), ends)

    def taken(self, made: Signal) -> Signal:
        """Returns the signal with the keys that belong to what it takes."""
        windowed = TAKES.get(made.take, False)
        for key, fits in (("window", windowed), ("hz", made.take == "rate"), ("first", made.take == "previous"), ("wrapped", not windowed)):
            if key in self.keys and not fits:
                raise Unfit(f"{key} doesn't fit " + (f"take = {made.take!r}" if made.take else "a signal without take"), key)
        if windowed:
            if "window" not in self.keys:
                raise Unfit(f"take = {made.take!r} needs window, a number of rows", "take")
            made = replace(made, window=whole(self.keys["window"], "window", 1, WIDEST))
        if made.take == "rate":
            made = replace(made, hz=self.rate())
        if "first" in self.keys:
            made = replace(made, first=whole(self.keys["first"], "first"))
        return replace(made, wrapped=self.circle()) if "wrapped" in self.keys else made

    def rate(self) -> Fraction:
        if "hz" not in self.keys:
            raise Unfit("take = 'rate' needs hz, the number of rows in a second", "take")
        found = number(self.keys["hz"], "hz")
        if found <= 0 or max(found.numerator, found.denominator) > FASTEST:
            raise Unfit(f"hz isn't a number above 0 whose quotient has at most {len(str(FASTEST)) - 1} digits", "hz")
        return found

    def circle(self) -> int:
        """Returns the full circle in units of the column."""
        found = number(self.keys["wrapped"], "wrapped") * number(self.keys.get("scale", 1), "scale")
        if found.denominator != 1 or not 2 <= found <= GREATEST:
            raise Unfit(f"wrapped times scale is {float(found):g}: an integer from 2 to {GREATEST} is needed", "wrapped")
        return int(found)


def table_of(text: str) -> Union[dict[str, Any], Fault]:
    """Returns the tables of a text, or why it isn't TOML."""
    try:
        return tomllib.loads(text, parse_float=Decimal)
    except (tomllib.TOMLDecodeError, InvalidOperation, RecursionError) as fault:
        found = re.search(r"(.*) \(at line (\d+), column \d+\)", str(fault))
        if found:
            return Fault(int(found[2]), f"not TOML: {found[1][:1].lower()}{found[1][1:]}")
        return Fault(max(1, text.count("\n")), f"not TOML: {str(fault) or 'nested too deeply'}")


def read_text(text: str, path: str = "") -> tuple[Signals, list[Fault]]:
    """Returns the signals of a text that are sound, and the faults of the others."""
    table = table_of(text)
    if isinstance(table, Fault):
        return Signals(path, ()), [table]
    lines = lines_of(text)
    found, faults = [], []
    for name, keys in table.items():
        line = lines.get((name, ""), 1)
        if not isinstance(keys, dict):
            faults.append(Fault(line, f"{name} isn't a table: a column begins with [NAME]"))
            continue
        try:
            found.append(Entry(name, line, keys).signal())
        except Unfit as unfit:
            faults.append(Fault(lines.get((name, unfit.key), line), str(unfit)))
    if not table:
        faults.append(Fault(1, "no signal"))
    return united(path, found, {name: keys for name, keys in table.items() if isinstance(keys, dict)}, faults)


def united(path: str, found: list[Signal], tables: dict[str, dict[str, Any]], faults: list[Fault]) -> tuple[Signals, list[Fault]]:
    """Returns the signals with one type for each field: the one that a signal states, else the default of the first."""
    fields: dict[str, Field] = {}
    stated: dict[str, str] = {}
    for signal in found:
        for it in signal.fields:
            known = fields.setdefault(it.name, it)
            words = {**known.names, **it.names}
            if words != {**it.names, **known.names}:
                faults.append(Fault(signal.line, f"{it.name} has two numbers for one of its names"))
            kind = known.type
            if "type" in tables[signal.name]:
                if stated.setdefault(it.name, it.type) != it.type:
                    faults.append(Fault(signal.line, f"{it.name} has the types {stated[it.name]} and {it.type}"))
                kind = it.type
            fields[it.name] = Field(it.name, kind, words)
    members: dict[str, str] = {}
    for it in fields.values():
        other = members.setdefault(it.member, it.name)
        if other != it.name:
            line = next(signal.line for signal in found if it.name in [one.name for one in signal.fields])
            faults.append(Fault(line, f"the fields {other} and {it.name} have the same name in C, {it.member}"))
    return Signals(path, tuple(with_fields(it, fields, faults) for it in found)), sorted(faults, key=lambda it: it.line)


def with_fields(signal: Signal, fields: dict[str, Field], faults: list[Fault]) -> Signal:
    """Returns a signal with the types that its fields have in the whole file."""
    new = {part: fields[it.name] for part in ("source", "sets", "clears") if (it := getattr(signal, part)) is not None}
    source = new.get("source")
    if source is not None:
        conversion = signal.conversion
        if isinstance(conversion, Bits) and (source.is_float or conversion.low + conversion.width - 1 >= bits_of(source.type)):
            faults.append(Fault(signal.line, f"{source.name} is {source.type}, which hasn't the bits of {signal.name}"))
        if conversion in (None, SAME):
            return replace(signal, **new, conversion=SAME if source.is_float else None)
    return replace(signal, **new)


def bits_of(kind: str) -> int:
    return RANGES[kind][1].bit_length() + (RANGES[kind][0] < 0)


def read(path: str) -> Signals:
    """Returns the signals of a file; Trouble names its first fault."""
    with opened(path) as file:
        raw = file.read(MOST_BYTES + 1)
    if len(raw) > MOST_BYTES:
        raise Trouble(f"{path}: longer than {MOST_BYTES} bytes")
    try:
        text = raw.decode("utf-8-sig")
    except UnicodeDecodeError:
        raise Trouble(f"{path}: not UTF-8") from None
    found, faults = read_text(text, path)
    if faults:
        raise Trouble(f"{path}: line {faults[0].line}: {faults[0].text}")
    return found
