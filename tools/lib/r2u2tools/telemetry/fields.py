"""Fields of telemetry, converted to the Booleans and integers of a trace. Nothing is rounded unless it is asked for."""

from __future__ import annotations

import re
from fractions import Fraction
from typing import Any, Callable, Iterator, Optional

from r2u2tools.common.cli import ToolError
from r2u2tools.telemetry.numbers import exact, factor, rounded
from r2u2tools.telemetry.records import Refused, shown

WHOLE = re.compile(r"[+-]?\d{1,10}", re.ASCII)
HEX = re.compile(r"(?:0[xX])?[0-9a-fA-F]{1,16}", re.ASCII)
NAME = re.compile(r"[^,\"\r\n#]+")
TRUTHS = {"0": "0", "1": "1", "true": "1", "false": "0"}
LEAST, GREATEST = -(1 << 31), (1 << 31) - 1
# Texts of a missing value, in upper or lower case.
MISSING = ("", "nan", "+nan", "-nan", "null", "none", "na", "n/a")
RULES = ("refuse", "hold", "skip")
COMBINED: dict[str, Optional[Callable[[int, int], int]]] = {
    "last": None, "first": lambda one, _: one, "max": max, "min": min, "any": max, "all": min,
}


class Unfit(Exception):
    """Why a field can't be converted."""


def counted(number: int, noun: str) -> str:
    return f"{number} {noun}{'' if number == 1 else 's'}"


def pairs(option: str, given: list[str], sign: str = "=") -> Iterator[tuple[str, str]]:
    """Yields both sides of the sign, for each time that an option was given."""
    for text in given:
        left, found, right = text.partition(sign)
        if not found or not left or not right:
            raise ToolError(f"{option} {text}: not of the form NAME{sign}...")
        yield left.strip(), right.strip()


def maps(given: list[str]) -> dict[str, dict[str, str]]:
    """Returns each column's words with their numbers."""
    found: dict[str, dict[str, str]] = {}
    for name, text in pairs("--map", given):
        kept = found.setdefault(name, {})
        for entry in text.split(","):
            word, sign, number = (part.strip() for part in entry.rpartition(":"))
            if not sign or not word or not WHOLE.fullmatch(number) or not LEAST <= int(number) <= GREATEST:
                raise ToolError(f"--map {name}: {shown(entry)} isn't WORD:NUMBER")
            if kept.setdefault(word, str(int(number))) != str(int(number)):
                raise ToolError(f"--map {name}: {word} has two numbers")
    return found


def within(value: int) -> str:
    if not LEAST <= value <= GREATEST:
        raise Unfit(f"{value} is out of range: a number has 32 bits")
    return str(value)


class Column:
    """One column of the trace: its place in the file, how its fields are converted, and its values so far."""

    def __init__(self, name: str, place: int, kind: Optional[str]) -> None:
        self.name, self.place, self.kind = name, place, kind
        self.scale: Optional[Fraction] = None
        self.words: Optional[dict[str, str]] = None
        self.rounds = self.hex = self.comma = False
        self.missing: Optional[str] = None
        self.combine: Optional[Callable[[int, int], int]] = None
        self.changed = self.lost = 0
        # Whether the source is a dump, where x is no value.
        self.unknown = False
        # The last value, and that of the row which is being filled.
        self.last: Optional[str] = None
        self.now: Optional[str] = None

    def is_missing(self, text: str) -> bool:
        """Returns whether a field has no value by the rule of the column; without a rule an empty one alone has none, and x in a dump."""
        if self.unknown and text == "x":
            return True
        if self.missing is None:
            return not text
        return text.lower() in MISSING and not (self.words and text in self.words)

    def put(self, value: str) -> None:
        """Takes a value: within a row it joins those before, or takes their place."""
        if self.now is None:
            self.now = value
        elif self.combine is None:
            self.lost += 1
            self.now = value
        else:
            self.now = str(self.combine(int(self.now), int(value)))
        self.last = value

    def convert(self, text: str) -> str:
        if self.words is not None:
            if text not in self.words:
                raise Unfit(f"{shown(text)} is in no --map of the column")
            return self.words[text]
        if self.scale is None and self.kind != "bool" and not self.hex and WHOLE.fullmatch(text):
            return within(int(text))
        truth = TRUTHS.get(text.lower()) if self.kind != "int" and self.scale is None else None
        return truth or self.number(text)

    def value(self, text: str) -> Optional[tuple[int, int]]:
        """Returns the number of a field as a quotient, by the notation of the column."""
        if self.hex:
            return (int(text, 16), 1) if HEX.fullmatch(text) else None
        if self.comma:
            return None if "." in text else exact(text.replace(",", "."))
        return exact(text)

    def number(self, text: str) -> str:
        value = self.value(text)
        if value is None:
            truth = self.kind == "int" and text.lower() in ("true", "false")
            raise Unfit(f"{shown(text)} isn't a number" + (": the input is int" if truth else ""))
        over, under = value
        if self.scale is not None:
            over, under = over * self.scale.numerator, under * self.scale.denominator
        whole, rest = divmod(over, under)
        if self.kind == "bool":
            if rest or whole not in (0, 1):
                raise Unfit(f"{text} isn't a Boolean: the input is bool")
        elif rest:
            if not self.rounds:
                by = f" times {self.scale}" if self.scale else ""
                raise Unfit(f"{text}{by} isn't whole: --scale or --round")
            self.changed += 1
            whole = rounded(over, under)
        return within(whole)


class Columns:
    """The columns of the trace, chosen among those of the source."""

    def __init__(self, source: Any, found: Any, signals: Optional[list[Any]]) -> None:
        other = dict(pairs("--rename", found.rename))
        for name in other:
            if name not in getattr(source, "own_names", source.names):
                raise ToolError(f"--rename: no column {shown(name)} (the file has {', '.join(source.names[:20])})")
        self.source = source
        self.line, self.width, self.hold, self.sparse = source.line, len(source.names), found.hold, source.sparse
        self.names = [other.get(name, name) for name in source.names]
        self.time = self.place(found.time, "--time") if found.time else -1
        self.chosen = self.choose(found, signals)
        self.skipped = 0
        self.options(found)

    def place(self, name: str, why: str) -> int:
        count = self.names.count(name)
        if count == 0:
            text = ", ".join(self.names[:20]) + (", ..." if len(self.names) > 20 else "")
            raise Refused(f"line {self.line}: no column {name}, asked for by {why} (it has {text})")
        if count > 1:
            raise Refused(f"line {self.line}: two columns {name}")
        return self.names.index(name)

    def choose(self, found: Any, signals: Optional[list[Any]]) -> list[Column]:
        if signals is not None:
            return [Column(it.name, self.place(it.name, "--spec"), it.kind) for it in signals]
        if found.columns:
            wanted = [name.strip() for name in found.columns.split(",")]
            return [Column(name, self.place(name, "--columns"), None) for name in wanted]
        chosen = [Column(name, k, None) for k, name in enumerate(self.names) if k != self.time]
        for column in chosen:
            if not NAME.fullmatch(column.name):
                where = f"line {self.line}, column {column.place + 1}"
                raise Refused(f"{where}: {shown(column.name)} can't name a column: --rename")
            self.place(column.name, "the trace")
        return chosen

    def options(self, found: Any) -> None:
        by_name = {column.name: column for column in self.chosen}

        def column(option: str, name: str) -> Column:
            if name not in by_name:
                raise ToolError(f"{option}: the trace has no column {name}")
            return by_name[name]

        self.time_scale = Fraction(1)
        for name, text in pairs("--scale", found.scale):
            if name == found.time:
                self.time_scale = factor("--scale", text)
            else:
                column("--scale", name).scale = factor("--scale", text)
        for name, kept in maps(found.map).items():
            column("--map", name).words = kept
            if by_name[name].scale is not None:
                raise ToolError(f"column {name} has both --scale and --map")
        for name in found.round:
            column("--round", name).rounds = True
        for name in found.hex:
            column("--hex", name).hex = True
        for it in self.chosen:
            it.comma = found.decimal_comma
            it.unknown = getattr(self.source, "has_unknown", False)
        self.missing_rules(found.missing, column)
        for name, text in pairs("--within", found.within):
            self.combined(column("--within", name), text)

    def missing_rules(self, given: list[str], column: Callable[[str, str], Column]) -> None:
        """Sets what an empty field becomes: of one column, or of all that have no other rule."""
        own = {name: rule for name, sign, rule in (text.rpartition("=") for text in given) if sign}
        every = [text for text in given if "=" not in text]
        if len(every) > 1:
            raise ToolError("--missing: two rules for all columns")
        for rule in [*own.values(), *every]:
            if rule not in RULES and not WHOLE.fullmatch(rule):
                raise ToolError(f"--missing: {shown(rule)} isn't {', '.join(RULES)} or a number")
        for it in self.chosen:
            it.missing = every[0] if every else it.missing
        for name, rule in own.items():
            column("--missing", name).missing = rule

    def combined(self, column: Column, text: str) -> None:
        if text not in COMBINED:
            raise ToolError(f"--within {column.name}: {shown(text)} isn't {', '.join(COMBINED)}")
        if text in ("any", "all") and column.kind == "int":
            raise ToolError(f"--within {column.name}: {text} is for bool, the input is int")
        column.combine = COMBINED[text]

    def header(self) -> str:
        return "# " + ",".join(column.name for column in self.chosen)

    def refused(self, number: Any, place: int, why: Any) -> Refused:
        where = f"line {number} ({self.names[place]})" if self.sparse else f"line {number}, column {place + 1} ({self.names[place]})"
        return Refused(f"{where}: {why}")

    def skips(self, fields: list[Optional[str]]) -> bool:
        """Returns whether a line is left out, by a rule for fields without a value."""
        for column in self.chosen:
            if column.missing == "skip" and len(fields) == self.width:
                text = fields[column.place]
                if text is not None and column.is_missing(text.strip()):
                    self.skipped += 1
                    return True
        return False

    def begin(self) -> None:
        """Begins a row."""
        for column in self.chosen:
            column.now = None

    def take(self, number: Any, fields: list[Optional[str]]) -> None:
        """Takes the fields of a line into the row that is being filled."""
        if len(fields) != self.width:
            raise Refused(f"line {number}: {len(fields)} fields, where {self.width} columns have names")
        for column in self.chosen:
            text = fields[column.place]
            if text is None:
                continue
            text = text.strip()
            if column.is_missing(text):
                self.without(column, number, text)
                continue
            try:
                column.put(column.convert(text))
            except Unfit as unfit:
                raise self.refused(number, column.place, unfit) from None

    def without(self, column: Column, number: Any, text: str) -> None:
        """Takes a field without a value, by the rule of its column."""
        if column.missing is not None and column.missing not in RULES:
            column.put(str(int(column.missing)))
        elif column.missing == "refuse" or (column.missing is None and not self.hold):
            hint = "" if column.missing else ": --hold takes the last value"
            what = f"{shown(text)} is no value" if text else "an empty field"
            raise self.refused(number, column.place, f"{what}{hint}")

    def values(self, number: Any, held: bool = False) -> Any:
        """Returns the values of the row, or those that hold after it."""
        kept = []
        for column in self.chosen:
            value = column.last if held or column.now is None else column.now
            if value is None:
                if column.missing is None or column.missing in RULES:
                    raise self.refused(number, column.place, f"no value yet: --missing {column.name}=0 gives one, --start begins later")
                value = str(int(column.missing))
            kept.append(value)
        return kept

    def text(self, values: Any) -> str:
        """Returns a row of the trace."""
        return ",".join(values)

    def remarks(self) -> Iterator[str]:
        for column in self.chosen:
            if column.changed:
                yield f"{counted(column.changed, 'value')} of {column.name} {'is' if column.changed == 1 else 'are'} rounded"
            if self.sparse and column.lost:
                yield f"{counted(column.lost, 'value')} of {column.name}: later ones of the same row replace them"
        if self.skipped:
            yield f"{counted(self.skipped, 'line')} left out for fields without a value"
