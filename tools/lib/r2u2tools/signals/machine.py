"""Computes rows of columns from rows of raw fields, exactly: the reference for what the C of `signals_c` computes."""

from __future__ import annotations

from collections import deque
from fractions import Fraction
from math import inf
from typing import Callable, Iterator, Mapping, Optional

from r2u2tools.signals.model import Bits, Field, Points, Polynomial, Signal, Signals, saturated
from r2u2tools.signals.raw import Raw, number_of

MOST_COUNTED = (1 << 32) - 1


class Column:
    """One column from row to row. `missing` and `saturated` count rows."""

    def __init__(self, signal: Signal) -> None:
        self.signal = signal
        self.missing = self.saturated = 0
        self.last: Optional[int] = None
        self.window: deque[int] = deque(maxlen=signal.window or 1)
        self.total = 0
        self.extremes: deque[tuple[int, int]] = deque()
        self.row = 0
        # Whether a step of this row has limited its result.
        self.limited = False

    def fit(self, value: int) -> int:
        """Returns a value in the range of a column."""
        found = saturated(value)
        self.limited |= found != value
        return found

    def step(self, raws: Mapping[str, Raw]) -> int:
        """Returns the column's value in the next row."""
        self.limited = False
        if self.signal.sets:
            value = self.latched(raws)
        else:
            value = TAKEN[self.signal.take](self, self.value(raws))
        self.saturated = min(MOST_COUNTED, self.saturated + self.limited)
        self.row += 1
        return value

    def latched(self, raws: Mapping[str, Raw]) -> int:
        fields = (self.signal.sets, self.signal.clears)
        sets, clears = (number_of(raws.get(it.name)) if it else 0 for it in fields)
        self.missing = min(MOST_COUNTED, self.missing + (sets is None or clears is None))
        self.last = 1 if sets else 0 if clears else self.last or 0
        return self.last

    def value(self, raws: Mapping[str, Raw]) -> int:
        """Returns the converted value: without one, that of `missing`, or the last."""
        assert self.signal.source is not None
        raw = number_of(raws.get(self.signal.source.name))
        if raw is None:
            self.missing = min(MOST_COUNTED, self.missing + 1)
            return self.signal.missing if self.signal.missing is not None else self.last or 0
        return self.converted(raw)

    def converted(self, raw: int | float) -> int:
        conversion = self.signal.conversion
        if isinstance(conversion, Bits):
            return self.fit(int(raw) >> conversion.low & (1 << conversion.width) - 1)
        if isinstance(conversion, Points):
            return self.between(raw, conversion)
        return self.calibrated(raw, conversion) if conversion else self.fit(int(raw))

    def calibrated(self, raw: int | float, conversion: Polynomial) -> int:
        if raw in (inf, -inf):
            rises = (conversion.over[-1] > 0) == (raw > 0 or len(conversion.over) % 2 == 1)
            return self.fit(1 << 40 if rises else -(1 << 40))
        return self.fit(round(conversion.at(Fraction(raw))))

    def between(self, raw: int | float, points: Points) -> int:
        """Returns the value of a line through points: outside, that of the nearest end."""
        if raw < points.raws[0] or raw > points.raws[-1]:
            self.limited = True
            return points.ends[raw > points.raws[0]]
        at = max(k for k, it in enumerate(points.raws[:-1]) if it <= raw)
        return self.calibrated(raw, points.pieces[at])

    def circled(self, value: int) -> int:
        """Returns a value on a circle, from minus a half to a half, the upper end not included."""
        full = self.signal.wrapped
        if not full:
            return value
        rest = value % full
        return rest - full if 2 * rest >= full else rest

    def same(self, value: int) -> int:
        self.last = value
        return self.circled(value)

    def previous(self, value: int) -> int:
        first = value if self.signal.first is None else self.signal.first
        before = first if self.row == 0 else self.before()
        self.last = value
        return self.circled(before)

    def before(self) -> int:
        assert self.last is not None
        return self.last

    def absolute(self, value: int) -> int:
        self.last = value
        return self.fit(abs(self.circled(value)))

    def change(self, value: int) -> int:
        change = 0 if self.row == 0 else value - self.before()
        self.last = value
        return self.circled(change)

    def difference(self, value: int) -> int:
        return self.fit(self.change(value))

    def rate(self, value: int) -> int:
        return self.fit(round(self.change(value) * self.signal.hz))

    def summed(self, value: int) -> int:
        """Returns the sum of the window that ends with this value."""
        if len(self.window) == self.window.maxlen:
            self.total -= self.window[0]
        self.window.append(value)
        self.total += value
        return self.total

    def count(self, value: int) -> int:
        self.last = value
        return self.summed(int(value != 0))

    def sum(self, value: int) -> int:
        self.last = value
        return self.fit(self.summed(value))

    def mean(self, value: int) -> int:
        self.last = value
        return round(Fraction(self.summed(value), len(self.window)))

    def extreme(self, value: int, sign: int) -> int:
        """Returns the least value of the window, or the greatest for a sign of -1; each value leaves those behind it that can't be it."""
        self.last = value
        while self.extremes and sign * self.extremes[-1][1] >= sign * value:
            self.extremes.pop()
        self.extremes.append((self.row, value))
        if self.extremes[0][0] <= self.row - self.signal.window:
            self.extremes.popleft()
        return self.extremes[0][1]

    def minimum(self, value: int) -> int:
        return self.extreme(value, 1)

    def maximum(self, value: int) -> int:
        return self.extreme(value, -1)


TAKEN: dict[str, Callable[[Column, int], int]] = {
    "": Column.same, "previous": Column.previous, "absolute": Column.absolute, "difference": Column.difference, "rate": Column.rate,
    "count": Column.count, "sum": Column.sum, "mean": Column.mean, "minimum": Column.minimum, "maximum": Column.maximum,
}


class Machine:
    """All columns of a file, row by row."""

    def __init__(self, signals: Signals) -> None:
        self.columns = [Column(it) for it in signals.columns]
        self.fields: list[Field] = signals.fields

    def row(self, raws: Mapping[str, Raw]) -> list[int]:
        """Returns the next row of columns; a field that isn't there has no value."""
        return [column.step(raws) for column in self.columns]

    def remarks(self) -> Iterator[str]:
        """Yields what was counted."""
        for it in self.columns:
            name = it.signal.name
            if it.missing:
                rule = "is 0" if it.signal.sets else "is that of missing" if it.signal.missing is not None else "is the last one"
                yield f"{it.missing} row{'s' * (it.missing > 1)} of {name} without a value: it {rule}"
            if it.saturated:
                yield f"{it.saturated} row{'s' * (it.saturated > 1)} of {name} out of range: the nearest end is used"
