"""Rows of a trace, out of lines of telemetry: one for each line, or by their times."""

from __future__ import annotations

from fractions import Fraction
from math import ceil
from typing import Any, Iterator, Optional

from r2u2tools.common.cli import ToolError
from r2u2tools.telemetry.fields import Columns, counted
from r2u2tools.telemetry.numbers import factor, fraction
from r2u2tools.common.output import Output
from r2u2tools.telemetry.records import Refused, shown
from r2u2tools.telemetry.times import Clock

LONGEST = 65535
MOST_BETWEEN = 1 << 24
LATEST = 1 << 40
DEFAULT_TIMES = 1 << 24
SNAP = ", --snap from the nearest"
# By default a time may be off by a millionth of a row, for times that were computed in binary.
SNAPPED = Fraction(1, 1_000_000)


def snap_of(text: str) -> Fraction:
    """Returns the seconds of --snap."""
    value = fraction(text)
    if value is None or value < 0:
        raise ToolError(f"--snap: {shown(text)} isn't a number from 0 on")
    return value


class Rows:
    """What makes rows of lines."""

    def __init__(self, columns: Columns, found: Any, clock: Clock, output: Output) -> None:
        raise NotImplementedError

    def take(self, number: Any, fields: list[Optional[str]]) -> None:
        """Takes the fields of a line."""
        raise NotImplementedError

    def end(self) -> None:
        """Writes what is left after the last line."""
        raise NotImplementedError

    def remarks(self) -> Iterator[str]:
        """Returns what is to be said of the rows."""
        raise NotImplementedError


class Plain(Rows):
    """A row for each line."""

    def __init__(self, columns: Columns, _found: Any, _clock: Clock, output: Output) -> None:
        self.columns, self.output = columns, output

    def take(self, number: Any, fields: list[Optional[str]]) -> None:
        if self.columns.skips(fields):
            return
        self.columns.begin()
        self.columns.take(number, fields)
        text = self.columns.text(self.columns.values(number))
        if len(text) > LONGEST:
            raise Refused(f"line {number}: a row of more than {LONGEST} bytes")
        self.output.line(text)

    def end(self) -> None:
        """A row is written when it comes."""

    def remarks(self) -> Iterator[str]:
        return iter(())


class Timed(Rows):
    """Rows by the times of the lines."""

    def __init__(self, columns: Columns, found: Any, clock: Clock, output: Output) -> None:
        self.columns, self.output, self.clock, self.stamps = columns, output, clock, found.stamps
        self.hold = found.hold
        # Whether a row is written only when the next one begins, since further lines may belong to it.
        self.waits = found.hold or columns.sparse or bool(found.within)
        self.rate = factor("--rate", found.rate)
        # How far from a row, in rows, a time may be and still belong to it; times that were, and the furthest.
        self.snaps = found.snap is not None
        self.snap = SNAPPED if found.snap is None else snap_of(found.snap) * self.rate
        self.inexact = self.late = 0
        self.furthest: tuple[Fraction, Any] = (Fraction(0), None)
        self.start: Optional[Fraction] = None
        if found.start is not None:
            self.start = clock.fraction(found.start)
            if self.start is None:
                raise ToolError(f"--start: {shown(found.start)} isn't a number or a date")
        # The row that is being filled, whether it is still to be written, and what holds after it.
        self.row, self.open = -1, False
        self.held: Any = None
        self.time: Optional[tuple[int, int]] = None
        self.line: Any = None
        self.replaced = 0
        self.first_replaced: Any = None
        self.kept_line: Any = None

    def refused(self, number: Any, why: str) -> Refused:
        return self.columns.refused(number, self.columns.time, why)

    def row_of(self, number: Any, text: str) -> int:
        """Returns the row of a line, by its time."""
        time = self.clock.read(text)
        if time is None:
            raise self.refused(number, f"{shown(text)} is no time in seconds")
        over, under = time[0] * self.columns.time_scale.numerator, time[1] * self.columns.time_scale.denominator
        if self.time is not None:
            self.rises(number, text, over * self.time[1] - self.time[0] * under)
        self.start = self.grid(Fraction(over, under)) if self.start is None else self.start
        begin = self.start * self.rate
        first, self.time, self.line = self.time is None, (over, under), number
        over = over * self.rate.numerator * begin.denominator - begin.numerator * under * self.rate.denominator
        under *= self.rate.denominator * begin.denominator
        row = self.in_reach(number, text, self.snapped(number, over, under))
        if first and row > 0:
            raise self.refused(number, "the first time is after --start")
        return row

    def grid(self, time: Fraction) -> Fraction:
        """Returns the time of row 0 for the first time.

        With --snap it is a multiple of the step in reach, with --hold the next one; else it is the time itself.
        """
        row = round(time * self.rate)
        if not (self.hold or self.snaps):
            return time
        if abs(time * self.rate - row) > self.snap:
            if not self.hold:
                return time
            row = ceil(time * self.rate)
        return row / self.rate

    def rises(self, number: Any, text: str, change: int) -> None:
        """Refuses a time that doesn't rise; equal times are one row where further lines of a row are waited for."""
        if change < 0 or change == 0 and not self.waits:
            what = "is before" if change < 0 else "is also"
            raise self.refused(number, f"time has to rise: {shown(text)} {what} that of line {self.line}")

    def snapped(self, number: Any, over: int, under: int) -> Any:
        """Returns the row at a place, or the nearest one where that is close enough; else the place, as a fraction."""
        row = (2 * over + under) // (2 * under)
        off = over - row * under
        if not off:
            return row
        if abs(off) * self.snap.denominator > self.snap.numerator * under:
            return Fraction(over, under)
        self.inexact += 1
        seconds = Fraction(abs(off), under) / self.rate
        if seconds > self.furthest[0]:
            self.furthest = (seconds, number)
        return row

    def in_reach(self, number: Any, text: str, place: Any) -> int:
        """Returns the row of a place, or the next one where the last value is held."""
        if not self.hold and (place < 0 or place != int(place)):
            what = "before --start" if place < 0 else f"between two rows, at {float(place):.17g}"
            raise self.refused(number, f"{shown(text)} is {what}: --hold counts it from the next row on{SNAP * (place > 0)}")
        row: int = max(0, ceil(place))
        if place != row and place > 0:
            self.late += 1
        if row >= LATEST or (not self.stamps and row - self.row > MOST_BETWEEN):
            hint = "" if self.stamps else ": --stamps"
            raise self.refused(number, f"{row - self.row} rows after the line before{hint}")
        return row

    def take(self, number: Any, fields: list[Optional[str]]) -> None:
        """Takes a line into its row; a row before is complete then."""
        if self.columns.skips(fields):
            return
        if len(fields) != self.columns.width:
            self.columns.take(number, fields)
        row = self.row_of(number, (fields[self.columns.time] or "").strip())
        if row == self.row:
            self.joins(number)
        else:
            self.finish(row)
            self.columns.begin()
        self.columns.take(number, fields)
        self.row, self.open, self.kept_line = row, True, number
        if not self.waits:
            self.write()

    def joins(self, number: Any) -> None:
        """A further line of the same row: it is counted where it takes the place of the one before."""
        if not self.waits:
            raise self.refused(number, f"the row of line {self.kept_line} too: --hold takes the later line")
        if not self.columns.sparse and any(column.combine is None for column in self.columns.chosen):
            self.replaced += 1
            self.first_replaced = self.first_replaced or self.kept_line

    def write(self) -> None:
        """Writes the row that is complete, and keeps what holds after it."""
        if not self.open:
            return
        text = self.columns.text(self.columns.values(self.kept_line))
        if len(text) > LONGEST - 16:
            raise Refused(f"line {self.kept_line}: a row of more than {LONGEST} bytes")
        self.output.line(f"@{self.row},{text}" if self.stamps else text)
        self.open, self.held = False, self.columns.values(self.kept_line, True)

    def finish(self, row: int) -> None:
        """Writes all before a row: the filled one, and those between, where its last values hold."""
        self.write()
        if not self.stamps and self.held is not None:
            for _ in range(row - self.row - 1):
                self.output.line(self.columns.text(self.held))

    def end(self) -> None:
        """Writes the last row."""
        self.write()

    def remarks(self) -> Iterator[str]:
        if self.inexact:
            off, line = self.furthest
            verb = "time isn't exactly that of its row" if self.inexact == 1 else "times aren't exactly those of their rows"
            yield f"{self.inexact} {verb}; the furthest is off by {float(off):.3g} s, in line {line}"
        if self.late:
            yield f"{counted(self.late, 'time')} between two rows: {'it counts' if self.late == 1 else 'they count'} from the next row on"
        if self.replaced:
            one = "is in no row, as a later one has it"
            verb = one if self.replaced == 1 else "are in no row, as later ones have theirs"
            yield f"{counted(self.replaced, 'line')} {verb}; the first is line {self.first_replaced}"
        if self.stamps and self.row >= DEFAULT_TIMES:
            yield f"the last time is {self.row}: r2u2 --timed needs --mission-time {self.row + 1}"
