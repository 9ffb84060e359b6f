"""The columns of a trace as a file of signals defines them, out of raw fields of telemetry."""

from __future__ import annotations

from typing import Any, Iterator, Mapping, Optional

from r2u2tools.common.cli import ToolError
from r2u2tools.signals import Machine, Signals, check
from r2u2tools.signals.model import Field
from r2u2tools.signals.raw import Raw, raw_of
from r2u2tools.telemetry.fields import Column, Columns


class RawColumn(Column):
    """A raw field: its place in the file, and its last number. A field without a value is for the signals to judge."""

    last: Any

    def __init__(self, field: Field, place: int) -> None:
        super().__init__(field.name, place, None)
        self.field = field

    def is_missing(self, _text: str) -> bool:
        return False

    def convert(self, text: str) -> Any:
        return None if self.unknown and text == "x" else raw_of(text, self.field)


class SignalColumns(Columns):
    """Raw fields of the source, and the columns that signals make of them row by row."""

    def __init__(self, source: Any, found: Any, signals: Signals) -> None:
        self.signals, self.machine = signals, Machine(signals)
        super().__init__(source, found, None)

    def choose(self, _found: Any, _inputs: Optional[list[Any]]) -> list[Column]:
        return [RawColumn(it, self.place(it.name, self.signals.path)) for it in self.signals.fields]

    def header(self) -> str:
        return "# " + ",".join(it.name for it in self.signals.columns)

    def values(self, _number: Any, _held: bool = False) -> Mapping[str, Raw]:
        """Returns the raw numbers of the row."""
        found: dict[str, Any] = {it.name: it.last for it in self.chosen}
        return found

    def text(self, values: Any) -> str:
        """Returns the next row of the trace: each call is one row of every window."""
        return ",".join(map(str, self.machine.row(values)))

    def remarks(self) -> Iterator[str]:
        yield from super().remarks()
        yield from self.machine.remarks()


def chosen_signals(signals: Signals, inputs: Optional[list[Any]], columns: Optional[str]) -> Signals:
    """Returns the signals that make the inputs of a specification, or the columns of --columns, in their order."""
    if inputs is not None:
        faults = [it for it in check([(it.name, it.kind, 0) for it in inputs], signals) if not it.text.startswith("no column needs")]
        if faults:
            where = "" if faults[0].in_spec else f"line {faults[0].line}: "
            raise ToolError(f"{signals.path}: {where}{faults[0].text}")
        return signals.chosen([it.name for it in inputs])
    try:
        return signals.chosen([it.strip() for it in columns.split(",")]) if columns else signals
    except KeyError as fault:
        raise ToolError(f"{signals.path}: no signal makes the column {fault.args[0]}") from None
