"""The counts of verdicts as a table for people."""

from __future__ import annotations

from typing import Any, Iterator, Optional

from r2u2tools.common.tables import in_columns
from r2u2tools.common.verdict_lines import WORDS
from r2u2tools.verdicts.counts import NO_VERDICT, Event, Output, Result, Rules

SHOWN = 20


def place(event: Optional[Event], many: bool) -> str:
    if event is None:
        return "-"
    return f"{event.log}: {event}" if many and event.log else str(event)


def events(output: Output, many: bool) -> list[str]:
    """Returns the cells of the stretches of F or invalid: their number, the longest and the last."""
    if output.longest is None:
        return ["-", "-", "-"]
    return [str(output.stretches), str(output.longest.times()), place(output.last, many)]


def cells(output: Output, words: list[str], extra: dict[str, bool], many: bool) -> list[str]:
    """Returns one output as a row of the table."""
    row = [output.name] + [str(output.words.get(word, 0)) if output.words else "-" for word in words]
    first = output.first
    log = f"{first['log']}: " if first and many and first["log"] else ""
    row.append(f"{log}{first['word']} at {first['time']}" if first else "-")
    if extra["events"]:
        row += events(output, many)
    row.append(f"{output.decided} times" if many else f"to {output.decided - 1}" if output.decided else "nothing yet")
    if extra["undecided"]:
        row.append(str(output.undecided) if output.undecided else "-")
    if extra["exercised"]:
        left = output.left
        row.append("-" if left is None else "never" if not left["true"] else f"{left['true']} of {left['of']}")
    if many:
        row.append(f"{output.bad_logs} of {output.logs}")
    return row


def as_table(result: Result, rules: Rules) -> str:
    """Returns the table; it has columns for those words that occur."""
    outputs, many = list(result.outputs.values()), result.logs != 1
    found = {word for output in outputs for word in output.words}
    words = [word for word in WORDS if word in found]
    extra = {
        "events": any(output.stretches for output in outputs),
        "undecided": any(output.undecided for output in outputs),
        "exercised": any(output.left is not None for output in outputs),
    }
    head = ["output", *words, "first F or invalid"]
    head += ["stretches", "longest", "last"] * extra["events"] + ["decided"] + ["undecided"] * extra["undecided"]
    head += ["left side true"] * extra["exercised"] + ["logs with one"] * many
    rows = [head] + [cells(output, words, extra, many) for output in outputs]
    return "\n".join([*in_columns(rows, range(1, len(words) + 1)), *remarks(result, rules)])


def remarks(result: Result, rules: Rules) -> Iterator[str]:
    """Yields what follows the table: no verdict, what was ignored or never tried, which runs failed."""
    nothing = result.empty
    if result.logs == 1 and (nothing or not result.outputs) and not result.failed:
        yield NO_VERDICT
    elif nothing:
        yield f"{NO_VERDICT} in {', '.join(nothing[:SHOWN])}{', ...' if len(nothing) > SHOWN else ''}"
    for output in result.outputs.values():
        if output.name in rules.ignored and rules.finding(output):
            yield f"{output.name} is ignored"
        elif not output.words and not nothing:
            yield f"{output.name} has no verdict"
        if output.never_tried():
            yield f"{output.name} was never tried: its left side was never true"
    if result.logs != 1:
        yield f"{result.logs} logs"
    for fault in result.failed[:SHOWN]:
        yield failure_text(fault)
    if len(result.failed) > SHOWN:
        yield f"{len(result.failed)} runs failed; these are the first {SHOWN}"


def failure_text(fault: dict[str, Any]) -> str:
    where = f"{fault['log']}: " if fault.get("log") else ""
    text = f"{where}failed with {fault['code']}" if fault["code"] is not None else f"{where}failed"
    return f"{text}: {fault['message']}" if fault["message"] else text
