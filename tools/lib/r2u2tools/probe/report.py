"""What was found of requirements, as tables and lists."""

from __future__ import annotations

from typing import Iterator, Sequence

from r2u2tools.common.expressions import shortened
from r2u2tools.common.tables import in_columns
from r2u2tools.probe.findings import Finding

HEADS = ("requirement", "verdicts", "false", "tried", "noticed", "unused parts", "margins")


def row_of(it: Finding) -> tuple[str, ...]:
    tried = "yes" if it.was_tried() else "no"
    noticed = f"{it.noticed} of {it.mutants}"
    return it.name, str(it.verdicts), str(it.broken), tried, noticed, str(len(it.unused)), str(len(it.margins))


def lines(path: str, findings: Sequence[Finding]) -> Iterator[str]:
    """The table, then a list for each requirement that has something to list."""
    yield from in_columns([HEADS, *map(row_of, findings)])
    for it in findings:
        if found := list(details(path, it)):
            yield ""
            yield f"{it.name}"
            yield from found


def details(path: str, it: Finding) -> Iterator[str]:
    if not it.verdicts:
        yield "  no verdict: the logs are too short, or have no row"
    elif it.tried is False:
        yield "  not tried: the left side never holds"
    for change in it.unnoticed:
        yield f"  {path}:{change.line}:{change.column}: unnoticed: {change.new} in place of {change.old}"
    for part in it.unused:
        yield f"  {path}:{part.line}:{part.column}: never decides: {shortened(part.text)}"
    for limit in it.margins:
        yield f"  {path}:{limit.line}:{limit.column}: {limit.text}: still holds with {limit.holds}, not with {limit.fails}"
