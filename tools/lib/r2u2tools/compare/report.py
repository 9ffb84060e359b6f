"""A comparison as a text, or as Markdown for a review."""

from __future__ import annotations

from typing import Iterator, Sequence

from r2u2tools.common.tables import in_columns, in_markdown
from r2u2tools.compare.cost_changes import CostChange
from r2u2tools.compare.differences import Comparison, Parting


def signed(number: int) -> str:
    return f"{number:+}" if number else "0"


def cost_rows(changes: Sequence[CostChange]) -> list[tuple[str, ...]]:
    heads = ("cost", "old", "new", "change")
    return [heads, *((it.kind, str(it.old), str(it.new), signed(it.new - it.old)) for it in changes)]


def counted(number: int, word: str) -> str:
    return f"{number} {word}" if number == 1 else f"{number} {word}s"


def same(found: Comparison, name: str) -> str:
    return f"no difference in {counted(found.equal[name], 'verdict')}"


def parts(it: Parting) -> str:
    """Where and how an output parts."""
    unit = "time" if it.trace.timed else "row"
    return f"{it.words[0]} in OLD, {it.words[1]} in NEW at {unit} {it.time} of {it.trace.title}"


def as_text(found: Comparison, changes: Sequence[CostChange]) -> Iterator[str]:
    for name in found.both:
        if name not in found.parted:
            yield f"{name}: {same(found, name)}"
            continue
        it = found.parted[name]
        yield f"{name}: {parts(it)}"
        yield from (f"  {label}: {line}" for label, line in zip(("old", "new"), it.why))
    yield from (f"{name}: in OLD alone" for name in found.removed)
    yield from (f"{name}: in NEW alone" for name in found.added)
    yield from found.notes
    yield ""
    yield from in_columns(cost_rows(changes))


def as_markdown(found: Comparison, changes: Sequence[CostChange], old: str, new: str) -> Iterator[str]:
    yield f"## `{old}` and `{new}`"
    yield ""
    yield f"{counted(len(found.parted), 'output')} of {len(found.both)} differ over {counted(found.traces, 'trace')}."
    yield ""
    rows = [("output", "found"), *((f"`{name}`", summary(found, name)) for name in found.both)]
    rows += [(f"`{name}`", "in OLD alone") for name in found.removed]
    yield from in_markdown([*rows, *((f"`{name}`", "in NEW alone") for name in found.added)])
    for name, it in found.parted.items():
        yield ""
        yield f"### `{name}`"
        yield ""
        yield f"{parts(it)}:"
        yield ""
        yield from (f"- {label}: `{line}`" for label, line in zip(("old", "new"), it.why))
    yield from (f"\n{note}" for note in found.notes)
    yield ""
    yield from in_markdown(cost_rows(changes))


def summary(found: Comparison, name: str) -> str:
    return parts(found.parted[name]) if name in found.parted else same(found, name)
