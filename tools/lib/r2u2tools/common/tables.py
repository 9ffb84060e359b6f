"""Rows of words as a table: in columns for a terminal, or in Markdown for a review."""

from __future__ import annotations

from typing import Iterator, Optional, Sequence

Row = Sequence[str]


def in_columns(rows: Sequence[Row], right: Optional[range] = None) -> Iterator[str]:
    """The rows in columns, of which some are flush right, by default all but the first."""
    wide = [max(map(len, column)) for column in zip(*rows)]
    numbers = range(1, len(wide)) if right is None else right
    for row in rows:
        cells = [word.rjust(wide[k]) if k in numbers else word.ljust(wide[k]) for k, word in enumerate(row)]
        yield "  ".join(cells).rstrip()


def in_markdown(rows: Sequence[Row]) -> Iterator[str]:
    """The rows as a table of Markdown; the first one has the heads."""
    head, *rest = rows
    yield line_of(head)
    yield "|---" + "|---:" * (len(head) - 1) + "|"
    yield from map(line_of, rest)


def line_of(row: Row) -> str:
    return f"| {' | '.join(escaped(word) for word in row)} |"


def escaped(word: str) -> str:
    """A word as a cell of Markdown holds it."""
    return word.replace("|", r"\|")
