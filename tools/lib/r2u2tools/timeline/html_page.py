"""The timeline as one page that needs nothing else: its data are in it as runs, packed to few bytes."""

from __future__ import annotations

import json
from array import array
from base64 import b64encode
from bisect import bisect_left, bisect_right
from html import escape
from itertools import chain, compress, islice
from operator import ne, or_, sub
from pathlib import Path
from string import Template
from typing import Any, Iterable, Iterator, Optional

from r2u2tools.common.cli import ToolError, plain
from r2u2tools.common.palette import css
from r2u2tools.common.progress import Progress
from r2u2tools.timeline.model import Column, Lane, Model

PAGE = Path(__file__).resolve().parent / "page.html"
# The groups that end a number, and those after which it goes on.
LAST_GROUPS = [bytes([low]) for low in range(128)]
FIRST_GROUPS = [bytes([low | 128]) for low in range(128)]
MOST_KEPT = 1 << 14
BLOCK = 1 << 16


class PageTemplate(Template):
    """A page with places as @{title}; each is filled once, whatever the texts hold."""

    delimiter = "@"
    idpattern = "(?!)"
    braceidpattern = "[a-z]+"


def code(number: int) -> bytes:
    """A number packed, in groups of 7 bits, the lowest first."""
    out = bytearray()
    while number > 127:
        out.append(number & 127 | 128)
        number >>= 7
    return bytes([*out, number])


class Codes(dict[int, bytes]):
    """Numbers packed by themselves, of which those below a bound are kept."""

    def __missing__(self, number: int) -> bytes:
        found = code(number)
        if number < MOST_KEPT:
            self[number] = found
        return found


def numbered() -> Iterator[bytes]:
    """All numbers packed, from 0 on."""
    yield from LAST_GROUPS
    for high in islice(numbered(), 1, None):
        for low in FIRST_GROUPS:
            yield low + high


def distances(numbers: Any, before: int) -> Iterator[int]:
    """How far each number is after the one before it."""
    return map(sub, numbers, chain([before], numbers))


def encoded(parts: Iterable[bytes]) -> str:
    """Packed numbers, as a text."""
    out, rest = bytearray(), iter(parts)
    while block := b"".join(islice(rest, BLOCK)):
        out += block
    return b64encode(out).decode("ascii")


def packed(runs: Any, first: int, last: int) -> dict[str, Any]:
    """Runs between two times: the values that occur, and for each run its length and the place of its value."""
    lasts, values = runs.within(first, last)
    places: dict[str, bytes] = dict(zip(dict.fromkeys(values), numbered()))
    parts = zip(map(Codes().__getitem__, distances(lasts, first - 1)), map(places.__getitem__, values))
    return {"values": list(places), "runs": encoded(chain.from_iterable(parts))}


def packed_told(lane: Lane, first: int, last: int) -> str:
    """The deciding rows: how often a step is repeated, how many times it decides, and how far after the last of them."""
    lasts, rows = lane.printed.within(first, last)
    lengths, delays = array("q", distances(lasts, first - 1)), array("q", map(sub, rows, lasts))
    if min(delays, default=0) < 0:
        raise ToolError(f"{lane.name} has a line before the row of its time: the output of --ticks hasn't a line with every row")
    changes = map(or_, map(ne, lengths, islice(lengths, 1, None)), map(ne, delays, islice(delays, 1, None)))
    ends = [*changes, True]
    counts = distances(array("Q", compress(range(len(lasts)), ends)), -1)
    steps = zip(counts, compress(lengths, ends), compress(delays, ends))
    return encoded(map(Codes().__getitem__, chain.from_iterable(steps)))


def packed_stamps(model: Model) -> Optional[str]:
    """The distances of stamps."""
    if model.stamps is None:
        return None
    shown = model.stamps[bisect_left(model.stamps, model.first) : bisect_right(model.stamps, model.last)]
    return encoded(map(Codes().__getitem__, distances(shown, model.first)))


def column_data(column: Column, model: Model) -> dict[str, Any]:
    """A column for the page; its runs aren't needed any more."""
    kept = {"name": column.name, "kind": column.kind, **packed(column.runs, model.first, model.last)}
    column.runs = None
    return kept | ({"unit": model.units[column.name]} if column.name in model.units else {})


def lane_data(lane: Lane, model: Model) -> dict[str, Any]:
    """An output for the page; its runs aren't needed any more."""
    kept = {"name": lane.name, **packed(lane.words, model.first, model.last)}
    kept["told"] = packed_told(lane, model.first, model.last)
    lane.words = lane.printed = None
    return kept | ({"text": lane.text} if lane.text else {})


def data(model: Model) -> dict[str, Any]:
    """All that the page shows, lane by lane, so that little is held twice."""
    kept: dict[str, Any] = {"title": plain(model.title), "axis": model.axis(), "first": model.first, "last": model.last}
    kept |= {"stamps": packed_stamps(model), "why": model.why, "rate": model.rate, "constant": model.constant}
    kept |= {"columns": [], "lanes": []}
    progress = Progress()
    for column in model.columns:
        progress.tell(f"packing {column.name}")
        kept["columns"].append(column_data(column, model))
    for lane in model.lanes.values():
        progress.tell(f"packing {lane.name}")
        kept["lanes"].append(lane_data(lane, model))
    progress.done()
    return kept


def html(model: Model) -> str:
    text = json.dumps(data(model), ensure_ascii=True).replace("<", "\\u003c")
    page = PageTemplate(PAGE.read_text(encoding="utf-8"))
    return page.safe_substitute(palette=css(), title=escape(plain(model.title or "timeline")), data=text)
