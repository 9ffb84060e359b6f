"""The reasons of a verdict as a page: what is said of it, and the rows around it with the cells that decide it marked."""

from __future__ import annotations

from html import escape
from typing import Optional

from r2u2tools.common.palette import css
from r2u2tools.why.deciding import Cell
from r2u2tools.why.explanation import Explanation
from r2u2tools.why.trace_window import Cells

AROUND, MOST_ROWS = 3, 400
STYLE = """
body { font: 15px/1.5 "DejaVu Sans", Verdana, sans-serif; color: var(--ink); background: var(--back); margin: 2em; }
h1 { font-size: 1.1em; }
pre { background: var(--pale); padding: 1em; overflow-x: auto; }
div { overflow-x: auto; }
table { border-collapse: separate; border-spacing: 2px; }
th { font-weight: 400; text-align: right; padding: 0 .6em; color: var(--faint); position: sticky; left: 0; background: var(--back); }
thead th { position: static; text-align: center; padding: 0; font-size: .8em; }
td { min-width: 1.9em; text-align: center; background: var(--open); color: var(--open-ink); border-radius: 3px; }
td.on { background: var(--idle); color: var(--idle-ink); }
td.marked { outline: 2px solid var(--pick); background: var(--pale); color: var(--ink); font-weight: 600; }
td.none { background: var(--back); outline: 1px dashed var(--grid); }
td.none.marked { outline: 2px dashed var(--pick); }
td.bad { background: var(--false); color: var(--false-ink); }
td.good { background: var(--true); color: var(--true-ink); }
td.open { outline: 2px dashed var(--mark); background: var(--back); }
p { color: var(--faint); }
"""
LOOKS: dict[Optional[str], str] = {"T": "good", "verified": "good", "F": "bad", "invalid": "bad", None: "open"}


def shown_rows(found: Explanation, time: int, trace: Cells) -> range:
    """The rows that the page shows: those of the cells and of the verdict, and a few of the trace around them."""
    times = [at for _, at in found.cells] + [time]
    there = trace.by_time
    low, high = min(times), max(times)
    low -= next((k for k in range(AROUND, 0, -1) if low - k in there), 0)
    high += next((k for k in range(AROUND, 0, -1) if high + k in there), 0)
    return range(low, min(high, low + MOST_ROWS - 1) + 1)


def cell(name: str, kind: str, time: int, trace: Cells, marked: frozenset[Cell]) -> str:
    """A field of the trace; a row to come has a question mark where a verdict waits for it."""
    field = trace.value(name, time) if time in trace.by_time else None
    looks = ["none"] * (field is None) + ["on"] * (field == "1" and kind == "bool") + ["marked"] * ((name, time) in marked)
    return f'<td class="{" ".join(looks)}">{escape(field) if field is not None else "?" * ("marked" in looks)}</td>'


def lane(name: str, cells: list[str]) -> str:
    return f"<tr><th>{escape(name)}</th>{''.join(cells)}</tr>"


def page(lines: list[str], name: str, found: Explanation, time: int, trace: Cells, signals: dict[str, str]) -> str:
    """A page that needs no other file."""
    rows = shown_rows(found, time, trace)
    looks = {time: f'<td class="{LOOKS.get(found.word, "")}">{found.word or "?"}</td>'}
    lanes = [lane(signal, [cell(signal, kind, at, trace, found.cells) for at in rows]) for signal, kind in signals.items()]
    lanes.append(lane(name, [looks.get(at, '<td class="none"></td>') for at in rows]))
    heads = "".join(f"<th>{at}</th>" for at in rows)
    cut = max([at for _, at in found.cells], default=0) > rows[-1]
    return f"""<!DOCTYPE html>
<html lang="en"><meta charset="utf-8"><title>{escape(lines[0][:80])}</title><style>{css()}{STYLE}</style>
<h1>{escape(lines[0])}</h1>
<div><table><thead><tr><th></th>{heads}</tr></thead>
{chr(10).join(lanes)}
</table></div>
<p>{f"The rows up to {rows[-1]}; more cells decide it. " if cut else ""}Marked: the cells that decide it.</p>
<pre>{escape(chr(10).join(lines[1:]))}</pre>
</html>
"""
