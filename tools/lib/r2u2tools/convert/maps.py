"""Maps of C2PO 3, from the names of signals to columns, as the header of a trace."""

from __future__ import annotations

import re

from r2u2tools.common.cli import ToolError

LINE = re.compile(r"\s*([A-Za-z_]\w*)\s*:\s*([0-9]{1,5})\s*", re.ASCII)
MOST = 65536


def header_of(text: str) -> tuple[str, list[tuple[int, str]]]:
    """Returns the header, and the lines that aren't taken with the reasons; columns without a signal get other names."""
    columns: dict[int, str] = {}
    refused = []
    for number, line in enumerate(text.splitlines(), 1):
        body = line.partition("#")[0].partition("--")[0]
        if not body.strip():
            continue
        found = LINE.fullmatch(body)
        if not found:
            refused.append((number, "it isn't NAME: COLUMN"))
        elif int(found[2]) >= MOST:
            refused.append((number, f"a trace has {MOST} columns"))
        elif int(found[2]) in columns:
            refused.append((number, f"column {found[2]} is that of {columns[int(found[2])]}"))
        elif found[1] in columns.values():
            refused.append((number, f"{found[1]} has a column already"))
        else:
            columns[int(found[2])] = found[1]
    if not columns:
        raise ToolError("no line NAME: COLUMN")
    free = (f"_{k}" for k in range(2 * MOST) if f"_{k}" not in columns.values())
    return "# " + ",".join(columns[k] if k in columns else next(free) for k in range(max(columns) + 1)) + "\n", refused
