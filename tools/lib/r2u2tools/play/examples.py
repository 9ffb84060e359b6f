"""The examples and patterns that a page offers: specifications with a trace of the same name."""

import re
from pathlib import Path
from typing import Dict, List

from r2u2tools.common.programs import HOME

FOLDER = HOME / "examples"
GROUPS = {"": "Examples", "patterns": "Patterns", "missions": "Missions"}
LARGEST = 1 << 18


def title(spec: str, name: str) -> str:
    """The first comment of a specification, or its name."""
    found = re.match(r"\s*--\s*(.+)", spec)
    words = found[1].partition(". ")[0].rstrip(".") if found else ""
    return f"{name.replace('_', ' ')}: {words}" if words else name.replace("_", " ")


def examples(folder: Path = FOLDER) -> List[Dict[str, str]]:
    """All that there are, by group; none where they weren't installed."""
    found = []
    for group, label in GROUPS.items():
        for path in sorted((folder / group).glob("*.c2po")):
            trace = path.with_suffix(".csv")
            if trace.is_file() and trace.stat().st_size <= LARGEST:
                spec = path.read_text(encoding="utf-8")
                texts = {"spec": spec, "trace": trace.read_text(encoding="utf-8")}
                found.append({"group": label, "title": title(spec, path.stem), **texts})
    return found
