"""Files that are written all or none."""

from __future__ import annotations

import os
import tempfile
from pathlib import Path

from r2u2tools.common.cli import told_os


def staged(path: Path, text: str) -> str:
    """Writes a text into a file next to a path, and returns that file's path."""
    number, name = tempfile.mkstemp(prefix=f".{path.name}-", dir=path.parent)
    with os.fdopen(number, "w", encoding="ascii") as file:
        file.write(text)
    mask = os.umask(0)
    os.umask(mask)
    os.chmod(name, 0o666 & ~mask)
    return name


def write_pairs(folder: Path, pairs: list[tuple[str, str, str]]) -> None:
    """Writes a header and a source for each name: into new files first, which then take the place of older ones."""
    made = dict[str, Path]()
    texts = [(folder / (name + ending), text) for name, *both in pairs for ending, text in zip((".h", ".c"), both)]
    try:
        for path, text in texts:
            made[staged(path, text)] = path
        for file, path in made.items():
            os.replace(file, path)
    except OSError as fault:
        raise told_os(path, "write", fault) from None
    finally:
        for file in made:
            if os.path.exists(file):
                os.unlink(file)
