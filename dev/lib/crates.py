"""Reads crates.txt: the crates of the repository, and those below each."""

from pathlib import Path
from typing import Dict, Iterable, Set


def listed(root: Path) -> Dict[str, str]:
    """Returns the lines of crates.txt by the name of their crate, each unchanged."""
    lines = {}
    for line in (root / "crates.txt").read_text().splitlines():
        head, colon, _ = line.partition("#")[0].partition(":")
        if colon:
            lines[head.split()[0]] = line
    return lines


def below(names: Iterable[str], lines: Dict[str, str]) -> Set[str]:
    """Returns these crates and all below them that the repository has."""
    found: Set[str] = set()
    left = list(names)
    while left:
        name = left.pop()
        if name in lines and name not in found:
            found.add(name)
            left += lines[name].partition("#")[0].partition(":")[2].split()
    return found
