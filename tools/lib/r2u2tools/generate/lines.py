"""A body of C that is being written, with the members of the struct and the functions that it uses."""

from __future__ import annotations

import re
from collections import Counter
from pathlib import Path

# A line that does no more than set a local, and the names of locals.
WRITE = re.compile(r" *(?:const )?(?:(?:bool|u?int\d+_t) )?([bfp]\d\w*) = ")
LOCAL = re.compile(r"(?<![\w>])[bfp]\d\w*")

PARTS = Path(__file__).parent / "parts.c"


class Body:
    """Lines of a function over a struct `it`."""

    def __init__(self) -> None:
        self.lines = list[str]()
        self.members = dict[str, str]()
        self.calls = dict[str, None]()

    def add(self, *lines: str) -> None:
        self.lines += lines

    def remark(self, text: str) -> None:
        self.lines.append(f"/* {text} */")

    def member(self, kind: str, name: str, count: int = 0) -> str:
        """A member of the struct, which is declared once."""
        self.members[name] = f"{kind} {name}[{count}];" if count else f"{kind} {name};"
        return f"it->{name}"

    def call(self, name: str, *lines: str) -> None:
        """Lines that call a function of parts.c, or the need for a function."""
        self.calls[name] = None
        self.lines += lines


def pruned(lines: list[str]) -> list[str]:
    """Lines without the locals that nothing reads."""
    writes: dict[str, list[int]] = {}
    reads = Counter[str]()
    for k, line in enumerate(lines):
        found = WRITE.match(line)
        if found:
            writes.setdefault(found[1], []).append(k)
        reads.update(read_by(line))
    left = [name for name in writes if not reads[name]]
    dropped = set[int]()
    while left:
        for k in writes[left.pop()]:
            dropped.add(k)
            for name in read_by(lines[k]):
                reads[name] -= 1
                if not reads[name] and name in writes:
                    left.append(name)
    return [line for k, line in enumerate(lines) if k not in dropped]


def read_by(line: str) -> list[str]:
    """The locals that a line reads."""
    found = WRITE.match(line)
    return LOCAL.findall(line[found.end() :] if found else line) if not line.startswith("/*") else []


def parts() -> dict[str, tuple[list[str], str]]:
    """The functions of parts.c by name: the names of those that each calls, and its text."""
    found = dict[str, tuple[list[str], str]]()
    for part in PARTS.read_text(encoding="ascii").split("/*@ ")[1:]:
        head, text = part.split(" */\n", 1)
        name, *calls = head.split()
        found[name] = (calls, text.strip("\n"))
    return found


def needed(calls: dict[str, None]) -> list[tuple[str, str]]:
    """The parts that some need, in the order of parts.c, by name."""
    known, left, used = parts(), list(calls), set[str]()
    while left:
        name = left.pop()
        if name not in used:
            used.add(name)
            left += known[name][0]
    return [(name, text) for name, (_, text) in known.items() if name in used]


def folded(text: str, width: int = 120) -> list[str]:
    """A line of C cut at commas and operators where it is too long."""
    rest, lines = text, list[str]()
    indent = " " * (len(text) - len(text.lstrip()) + 4)
    while len(rest) > width:
        cut = max((found.end() for found in re.finditer(r", | [|&+] ", rest[:width])), default=0)
        if cut <= len(indent):
            break
        lines.append(rest[:cut].rstrip())
        rest = indent + rest[cut:]
    return [*lines, rest]
