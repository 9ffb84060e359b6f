"""Reads the script of cases: which commands run over which files, and with which statuses they are to end."""

from dataclasses import dataclass
from pathlib import Path
from typing import Dict, Iterator, List, Optional

ROOT = Path(__file__).resolve().parent.parent.parent
SCRIPT = ROOT / "crates/worked_cases/stdin"
# Lines that change the file that was begun.
PIECES = ("|", "+", "hex", "copy")


@dataclass
class Run:
    """A command of a case over files. Its status is none where calls fail in it, where files are cut or have bytes that the
    case doesn't say, or where it isn't to be met."""

    case: str
    line: int
    words: List[str]
    files: Dict[str, bytes]
    status: Optional[int] = 0
    output: bytes = b""


class Reader:
    """What is known after some lines."""

    def __init__(self) -> None:
        self.common: Dict[str, bytes] = {}
        self.own: Dict[str, bytes] = {}
        self.case, self.name = "", ""
        self.plain, self.said = True, True
        self.run: Optional[Run] = None

    def files(self) -> Dict[str, bytes]:
        return self.own if self.case else self.common

    def bytes_of(self, part: str) -> bytes:
        """The bytes that a part of a line says."""
        head, _, rest = part.partition(" ")
        if head == "hex":
            return bytes.fromhex(rest)
        if head == "copy":
            return {**self.common, **self.own}[rest]
        return rest.encode() + (b"" if head == "+" else b"\n")

    def repeated(self, times: int, part: str) -> bytes:
        if "$" not in part:
            return self.bytes_of(part) * times
        pieces = (part.replace("$n", str(n)).replace("$m", str(n + 1)) for n in range(times))
        return b"".join(self.bytes_of(piece) for piece in pieces)

    def changed(self, head: str, rest: str) -> None:
        """Takes a line on a file."""
        first, _, second = rest.partition(" ")
        old = self.files().get(self.name, b"")
        if head == "repeat":
            old += self.repeated(int(first), second)
        elif head == "set":
            old = old[:int(first)] + bytes.fromhex(second) + old[int(first) + 1:]
        elif head == "cut":
            old = old[:int(first)]
        else:
            old += self.bytes_of(f"{head} {rest}")
        self.files()[self.name] = old

    def begun(self, rest: str) -> None:
        self.name, _, part = rest.partition(" ")
        self.files()[self.name] = self.bytes_of(part) if part else b""

    def asked(self, line: int, rest: str) -> None:
        words = ["" if word == '""' else word for word in rest.split()]
        self.run = Run(self.case, line, words, {**self.common, **self.own}, 0 if self.plain and self.said else None)
        self.plain = True

    def wanted(self, run: Run, head: str, rest: str) -> None:
        """Takes a line on what a run is to give."""
        if head.startswith(">"):
            run.output += self.bytes_of(f"{head[1:]} {rest}")
        elif head == "keep":
            self.files()[rest] = run.output
        elif head == "=" and run.status is not None:
            run.status = int(rest)
        elif (head, rest) == ("differs", "output"):
            self.said = False
        elif (head, rest) == ("differs", "status"):
            run.status = None

    def take(self, line: int, text: str) -> None:
        head, _, rest = text.partition(" ")
        if head == "case":
            self.case = rest
        elif head == "file":
            self.begun(rest)
        elif head in ("fail", "each"):
            self.plain = False
        elif head in (*PIECES, "repeat", "set", "cut"):
            self.changed(head, rest)
        elif head == "$":
            self.asked(line, rest)
        elif self.run:
            self.wanted(self.run, head, rest)


def runs(script: str) -> Iterator[Run]:
    """The runs of a script in order."""
    reader = Reader()
    for line, text in enumerate(script.splitlines() + [""], 1):
        before = reader.run
        if text:
            reader.take(line, text)
        else:
            reader.run, reader.case, reader.own, reader.said = None, "", {}, True
        if before and before is not reader.run:
            yield before
