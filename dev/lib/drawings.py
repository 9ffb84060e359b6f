"""Drawings that explain: each function returns one as the text of an SVG, light or dark as the reader's system is."""

import re
from pathlib import Path
from textwrap import wrap
from typing import Callable, Dict, List
from xml.sax.saxutils import escape

ROOT = Path(__file__).resolve().parent.parent.parent

STYLE = """
    text { font: 14px system-ui, sans-serif; fill: #1f2328; }
    .small { font-size: 12px; fill: #4a525b; }
    .code { font-family: ui-monospace, monospace; font-size: 13px; }
    .ground { fill: #ffffff; }
    .box { fill: #f3f5f8; stroke: #57606a; }
    .main { fill: #dbeafe; stroke: #0550ae; }
    .true { fill: #c6e9cf; stroke: #1a6b33; }
    .false { fill: #ffd7d5; stroke: #a40e26; }
    .line, .frame { stroke: #57606a; fill: none; stroke-width: 1.5; }
    .head { fill: #57606a; }
    @media (prefers-color-scheme: dark) {
      text { fill: #e6edf3; }
      .small { fill: #b1bac4; }
      .ground { fill: #0d1117; }
      .box { fill: #1c2430; stroke: #8b949e; }
      .main { fill: #12304f; stroke: #79c0ff; }
      .true { fill: #12381f; stroke: #56d364; }
      .false { fill: #4c1519; stroke: #ff7b72; }
      .line, .frame { stroke: #8b949e; }
      .head { fill: #8b949e; }
    }
"""


class Drawing:
    """Collects the parts of a picture."""

    def __init__(self, width: int, height: int, title: str):
        self.width, self.height, self.title = width, height, title
        self.parts: List[str] = []

    def text(self, x: float, y: float, text: str, kind: str = "", anchor: str = "middle") -> None:
        words = escape(text).replace("  ", "\u00a0\u00a0")
        self.parts.append(f'<text x="{x}" y="{y}" class="{kind}" text-anchor="{anchor}">{words}</text>')

    def rect(self, x: float, y: float, width: float, height: float, kind: str, corner: int = 4) -> None:
        place = f'x="{x}" y="{y}" width="{width}" height="{height}" rx="{corner}"'
        self.parts.append(f'<rect {place} class="{kind}"/>')

    def box(self, x: float, y: float, width: float, height: float, lines: List[str], kind: str = "box") -> None:
        """A box with its lines in the middle; a line that begins with ` is code, one with . is small."""
        self.rect(x, y, width, height, kind)
        top = y + height / 2 - 9 * (len(lines) - 1) + 5
        for number, line in enumerate(lines):
            style = {"`": "code", ".": "small"}.get(line[:1], "")
            self.text(x + width / 2, top + 18 * number, line[1:] if style else line, style)

    def arrow(self, *points: float) -> None:
        """A line through the points, which are x and y in turn, with a head at the last one."""
        pairs = list(zip(points[::2], points[1::2]))
        line = " ".join(f"{x},{y}" for x, y in pairs)
        self.parts.append(f'<polyline points="{line}" class="line"/>')
        (x0, y0), (x, y) = pairs[-2:]
        dx, dy = (x > x0) - (x < x0), (y > y0) - (y < y0)
        corners = [(x, y), (x - 9 * dx - 4 * dy, y - 9 * dy - 4 * dx), (x - 9 * dx + 4 * dy, y - 9 * dy + 4 * dx)]
        self.parts.append(f'<polygon points="{" ".join(f"{a},{b}" for a, b in corners)}" class="head"/>')

    def svg(self) -> str:
        size = f'viewBox="0 0 {self.width} {self.height}" width="{self.width}" height="{self.height}"'
        head = f'<svg xmlns="http://www.w3.org/2000/svg" {size} role="img">\n  <title>{escape(self.title)}</title>\n'
        ground = f'  <rect width="{self.width}" height="{self.height}" class="ground"/>\n'
        body = "".join(f"  {part}\n" for part in self.parts)
        return f"{head}  <style>{STYLE}  </style>\n{ground}{body}</svg>\n"


def flow() -> Drawing:
    it = Drawing(860, 240, "A specification goes through c2po into a program; r2u2 or the library runs it over rows")
    it.box(10, 50, 150, 60, ["specification", "`F[0,3] grant"])
    it.box(210, 50, 110, 60, ["c2po", ".compiles"], "main")
    it.box(370, 50, 120, 60, ["program file", ".version 2"])
    it.box(370, 160, 120, 60, ["rows", "`1,0"])
    it.box(550, 50, 120, 60, ["r2u2", ".a command"], "main")
    it.box(550, 160, 120, 60, ["library", ".in your program"], "main")
    it.box(720, 105, 130, 60, ["verdicts", "`granted:2,F"])
    it.arrow(160, 80, 210, 80)
    it.arrow(320, 80, 370, 80)
    it.arrow(490, 80, 550, 80)
    it.arrow(490, 190, 550, 190)
    it.arrow(490, 80, 520, 80, 520, 175, 550, 175)
    it.arrow(490, 190, 535, 190, 535, 95, 550, 95)
    it.arrow(670, 80, 695, 80, 695, 125, 720, 125)
    it.arrow(670, 190, 695, 190, 695, 145, 720, 145)
    it.arrow(85, 50, 85, 28, 610, 28, 610, 50)
    it.text(350, 20, "r2u2 --source: no program file", "small")
    return it


def queue() -> Drawing:
    """The queue of F[0,2] p, where p holds at row 4 alone."""
    it = Drawing(720, 250, "The queue of F[0,2] p after rows 3, 4 and 7")
    it.text(10, 22, "F[0,2] p, where p holds in row 4 alone", "code", "start")
    known = {3: "FF", 4: "FFTTT", 7: "FFTTTF"}
    notes = {3: "newest run: F from 0", 4: "slot: ..1 F   newest run: T from 2", 7: "slots: ..1 F, ..4 T   newest run: F from 5"}
    for time in range(8):
        it.text(118 + 34 * time, 48, str(time), "small")
    it.text(10, 48, "time", "small", "start")
    for number, (row, words) in enumerate(known.items()):
        y = 60 + 60 * number
        it.text(10, y + 22, f"after row {row}", "", "start")
        for time in range(8):
            word = words[time] if time < len(words) else ""
            kind = {"T": "true", "F": "false"}.get(word, "box")
            it.rect(102 + 34 * time, y, 32, 32, kind, 2)
            if word:
                it.text(118 + 34 * time, y + 21, word)
        x = 101 + 34 * len(words)
        it.arrow(x, y + 48, x, y + 34)
        it.text(x + 6, y + 48, "frontier", "small", "start")
        it.text(390, y + 21, notes[row], "small", "start")
    return it


def boxes() -> Drawing:
    """p S[2,3] q, where p always holds and q holds at rows 0, 1 and 6."""
    it = Drawing(720, 260, "The boxes of p S[2,3] q after rows 1, 4 and 6")
    it.text(10, 22, "p S[2,3] q, where p always holds", "code", "start")
    it.text(10, 48, "time", "small", "start")
    it.text(10, 78, "q", "code", "start")
    for time in range(10):
        it.text(118 + 34 * time, 48, str(time), "small")
        holds = time in (0, 1, 6)
        it.rect(102 + 34 * time, 60, 32, 28, "true" if holds else "box", 2)
        it.text(118 + 34 * time, 79, "1" if holds else "0")
    now = {1: (2, 4, "one box: 2 to 3 and 3 to 4 are joined"), 4: (2, 4, "the box has begun: true now"), 6: (8, 9, "the old box ended; a new one")}
    for number, (row, (first, last, note)) in enumerate(now.items()):
        y = 104 + 52 * number
        it.text(10, y + 21, f"after row {row}", "", "start")
        it.rect(102 + 34 * first, y, 34 * (last - first + 1) - 2, 30, "main", 2)
        it.text(119 + 17 * (first + last), y + 20, f"{first} to {last}")
        x = 118 + 34 * row
        it.arrow(x, y + 47, x, y + 33)
        it.text(x + 6, y + 47, "now", "small", "start")
        it.text(452, y + 20, note, "small", "start")
    return it


def rooms() -> Drawing:
    """Draws the rooms of crates.txt: the compiler and the monitor meet in the program alone."""
    found: Dict[str, List[str]] = {}
    room = ""
    for line in (ROOT / "crates.txt").read_text(encoding="utf-8").splitlines():
        head = re.match(r"# room (\w+)", line)
        if head:
            room = head[1]
        elif line and not line.startswith("#"):
            found.setdefault(room, []).append(line.partition(":")[0].split()[0])
    it = Drawing(860, 500, "Tests over commands and theorems, over the compiler on the left and the monitor on the right, over the checked program, over the ground")
    # Of each room: its left edge, its width, its top, its height, and how many letters fit on a line.
    places = {
        "tests": (40, 780, 14, 60, 88), "commands": (40, 510, 84, 60, 56), "theorems": (560, 260, 84, 60, 26),
        "compiler": (40, 380, 154, 124, 42), "monitor": (440, 380, 154, 124, 42),
        "program": (200, 460, 300, 84, 50), "ground": (40, 780, 406, 56, 88),
    }
    for name, (x, width, y, high, letters) in places.items():
        lines = ["`" + text for text in wrap("  ".join(found[name]), letters)]
        it.box(x, y, width, high, [name, *lines], "main" if name == "program" else "box")
    it.arrow(230, 278, 330, 300)
    it.arrow(630, 278, 530, 300)
    it.text(430, 486, "A room sees what lies below it, and nothing beside it.", "small")
    return it


def flight() -> Drawing:
    it = Drawing(900, 250, "The library in a flight program: sensors give a row, the monitor reports, the program sends events")
    it.rect(150, 14, 620, 226, "frame", 8)
    it.text(164, 34, "your program, one task: no heap, no file, no system call in the monitor", "small", "start")
    it.box(10, 90, 110, 60, ["sensors"])
    it.box(170, 90, 120, 60, ["row", "`int64_t[2]"])
    it.box(380, 70, 140, 100, ["monitor", "`struct r2u2"], "main")
    it.box(610, 90, 146, 60, ["report", ".output, time, word"])
    it.box(796, 90, 94, 60, ["event"])
    it.box(330, 196, 110, 36, ["`memory[4096]"])
    it.box(452, 196, 150, 36, ["`const program[]"])
    it.arrow(120, 120, 170, 120)
    it.arrow(290, 120, 380, 120)
    it.text(335, 112, "r2u2_row", "code")
    it.arrow(520, 120, 610, 120)
    it.text(565, 112, "r2u2_next", "code")
    it.arrow(756, 120, 796, 120)
    it.arrow(410, 196, 410, 170)
    it.arrow(490, 196, 490, 170)
    return it


DRAWINGS: Dict[str, Callable[[], Drawing]] = {it.__name__: it for it in (flow, queue, boxes, rooms, flight)}
