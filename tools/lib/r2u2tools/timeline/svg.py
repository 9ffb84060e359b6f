"""The timeline as one picture, an SVG: a square for each time of a short trace, bars for a long one."""

from __future__ import annotations

from html import escape
from textwrap import wrap
from typing import Any, Callable, Iterator, Optional, Sequence

from r2u2tools.common.cli import plain as printable
from r2u2tools.common.palette import DARK, LIGHT
from r2u2tools.timeline.model import Column, Lane, Model

Word = Optional[str]
# Of a dot the values of the highest and of the lowest rank; None where it has no value.
Ends = tuple[Any, Any]

# How a word is drawn: its short text, the colour of its square and of the text.
LOOKS: dict[Word, tuple[str, str, str]] = {
    "T": ("T", LIGHT["true"], LIGHT["true-ink"]),
    "F": ("F", LIGHT["false"], LIGHT["false-ink"]),
    "inactive": ("–", LIGHT["idle"], LIGHT["idle-ink"]),
    "invalid": ("✗", LIGHT["false"], LIGHT["false-ink"]),
    "verified": ("✓", LIGHT["true"], LIGHT["true-ink"]),
    None: ("?", LIGHT["back"], LIGHT["open-ink"]),
}
MEANINGS: dict[Word, str] = {
    "T": "true",
    "F": "false",
    "inactive": "inactive",
    "invalid": "invalid",
    "verified": "verified",
    None: "undecided",
}
# The word that a dot with several shows: the last of these.
GRAVEST: dict[Word, int] = {word: rank for rank, word in enumerate(("inactive", "T", "verified", None, "F", "invalid"))}
SQUARE, LANE, GAP, EDGE, MARK = 26, 24, 8, 12, 14
LETTER = 7.8
SQUARES, WIDE, NARROWEST, LONGEST = 60, 1100, 8, 24
BACK, INK, FAINT, GRID, PALE, CURVE, MARKS = (LIGHT[name] for name in ("back", "ink", "faint", "mark", "pale", "curve", "mark"))
# The colours of a dark screen in place of those above, by element and attribute. Squares of words keep theirs.
AT_NIGHT = [
    (f'rect[fill="{LIGHT["back"]}"]', f"fill:{DARK['back']}"),
    (f'[fill="{INK}"]', f"fill:{DARK['ink']}"),
    (f'[stroke="{INK}"]', f"stroke:{DARK['ink']}"),
    (f'[fill="{FAINT}"], text[fill="{LIGHT["open-ink"]}"]', f"fill:{DARK['faint']}"),
    (f'[stroke="{FAINT}"]', f"stroke:{DARK['faint']}"),
    (f'[fill="{PALE}"]', f"fill:{DARK['pale']}"),
    (f'path[fill="{CURVE}"]', f"fill:{DARK['curve']};stroke:{DARK['curve']}"),
]
STYLE = "<style>@media (prefers-color-scheme: dark){" + "".join(f"{what}{{{how}}}" for what, how in AT_NIGHT) + "}</style>"


def plain(number: float) -> str:
    """A number as short text, without a needless point."""
    return f"{number:.1f}".removesuffix(".0")


def step_of(times: int, dots: int, apart: int = 64) -> int:
    """The distance of labels on an axis: 1, 2 or 5 with zeros, so that they don't touch."""
    step = 1
    while step * dots / max(times, 1) < apart:
        step = step * 2 if str(step)[0] in "15" else step * 5 // 2
    return step


class Sheet:
    """Shapes and texts, drawn from the top down, over an axis of times."""

    def __init__(self, model: Model) -> None:
        names = [column.name for column in model.columns] + list(model.lanes)
        self.model, self.parts = model, list[str]()
        self.left = EDGE + max([len(name) for name in names] + [4]) * LETTER + GAP
        self.squares = model.times() <= SQUARES
        self.cell = max(SQUARE, widest(model)) if self.squares else WIDE / model.times()
        self.top, self.wide = float(EDGE), 0.0
        # Whether a line goes to a row that isn't shown.
        self.leaves = False

    def add(self, text: str) -> None:
        self.parts.append(text)

    def text(
        self, x: float, y: float, text: str, colour: str, size: int = 12, anchor: str = "start", weight: int = 400
    ) -> None:
        bold = f' font-weight="{weight}"' if weight != 400 else ""
        place = f' text-anchor="{anchor}"' if anchor != "start" else ""
        head = f'<text x="{plain(x)}" y="{plain(y)}" fill="{colour}" font-size="{size}"{place}{bold}>'
        self.add(f"{head}{escape(printable(text))}</text>")

    def rect(self, x: float, y: float, wide: float, high: float, fill: str, more: str = "") -> None:
        self.add(f'<rect x="{plain(x)}" y="{plain(y)}" width="{plain(wide)}" height="{plain(high)}" fill="{fill}"{more}/>')

    def line(self, path: str, colour: str, width: float = 1.0, more: str = "") -> None:
        self.add(f'<path d="{path}" fill="none" stroke="{colour}" stroke-width="{plain(width)}"{more}/>')

    def x(self, time: float) -> float:
        return self.left + (time - self.model.first) * self.cell

    def right(self) -> float:
        return self.x(self.model.last + 1)

    def name(self, name: str) -> None:
        self.text(self.left - GAP, self.top + LANE / 2 + 4, name, INK, anchor="end")

    def title(self, text: str) -> None:
        if text:
            self.text(EDGE, self.top + 14, text, INK, size=14, weight=600)
            self.wide = max(self.wide, EDGE + len(text) * 8.6)
            self.top += 16 + GAP

    def rule(self) -> None:
        self.line(f"M{EDGE} {plain(self.top)}H{plain(self.right())}", GRID)
        self.top += GAP

    def dots(self, runs: Any, rank: Callable[[Any], Any]) -> list[tuple[int, int, Ends]]:
        """Of each dot the values of the highest and of the lowest rank in it, as runs of dots."""
        first, last, cell = self.model.first, self.model.last, self.cell
        ranks: dict[Any, Any] = {}
        most: list[Any] = [None] * WIDE
        least: list[Any] = [None] * WIDE
        for begin, end, value in runs.between(first, last):
            low, mine = int((begin - first) * cell), ranks.get(value)
            if mine is None:
                mine = ranks[value] = rank(value)
            high = min(WIDE, max(low + 1, round((end - first + 1) * cell)))
            for k in range(low, high):
                if most[k] is None:
                    most[k] = least[k] = value
                elif mine > ranks[most[k]]:
                    most[k] = value
                elif mine < ranks[least[k]]:
                    least[k] = value
        return list(joined(list(zip(most, least))))

    def svg(self) -> str:
        width, height = max(self.right(), self.wide) + EDGE, self.top + EDGE
        head = (
            f'<svg xmlns="http://www.w3.org/2000/svg" width="{width:.0f}" height="{height:.0f}" '
            f'viewBox="0 0 {width:.0f} {height:.0f}" font-family="DejaVu Sans, Verdana, sans-serif">'
        )
        back = f'<rect width="{width:.0f}" height="{height:.0f}" rx="6" fill="{BACK}"/>'
        return "\n".join([head, STYLE, back, *self.parts, "</svg>", ""])


def joined(found: Sequence[Ends]) -> Iterator[tuple[int, int, Ends]]:
    """Runs of equal entries: first, one after the last, and the entry."""
    first = 0
    for k in range(1, len(found) + 1):
        if k == len(found) or found[k] != found[first]:
            yield first, k, found[first]
            first = k


def widest(model: Model) -> float:
    """The room that the longest number of a short trace needs."""
    numbers = [column.runs for column in model.columns if column.kind != "bool"]
    texts = [value for runs in numbers for _, _, value in runs.between(model.first, model.last)]
    return max([0] + [min(len(text), LONGEST) * 7.8 + 4 for text in texts])


def draw_level(sheet: Sheet, column: Column) -> None:
    """A column of Booleans, as a line that is high where it is 1."""
    sheet.name(column.name)
    high, low = sheet.top + 5, sheet.top + LANE - 5
    if not sheet.squares:
        return draw_dense_level(sheet, column, high, low)
    path = list[str]()
    for begin, end, value in column.runs.between(sheet.model.first, sheet.model.last):
        y = high if value == "1" else low
        if value == "1":
            sheet.rect(sheet.x(begin), high, (end - begin + 1) * sheet.cell, low - high, PALE)
        path.append(f"{'L' if path else 'M'}{plain(sheet.x(begin))} {plain(y)}H{plain(sheet.x(end + 1))}")
    sheet.line("".join(path) or "M0 0", INK, 1.5)
    sheet.top += LANE + GAP / 2


def draw_dense_level(sheet: Sheet, column: Column, high: float, low: float) -> None:
    """The same of a long trace: a dot with both values is filled."""
    path = list[str]()
    for begin, end, (most, least) in sheet.dots(column.runs, lambda value: value == "1"):
        if most is None:
            continue
        x, on = sheet.left + begin, most == "1"
        if on:
            sheet.rect(x, high, end - begin, low - high, PALE if least == "1" else INK)
        path.append(f"{'L' if path else 'M'}{plain(x)} {plain(high if on else low)}H{plain(x + end - begin)}")
    sheet.line("".join(path) or "M0 0", INK, 1)
    sheet.top += LANE + GAP / 2


def draw_numbers(sheet: Sheet, column: Column) -> None:
    """A column of numbers: as their text, and over a long trace as a curve too."""
    sheet.name(column.name)
    if not sheet.squares:
        draw_curve(sheet, column)
    for begin, end, value in column.runs.between(sheet.model.first, sheet.model.last):
        value = value if len(value) <= LONGEST else value[: LONGEST - 1] + "…"
        if sheet.squares:
            for time in range(begin, end + 1):
                sheet.text(sheet.x(time + 0.5), sheet.top + LANE / 2 + 4, value, INK, 12, "middle")
        elif (end - begin + 1) * sheet.cell > len(value) * 6.6 + 8:
            sheet.text(sheet.x((begin + end + 1) / 2), sheet.top + LANE / 2 + 4, value, INK, 11, "middle")
    sheet.top += LANE + GAP / 2


def number(text: str) -> Optional[float]:
    try:
        return float(text)
    except ValueError:
        return None


def draw_curve(sheet: Sheet, column: Column) -> None:
    """The least and the greatest number of each dot, as a band."""
    shown = {value for _, _, value in column.runs.between(sheet.model.first, sheet.model.last)}
    values = {text: value for text in shown if (value := number(text)) is not None}
    if len(values) < len(shown) or not values:
        return
    least, most = min(values.values()), max(values.values())
    high, low = sheet.top + 2, sheet.top + LANE - 2

    def y(value: float) -> float:
        return low - (value - least) / (most - least or 1) * (low - high)

    upper, lower = list[str](), list[str]()
    for begin, end, kept in sheet.dots(column.runs, values.get):
        if kept[0] is not None:
            left, right = plain(sheet.left + begin), plain(sheet.left + end)
            upper.append(f"{left} {plain(y(values[kept[0]]))}H{right}")
            lower.append(f"{right} {plain(y(values[kept[1]]))}H{left}")
    if upper:
        path = "M" + "L".join(upper + lower[::-1]) + "Z"
        sheet.add(f'<path d="{path}" fill="{CURVE}" stroke="{CURVE}" stroke-width="1"/>')
    for text, place in ((f"{most:g}", high + 7), (f"{least:g}", low)):
        sheet.text(sheet.right() + 4, place, text, FAINT, 9)
        sheet.wide = max(sheet.wide, sheet.right() + 4 + len(text) * 6)


def draw_square(sheet: Sheet, x: float, y: float, word: Word, wide: float) -> None:
    text, fill, ink = LOOKS[word]
    dash = f' stroke="{MARKS}" stroke-dasharray="3 2"' if word is None else ""
    sheet.rect(x + 1, y, wide - 2, LANE, fill, f' rx="3"{dash}')
    if text:
        sheet.text(x + wide / 2, y + LANE / 2 + 4, text, ink, anchor="middle", weight=600)


def draw_lane(sheet: Sheet, lane: Lane) -> None:
    sheet.name(lane.name)
    if sheet.squares:
        for time in range(sheet.model.first, sheet.model.last + 1):
            draw_square(sheet, sheet.x(time), sheet.top, lane.words.at(time), sheet.cell)
    else:
        for begin, end, (most, least) in sheet.dots(lane.words, GRAVEST.get):
            draw_bar(sheet, begin, end, most, least)
    sheet.top += LANE
    draw_marks(sheet, lane)
    sheet.top += GAP


def draw_bar(sheet: Sheet, begin: int, end: int, most: Word, least: Word) -> None:
    """Dots of one word; or of several, of which the gravest is above the least grave."""
    text, fill, ink = LOOKS[most]
    x, wide = sheet.left + begin, end - begin
    dash = f' stroke="{MARKS}" stroke-dasharray="3 2"' if most is None else ""
    sheet.rect(x, sheet.top, wide, LANE, fill, dash)
    if most != least:
        sheet.rect(x, sheet.top + LANE / 2, wide, LANE / 2, LOOKS[least][1])
    elif text and wide > 30:
        sheet.text(x + wide / 2, sheet.top + LANE / 2 + 4, text, ink, anchor="middle", weight=600)


def draw_marks(sheet: Sheet, lane: Lane) -> None:
    """A dot at each row that decided a word, and a line to it from the time of the word."""
    if not len(lane.printed):
        return
    model = sheet.model
    if sheet.cell < NARROWEST:
        delay = lane.delay(model.first, model.last)
        if delay:
            text = f"+{delay[0]}" if delay[0] == delay[1] else f"+{delay[0]} to +{delay[1]}"
            sheet.text(sheet.right() + 4, sheet.top - LANE / 2 + 4, text, FAINT, 10)
            sheet.wide = max(sheet.wide, sheet.right() + 4 + len(text) * 7)
        return
    high, low = sheet.top + 1, sheet.top + MARK - 3
    path, rows = list[str](), set[int]()
    for begin, end, row in lane.printed.between(model.first, model.last):
        for time in range(begin, end + 1):
            sheet.leaves = sheet.leaves or row > model.last
            foot = sheet.x(min(row, model.last + 0.5) + 0.5)
            path.append(f"M{plain(sheet.x(time + 0.5))} {plain(high)}L{plain(foot)} {plain(low)}")
        if row <= model.last:
            rows.add(row)
    sheet.line("".join(path), MARKS, 0.8)
    for row in sorted(rows):
        sheet.add(f'<circle cx="{plain(sheet.x(row + 0.5))}" cy="{plain(low)}" r="2.5" fill="{INK}"/>')
    sheet.top += MARK


def draw_axis(sheet: Sheet) -> None:
    model = sheet.model
    sheet.text(sheet.left - GAP, sheet.top + 8, model.axis(), FAINT, 11, "end")
    step = 1 if sheet.squares else step_of(model.times(), WIDE)
    begin = -(-model.first // step) * step
    for time in range(begin, model.last + 1, step):
        sheet.text(sheet.x(time + 0.5), sheet.top + 8, f"{time:,}", FAINT, 11, "middle")
        if not sheet.squares:
            sheet.line(f"M{plain(sheet.x(time + 0.5))} {plain(sheet.top - 6)}V{plain(sheet.top - 2)}", FAINT)
    draw_stamps(sheet)
    sheet.top += 12 + GAP


def draw_stamps(sheet: Sheet) -> None:
    """A mark under each time that a line of the trace has as its stamp."""
    model = sheet.model
    places = {round(sheet.x(time + 0.5)) for time in model.stamps or [] if model.first <= time <= model.last}
    if places:
        sheet.line("".join(f"M{x} {plain(sheet.top + 12)}v4" for x in sorted(places)), INK, 1.2)


def draw_legend(sheet: Sheet) -> None:
    model, x = sheet.model, float(EDGE)
    printed = {value for lane in model.lanes.values() for _, _, value in lane.words.between(model.first, model.last)}
    if any(lane.words.end() <= model.last for lane in model.lanes.values()):
        printed.add(None)
    for word in (it for it in LOOKS if it in printed):
        draw_square(sheet, x, sheet.top, word, SQUARE)
        sheet.text(x + SQUARE + 4, sheet.top + LANE / 2 + 4, MEANINGS[word], FAINT)
        x += SQUARE + 12 + len(MEANINGS[word]) * 7
    marks = any(len(lane.printed) for lane in model.lanes.values())
    notes = list[str]()
    if marks and sheet.cell >= NARROWEST:
        sheet.add(f'<circle cx="{plain(x + 8)}" cy="{plain(sheet.top + LANE / 2)}" r="2.5" fill="{INK}"/>')
        sheet.text(x + 16, sheet.top + LANE / 2 + 4, f"printed with this {model.axis()}", FAINT)
        x += 24 + 22 * 7
    elif marks:
        notes.append("+: rows until a verdict was printed")
    if sheet.leaves:
        notes.append("a line to the edge: printed later")
    if sheet.cell < 1:
        notes.append(f"a dot is {1 / sheet.cell:,.0f} rows: where their words differ, the gravest is above")
    text = "; ".join(notes)
    if text:
        sheet.text(x + 8, sheet.top + LANE / 2 + 4, text, FAINT, 11)
    sheet.wide = max(sheet.wide, x + len(text) * 6.6)
    sheet.top += LANE
    draw_left_out(sheet)


def draw_left_out(sheet: Sheet) -> None:
    """The names of columns and outputs in which nothing changes, in lines as wide as the picture."""
    most = int((max(sheet.right(), sheet.wide) - EDGE) / 6.6)
    for line in wrap("left out, since unchanging: " + ", ".join(sheet.model.constant), most) if sheet.model.constant else []:
        sheet.text(EDGE, sheet.top + 14, line, FAINT, 11)
        sheet.top += 16


def svg(model: Model) -> str:
    sheet = Sheet(model)
    sheet.title(model.title)
    for column in model.columns:
        (draw_level if column.kind == "bool" else draw_numbers)(sheet, column)
    if model.columns and model.lanes:
        sheet.rule()
    for lane in model.lanes.values():
        draw_lane(sheet, lane)
    draw_axis(sheet)
    draw_legend(sheet)
    return sheet.svg()
