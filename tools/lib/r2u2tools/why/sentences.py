"""How reasons are said: formulas, words and times as sentences."""

from __future__ import annotations

from itertools import groupby
from typing import Iterator, Sequence

from r2u2tools.common.expressions import COMPARISONS, shortened
from r2u2tools.common.program_text import Bare, Count, ProgramText
from r2u2tools.why.deciding import Cell
from r2u2tools.why.explanation import DENIED, Explanation, Reason
from r2u2tools.why.part_verdicts import FALSE, TRUE, UNKNOWN
from r2u2tools.why.trace_window import Cells

SINGLY, MOST_VALUES, MOST_LEAVES, MOST_RUNS = 4, 4, 8, 6
SAYS = {TRUE: "holds", FALSE: "is false", UNKNOWN: "is open"}


def joined(words: Sequence[str]) -> str:
    return words[0] if len(words) == 1 else f"{', '.join(words[:-1])} and {words[-1]}"


def runs_of(times: Sequence[int]) -> list[tuple[int, int]]:
    """Rising times as pairs of a first and a last one."""
    stretches = groupby(enumerate(times), lambda pair: pair[1] - pair[0])
    runs = [[time for _, time in pairs] for _, pairs in stretches]
    return [(run[0], run[-1]) for run in runs]


def stretch(times: Sequence[int], singly: int = SINGLY) -> str:
    """Rising times, in words: one by one where they are few, else by stretches."""
    if len(times) <= singly:
        return joined([str(time) for time in times])
    runs = runs_of(times)
    texts = [str(first) if first == last else f"{first} to {last}" for first, last in runs[:MOST_RUNS]]
    return joined(texts) if len(runs) <= MOST_RUNS else f"{', '.join(texts)}, and {len(runs) - MOST_RUNS} more stretches"


def span_of(values: Sequence[str]) -> str:
    """The values of a signal: a single one, each where they are few, else from the least to the greatest."""
    if len(set(values)) == 1:
        return values[0]
    if len(values) <= MOST_VALUES:
        return joined(values)
    return f"{min(values, key=int)} to {max(values, key=int)}"


class Sentences:
    """Says reasons over the trace that they speak of."""

    def __init__(self, shown: ProgramText, trace: Cells, timed: bool) -> None:
        self.shown, self.trace = shown, trace
        self.unit = "time" if timed else "row"

    def at(self, times: Sequence[int], unit: str = "") -> str:
        unit = unit or self.unit
        return f"at {unit if len(times) == 1 else unit + 's'} {stretch(times)}"

    def worded(self, ref: str, denied: bool, word: int) -> tuple[str, int]:
        """A formula, or its denial, as the author writes it, and its word; written by neither, as the language spells it."""
        for names in (self.shown.called, self.shown.quoted):
            if (ref, denied) in names:
                return names[ref, denied], word
            if (ref, not denied) in names:
                return names[ref, not denied], DENIED[word]
        return self.shown.text(ref, denied), word

    def values(self, leaf: Reason) -> str:
        """What the signals of a comparison are: where one signal is compared by itself, its values alone."""
        names = self.shown.signals_of(leaf.ref)
        if leaf.ref in names or not names:
            return ""
        texts = [span_of([self.trace.value(name, time) for time in leaf.times]) for name in names]
        if self.shown.nodes[leaf.ref].operands() and names[0] in self.shown.nodes[leaf.ref].operands() and len(names) == 1:
            return f" ({texts[0]})"
        return f" ({'; '.join(f'{name} is {value}' for name, value in zip(names, texts))})"

    def leaf(self, leaf: Reason) -> str:
        text, word = self.worded(leaf.ref, leaf.denied, leaf.word)
        text = shortened(text)
        if word == UNKNOWN:
            return f"waits for {text} {self.within(leaf.times)}" if leaf.cells else f"waits {self.within(leaf.times, 'for')}"
        compared = word == TRUE and any(f" {sign} " in text for sign in COMPARISONS)
        says = "" if compared else f" {SAYS[word]}"
        return f"{text}{says} {self.at(leaf.times)}{self.values(leaf)}"

    def inner(self, reason: Reason) -> str:
        text, word = self.worded(reason.ref, reason.denied, reason.word)
        return f"{shortened(text)} {SAYS[word]} {self.at(reason.times, 'time')}{self.note(reason)}"

    def note(self, reason: Reason) -> str:
        """How many members hold of a quantifier that counts; why a window of the past without rows has its word."""
        if reason.count and len(reason.times) == 1:
            return f": {self.tally(reason.hold, reason.count)}"
        return "" if reason.below else ": no row lies so far back"

    def tally(self, hold: list[Bare], count: Count) -> str:
        """As `2 of 3 hold: x, y; the quantifier takes at least 3`."""
        texts = [shortened(self.worded(ref, denied, TRUE)[0], 30) for ref, denied in hold[:MOST_LEAVES]]
        names = f": {', '.join(texts)}{', ..' * (len(hold) > MOST_LEAVES)}" if texts else ""
        return f"{len(hold)} of {len(count.members)} hold{names}; the quantifier takes {count.wanted()}"

    def line(self, reason: Reason) -> str:
        return self.leaf(reason) if self.shown.is_leaf(reason.ref) else self.inner(reason)

    def tree(self, found: Explanation) -> Iterator[str]:
        """The lines of reasons, each below what it decides; of a leaf that may be otherwise it is said so."""
        left = [(1, reason) for reason in reversed(found.reasons)]
        while left:
            depth, reason = left.pop()
            yield "  " * depth + self.line(reason) + self.spare(reason, found.cells)
            left += [(depth + 1, it) for it in reversed(reason.below)]

    def spare(self, reason: Reason, cells: frozenset[Cell]) -> str:
        if reason.word == UNKNOWN or not reason.cells or not self.shown.is_leaf(reason.ref):
            return ""
        others = sorted({time for _, time in reason.cells - cells})
        if not others:
            return ""
        where = "" if len(reason.times) == 1 else f" {self.at(others)}"
        return f"; were it otherwise{where}, the verdict would be the same"

    def summary(self, found: Explanation) -> str:
        """All that decides a verdict, or that an open one waits for, in one line."""
        if found.word is None:
            return self.waits(found)
        texts = [self.leaf(leaf) for leaf in self.deciding(found)]
        more = f"; and {len(texts) - MOST_LEAVES} more" if len(texts) > MOST_LEAVES else ""
        return "; ".join(texts[:MOST_LEAVES]) + more if texts else "whatever the rows hold"

    def deciding(self, found: Explanation) -> Iterator[Reason]:
        """The leaves at those times at which one of their cells decides the verdict, each once, also where several windows have it."""
        alike: dict[tuple[str, int], list[Reason]] = {}
        for leaf in found.leaves:
            alike.setdefault(self.worded(leaf.ref, leaf.denied, leaf.word), []).append(leaf)
        for leaves in alike.values():
            leaf = leaves[0]
            cells = frozenset(cell for it in leaves for cell in it.cells) & found.cells
            if times := sorted({time for _, time in cells}):
                yield Reason(leaf.ref, leaf.denied, leaf.word, times, cells=cells)

    def waits(self, found: Explanation) -> str:
        """The rows to come that an open verdict waits for, by signal."""
        if found.held:
            text, _ = self.worded(found.held.reason.ref, found.held.reason.denied, UNKNOWN)
            earlier = f"whose verdict of time {found.held.earlier} comes first and {self.rows_to_come(found.held.reason.cells)}"
            return f"waits for {shortened(text)} at time {found.held.time}, {earlier}"
        return self.rows_to_come(found.cells) or self.leaf(found.leaves[0])

    def rows_to_come(self, cells: frozenset[Cell]) -> str:
        times = {name: sorted(at for it, at in cells if it == name) for name in self.shown.signals}
        texts = [f"{name} {self.within(at)}" for name, at in times.items() if at]
        return f"waits for {joined(texts)}" if texts else ""

    def within(self, times: Sequence[int], word: str = "in") -> str:
        return f"{word} {self.unit if len(times) == 1 else self.unit + 's'} {stretch(times, 2)}"

    def first_line(self, found: Explanation, name: str, time: int) -> str:
        """The word, and what decides it."""
        summary = self.summary(found)
        if found.at != time:
            summary = f"its line waits for that of time {found.at}, which {summary}"
        return f"{name} is {found.word or 'open'} at {time}: {summary}"


def no_row(name: str, time: int, rows: int, timed: bool) -> str:
    """What is said of a time past the trace."""
    end = f"ends with {'time' if timed else 'row'} {rows - 1}" if rows else "has no rows"
    return f"{name} is open at {time}: the trace {end}"
