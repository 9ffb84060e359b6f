"""Where two runs part."""

from __future__ import annotations

from collections import deque
from typing import Iterator

from r2u2tools.common.cli import ToolError, opened
from r2u2tools.common.verdict_lines import Reader

SHOWN = 10


class Compared:
    """One output in both runs: stretches that one has and the other hasn't yet, and where they part."""

    def __init__(self) -> None:
        self.ends, self.ahead = [0, 0], (deque[tuple[int, str]](), deque[tuple[int, str]]())
        self.differ, self.compared = 0, 0
        self.shown: list[tuple[int, int, tuple[str, str]]] = []

    def take(self, side: int, last: int, word: str) -> None:
        """A stretch of one side, up to its last time."""
        self.ends[side] = last + 1
        mine, other = self.ahead[side], self.ahead[1 - side]
        if mine and mine[-1][1] == word:
            mine[-1] = (last, word)
        else:
            mine.append((last, word))
        first = self.compared
        while mine and other:
            last = min(mine[0][0], other[0][0])
            if mine[0][1] != other[0][1]:
                words = (mine[0][1], other[0][1]) if side == 0 else (other[0][1], mine[0][1])
                self.part(first, last, words)
            for queue in (mine, other):
                if queue[0][0] == last:
                    queue.popleft()
            first = self.compared = last + 1

    def part(self, first: int, last: int, words: tuple[str, str]) -> None:
        self.differ += last - first + 1
        if self.shown and self.shown[-1][1] == first - 1 and self.shown[-1][2] == words:
            self.shown[-1] = (self.shown[-1][0], last, words)
        elif len(self.shown) <= SHOWN:
            self.shown.append((first, last, words))


def walk(paths: list[str]) -> dict[str, Compared]:
    """Reads both files side by side, that one first which is behind, so that little is kept."""
    outputs: dict[str, Compared] = {}
    with opened(paths[0]) as one, opened(paths[1]) as two:
        sides = [Reader(str(path)).stretches(file) for path, file in zip(paths, (one, two))]
        told, open_sides = [0, 0], [0, 1]
        while open_sides:
            side = min(open_sides, key=lambda it: told[it])
            try:
                name, first, last, word = next(sides[side])
            except StopIteration:
                open_sides.remove(side)
                continue
            told[side] += last - first + 1
            output = outputs.get(name) or outputs.setdefault(name, Compared())
            output.take(side, last, word)
    return outputs


def stretch(first: int, last: int) -> str:
    return f"at {first}" if first == last else f"at {first} to {last}"


def of_output(name: str, output: Compared, paths: list[str]) -> Iterator[str]:
    """The lines that say where one output parts."""
    for first, last, words in output.shown[:SHOWN]:
        yield f"{name} {stretch(first, last)}: {words[0]} in {paths[0]}, {words[1]} in {paths[1]}"
    if len(output.shown) > SHOWN:
        yield f"{name}: further stretches differ, {output.differ} times in all"
    ends = output.ends
    if ends[0] != ends[1]:
        more = 0 if ends[0] > ends[1] else 1
        here = f"to {ends[more] - 1} in {paths[more]}"
        there = f"to {ends[1 - more] - 1}" if ends[1 - more] else "nowhere"
        yield f"{name} is decided {here}, {there} in {paths[1 - more]}"


def told_diff(lines: str, other: str) -> int:
    """Prints where two files of verdict lines part; 0 where they don't, 1 where they do."""
    if str(lines) == str(other) == "-":
        raise ToolError("one of the two has to be a file")
    paths = [str(lines), str(other)]
    found = [text for name, output in walk(paths).items() for text in of_output(name, output, paths)]
    print("\n".join(found) if found else "both have the same verdicts")
    return 1 if found else 0
