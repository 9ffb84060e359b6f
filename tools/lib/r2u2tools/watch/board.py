"""What is known of each output so far, and the table that shows it."""

import threading
import time
from collections import deque
from dataclasses import dataclass
from typing import Deque, Dict, Iterator, List, Optional, Tuple

from r2u2tools.common.tables import in_columns
from r2u2tools.common.verdict_lines import BAD

HEADS = ("output", "verdict", "at", "behind", "false", "stretches", "last false")
SPAN = 5.0


@dataclass
class Lane:
    """One output: its last verdict and its time, how often it was F or invalid, in how many stretches, and when last."""

    word: str = ""
    time: int = -1
    bad: int = 0
    stretches: int = 0
    last: int = -1


class Board:
    """The outputs in the order of the specification, and the rate of rows."""

    def __init__(self, names: List[str]):
        self.lanes: Dict[str, Lane] = {name: Lane() for name in names}
        self.began = time.monotonic()
        self.seen: Deque[Tuple[float, int]] = deque([(self.began, 0)])
        self.lock = threading.Lock()

    def take(self, name: str, first: int, last: int, word: str) -> bool:
        """Takes a stretch of verdicts; whether a stretch of F or invalid begins with it."""
        with self.lock:
            lane = self.lanes.setdefault(name, Lane())
            begins = word in BAD and lane.word not in BAD
            if word in BAD:
                lane.bad += last - first + 1
                lane.stretches += begins
                lane.last = last
            lane.word, lane.time = word, last
        return begins

    def is_bad(self) -> bool:
        return any(lane.bad for lane in self.lanes.values())

    def rate(self, rows: int) -> float:
        """Rows a second over the last few seconds."""
        now = time.monotonic()
        self.seen.append((now, rows))
        while len(self.seen) > 2 and self.seen[0][0] < now - SPAN:
            self.seen.popleft()
        then, before = self.seen[0]
        passed = now - then
        return (rows - before) / passed if passed > 0 else 0.0

    def head(self, rows: int, rate: Optional[float]) -> str:
        took = int(time.monotonic() - self.began)
        clock = f"{took // 3600}:{took // 60 % 60:02}:{took % 60:02}"
        speed = f", {rate:.3g} a second" if rate is not None else ""
        return f"{rows} row{'' if rows == 1 else 's'}{speed}, {clock}"

    def lines(self, rows: int) -> Iterator[List[str]]:
        with self.lock:
            for name, lane in self.lanes.items():
                at = str(lane.time) if lane.word else "-"
                behind = str(max(0, rows - 1 - lane.time))
                last = str(lane.last) if lane.bad else "-"
                yield [name, lane.word or "?", at, behind, str(lane.bad), str(lane.stretches), last]

    def table(self, rows: int, rate: Optional[float] = None, room: Optional[int] = None, stamped: bool = False) -> List[str]:
        """The table as lines; where the outputs don't all fit, those with F or invalid come first."""
        lines = list(self.lines(rows))
        if stamped:
            lines = [[*line[:3], "", *line[4:]] for line in lines]
        left = 0
        if room is not None and len(lines) > max(1, room - 3):
            lines.sort(key=lambda line: line[4] == "0")
            left = len(lines) - max(1, room - 3)
            lines = lines[: len(lines) - left]
        table = in_columns([HEADS, *lines], range(2, len(HEADS)))
        return [self.head(rows, rate), *table, *[f"and {left} more"] * (left > 0)]
