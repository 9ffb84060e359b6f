"""Formulas that are tried over logs: whether r2u2 finds one false somewhere."""

from __future__ import annotations

import re
import subprocess
from dataclasses import dataclass, field
from pathlib import Path
from typing import Iterator, Optional, Sequence

from r2u2tools.common.cli import ToolError, opened
from r2u2tools.common.compiled import text_of
from r2u2tools.common.programs import message, program, ran
from r2u2tools.common.streams import lines_of
from r2u2tools.common.traces import LONGEST

REFUSED = re.compile(r"c2po: line (\d+): (.*)")
FALSE_LINE = re.compile(rb"(?m)^(\d+):\d+,F\r?$")
TOO_LARGE = ("expansion too large", "too many", "out of memory")
HEAD_ROWS, MOST_TRIALS, MOST_LETTERS, BLOCK = 1000, 64, 40_000, 1 << 18


@dataclass(frozen=True)
class Trial:
    """A formula, with the definitions that it needs in addition to those of the specification."""

    section: str
    formula: str
    definitions: str = ""

    def line(self) -> str:
        return f"{self.definitions} {self.section} {self.formula};"


@dataclass
class Trials:
    """Tries formulas over the same logs: first over the head of each, as most are false there already."""

    head: str
    logs: Sequence[str]
    timed: bool
    folder: Path
    heads: list[str] = field(default_factory=list)
    # Which formulas of a batch the program has that was compiled last.
    compiled: tuple[int, ...] = ()

    def __post_init__(self) -> None:
        for number, log in enumerate(self.logs):
            path = Path(self.folder, f"head{number}.csv")
            if begin(log, path):
                self.heads.append(str(path))

    def false(self, trials: Sequence[Trial]) -> list[Optional[bool]]:
        """Whether each formula is false somewhere; None where c2po refuses it."""
        found: list[Optional[bool]] = [False] * len(trials)
        for batch in batches(trials):
            self.batch(trials, batch, found)
        return found

    def batch(self, trials: Sequence[Trial], batch: list[int], found: list[Optional[bool]]) -> None:
        left = batch
        self.compiled = ()
        for log in (*self.heads, *self.logs):
            left = self.over(trials, left, found, log)

    def over(self, trials: Sequence[Trial], batch: list[int], found: list[Optional[bool]], log: str) -> list[int]:
        """Tries some formulas over one log, and returns those that are never false there."""
        kept = [k for k in batch if found[k] is False]
        while kept:
            refused = None if self.compiled == tuple(kept) else self.refused([trials[k] for k in kept])
            if refused is None:
                self.compiled = tuple(kept)
                seen = self.false_outputs(log, len(kept))
                for number in seen:
                    found[kept[number]] = True
                return [k for number, k in enumerate(kept) if number not in seen]
            place, text = refused
            if len(kept) > 1 and text.startswith(TOO_LARGE):
                half = len(kept) // 2
                return self.over(trials, kept[:half], found, log) + self.over(trials, kept[half:], found, log)
            found[kept[place]] = None
            del kept[place]
        return []

    def alike(self, first: Trial, others: Sequence[Trial]) -> set[int]:
        """Which formulas c2po compiles to the same as the first, and so have the same verdicts over any log."""
        found: set[int] = set()
        self.compiled = ()
        left = list(batches(others))
        while left:
            batch = left.pop()
            refused = self.refused([first, *(others[k] for k in batch)])
            if refused is None:
                mine, *theirs = (output.operands() for output in text_of(Path(self.folder, "trials.obs")).outputs)
                found.update(k for k, its in zip(batch, theirs) if its == mine)
            elif refused[1].startswith(TOO_LARGE) and len(batch) > 1:
                left += [batch[: len(batch) // 2], batch[len(batch) // 2 :]]
            elif refused[0] > 0:
                left.append([k for k in batch if k != batch[refused[0] - 1]])
        return found

    def refused(self, trials: Sequence[Trial]) -> Optional[tuple[int, str]]:
        """Compiles formulas as outputs; which of them c2po refuses first, and why, or None."""
        spec, out = Path(self.folder, "trials.c2po"), Path(self.folder, "trials.obs")
        lines = "\n".join(trial.line() for trial in trials)
        spec.write_text(f"{self.head}\n{lines}\n", encoding="latin-1")
        status, _, text = ran([program("c2po"), "-o", str(out), str(spec)])
        if not status:
            return None
        match, first = REFUSED.fullmatch(text), self.head.count("\n") + 2
        if not match:
            return len(trials) - 1, text.removeprefix("c2po: ")
        if not 0 <= int(match[1]) - first < len(trials):
            raise ToolError(text.removeprefix("c2po: "))
        return int(match[1]) - first, match[2]

    def false_outputs(self, log: str, count: int) -> set[int]:
        """The outputs that are false somewhere in a log, by number."""
        words = [program("r2u2"), "--runs", *["--timed"] * self.timed, str(Path(self.folder, "trials.obs")), log]
        seen: set[int] = set()
        with subprocess.Popen(words, stdout=subprocess.PIPE, stderr=subprocess.PIPE) as run:
            assert run.stdout and run.stderr
            rest = b""
            while block := run.stdout.read(BLOCK):
                whole, _, rest = (rest + block).rpartition(b"\n")
                seen.update(int(it[1]) for it in FALSE_LINE.finditer(whole))
                if len(seen) == count:
                    run.kill()
                    return seen
            text = message(run.stderr.read())
        if run.returncode:
            raise ToolError(f"{log}: {text or f'r2u2 ended with status {run.returncode}'}")
        return seen


def batches(trials: Sequence[Trial]) -> Iterator[list[int]]:
    batch: list[int] = []
    letters = 0
    for k, trial in enumerate(trials):
        if batch and (len(batch) == MOST_TRIALS or letters + len(trial.line()) > MOST_LETTERS):
            yield batch
            batch, letters = [], 0
        batch.append(k)
        letters += len(trial.line())
    if batch:
        yield batch


def begin(log: str, path: Path) -> bool:
    """Writes the first rows of a log into a file, where it has more."""
    with opened(log) as file, open(path, "wb") as head:
        for number, line in lines_of(file, LONGEST):
            if number > HEAD_ROWS:
                return True
            head.write(line + b"\n")
    return False
