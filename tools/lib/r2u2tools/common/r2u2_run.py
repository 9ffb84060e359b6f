"""A run of r2u2, or of any command that prints verdict lines: its arguments, and how it ends."""

from __future__ import annotations

import signal
import subprocess
import sys
import threading
from dataclasses import dataclass, field
from pathlib import Path
from typing import IO, Any, Callable, Optional, Sequence, Union

from r2u2tools.common import programs
from r2u2tools.common.specs import read_spec
from r2u2tools.common.cli import ToolError

FLAGS = ("--source", "--runs", "--timed")
KEPT = 4096
# How many seconds a command has to end when it is asked to.
GRACE = 2


@dataclass
class RunResult:
    """How a run ended: the log that it was over, the signal that stopped it, or its code and its message where it failed."""

    log: Optional[str] = None
    stopped: int = 0
    failed: list[dict[str, Any]] = field(default_factory=list)


class R2u2Args:
    """The words of r2u2: its options, its specification or program, and its trace."""

    def __init__(self, words: Sequence[str]) -> None:
        self.flags = list[str]()
        self.source = self.demo = False
        rest, names = list(words), list[str]()
        while rest:
            word = rest.pop(0)
            self.source |= word == "--source"
            self.demo |= word.startswith("--demo")
            if word in FLAGS:
                self.flags.append(word)
            elif word == "--mission-time" and rest:
                self.flags += [word, rest.pop(0)]
            elif word.startswith("--"):
                self.flags.append(word)
            else:
                names.append(word)
        self.file: Optional[str] = names[0] if names else None
        self.trace = names[1] if len(names) > 1 else "-"

    def with_file(self, file: Union[str, Path], source: bool) -> list[str]:
        """The words of the same run with another specification or program."""
        flags = [flag for flag in self.flags if flag != "--source"] + ["--source"] * source
        return [*flags, str(file), self.trace]


class Command:
    """A command that prints verdict lines."""

    def __init__(self, words: Sequence[str], quiet: bool = False) -> None:
        self.quiet = quiet
        self.r2u2 = R2u2Args(words[1:]) if Path(words[0]).name == "r2u2" else None
        if self.r2u2 and self.r2u2.demo:
            raise ToolError("--demo prints no verdict lines: it counts by itself")
        self.words = [programs.program("r2u2") if words[0] == "r2u2" else words[0], *words[1:]]

    def log(self) -> Optional[str]:
        """What the log is called: its trace."""
        return self.r2u2.trace if self.r2u2 and self.r2u2.trace != "-" else None

    def names(self) -> list[str]:
        """The outputs of what is run, where that can be read; r2u2 itself says what is wrong with it."""
        if not self.r2u2 or self.r2u2.file is None or self.r2u2.file == "-":
            return []
        try:
            return [output.name for output in read_spec(self.r2u2.file).outputs]
        except ToolError:
            return []

    def run(self, read: Callable[[IO[bytes]], object], result: RunResult) -> None:
        """Runs the command, gives its output to `read`, and keeps its code and its message where it fails."""
        try:
            child = subprocess.Popen(self.words, stdout=subprocess.PIPE, stderr=subprocess.PIPE)
        except OSError as fault:
            raise ToolError(f"cannot run {self.words[0]}: {fault.strerror}") from None
        assert child.stdout and child.stderr
        tail = bytearray()
        passing = threading.Thread(target=passed_on, args=(child.stderr, tail, self.quiet), daemon=True)
        try:
            passing.start()
            read(child.stdout)
            if result.stopped:
                end(child)
                return
            code = child.wait()
        except BaseException:
            end(child)
            raise
        passing.join()
        if code:
            text = programs.message(bytes(tail)) or killed(code)
            result.failed.append({"log": result.log, "code": 128 - code if code < 0 else code, "message": text})


def end(child: subprocess.Popen[bytes]) -> None:
    """Ends a command that isn't needed any more, by force where it doesn't end by itself."""
    child.terminate()
    try:
        child.wait(GRACE)
    except subprocess.TimeoutExpired:
        child.kill()
        child.wait()


def passed_on(errors: Any, tail: bytearray, quiet: bool) -> None:
    """What a command says on its error output goes on to ours, unless it is to be quiet, and the end of it is kept."""
    while block := errors.read1(KEPT):
        if not quiet:
            sys.stderr.buffer.write(block)
            sys.stderr.flush()
        tail += block
        del tail[:-KEPT]


def killed(code: int) -> str:
    if code >= 0:
        return ""
    try:
        return f"killed by {signal.Signals(-code).name}"
    except ValueError:
        return f"killed by signal {-code}"
