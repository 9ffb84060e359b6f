"""What is done where a requirement fails: a command of the user's, with the output, the time and the reason."""

import os
import queue
import subprocess
import sys
import threading
from dataclasses import dataclass
from pathlib import Path
from typing import List, Optional

from r2u2tools.common.cli import note
from r2u2tools.common.programs import tool
from r2u2tools.watch.stream import Rows

MOST_WAITING = 1000
SECONDS = 60


@dataclass(frozen=True)
class Event:
    """The begin of a stretch of F or invalid."""

    name: str
    time: int
    word: str

    def line(self) -> str:
        return f"{self.name}:{self.time},{self.word}"


class Reasons:
    """Reasons of verdicts, from the rows that are kept; `trace` is a file for them."""

    def __init__(self, spec: str, trace: Path, rows: Rows, timed: bool):
        self.spec, self.trace, self.rows, self.timed = spec, trace, rows, timed

    def of(self, event: Event) -> str:
        """What decides the verdict, in one line as r2u2-why prints it, or why that can't be said."""
        begin = self.rows.write(self.trace, self.timed)
        words = [*tool("why"), *["--timed"] * self.timed, "--begin", str(begin), "--"]
        words += [self.spec, str(self.trace), f"{event.name}:{event.time}"]
        try:
            ran = subprocess.run(
                words, stdin=subprocess.DEVNULL, stdout=subprocess.PIPE, stderr=subprocess.PIPE, timeout=SECONDS,
                start_new_session=True,
            )
        except (OSError, subprocess.TimeoutExpired):
            return f"{event.line()}: no reason within {SECONDS} seconds"
        if ran.returncode and begin:
            return f"{event.line()}: no reason: its rows came before the latest {self.rows.most}, which --keep keeps"
        found = (ran.stdout or ran.stderr).decode("utf-8", "replace").splitlines()
        return found[0] if found else event.line()


class Alarms:
    """Runs the command for one event after another, so that the stream never waits for it."""

    def __init__(self, command: str, reasons: Reasons):
        self.command, self.reasons = command, reasons
        self.waiting: "queue.Queue[Optional[Event]]" = queue.Queue(MOST_WAITING)
        self.lost = 0
        self.child: Optional["subprocess.Popen[bytes]"] = None
        self.ended = False
        self.thread = threading.Thread(target=self.work, daemon=True)
        self.thread.start()

    def put(self, event: Event) -> None:
        try:
            self.waiting.put_nowait(event)
        except queue.Full:
            self.lost += 1

    def work(self) -> None:
        while (event := self.waiting.get()) is not None and not self.ended:
            self.run(event)

    def run(self, event: Event) -> None:
        """One run: what it prints goes where this tool's own errors go, since the table has the output."""
        env = {
            **os.environ, "R2U2_OUTPUT": event.name, "R2U2_TIME": str(event.time), "R2U2_WORD": event.word,
            "R2U2_REASON": self.reasons.of(event),
        }
        try:
            self.child = subprocess.Popen(["sh", "-c", self.command], stdin=subprocess.DEVNULL, stdout=sys.stderr, env=env)
            status = self.child.wait(SECONDS)
        except subprocess.TimeoutExpired:
            self.stop()
            note(f"{event.line()}: the command took more than {SECONDS} seconds")
            return
        except OSError as fault:
            note(f"{event.line()}: cannot run the command: {fault.strerror}")
            return
        if status and not self.ended:
            note(f"{event.line()}: the command ended with status {status}")

    def stop(self) -> None:
        if self.child and self.child.poll() is None:
            self.child.kill()

    def finish(self, at_once: bool) -> None:
        """Waits for the commands that are due, or with `at_once` ends the running command."""
        if at_once:
            self.ended = True
            self.stop()
        else:
            self.waiting.put(None)
            self.thread.join()
        if self.lost:
            note(f"{self.lost} commands weren't run: more than {MOST_WAITING} were waiting")


def words_of(spec: str, is_program: bool, timed: bool) -> List[str]:
    """The words of r2u2 over the rows that it is fed."""
    return [*["--source"] * (not is_program), *["--timed"] * timed, "--runs", spec, "-"]
