"""A run of r2u2 over a live stream: rows go to it as they come, and its verdict lines are taken as they come back."""

import os
import subprocess
import threading
from collections import deque
from pathlib import Path
from typing import IO, Any, Callable, Deque, List, Optional

from r2u2tools.common.cli import ToolError
from r2u2tools.common.programs import message, program
from r2u2tools.common.traces import stamp_of
from r2u2tools.common.verdict_lines import Reader

BLOCK = 1 << 16
GRACE = 5
OnVerdict = Callable[[str, int, int, str], None]


class Rows:
    """The rows that passed: how many, and the latest of them, from which reasons are found."""

    def __init__(self, most: int):
        self.most, self.count, self.rest = most, 0, b""
        self.header: List[bytes] = []
        self.kept: Deque[bytes] = deque(maxlen=most)
        self.is_first = True
        self.lock = threading.Lock()

    def take(self, block: bytes) -> None:
        """Counts the rows of a block, and keeps the latest; a header and blank lines are none."""
        lines = (self.rest + block).split(b"\n")
        self.rest = lines.pop()
        if self.is_first and lines:
            self.is_first = False
            self.header = lines[:1] if lines[0].startswith(b"#") else []
            del lines[: len(self.header)]
        rows = [line for line in lines if line.strip()]
        with self.lock:
            self.kept.extend(rows)
            self.count += len(rows)

    def end(self) -> None:
        """The stream has ended: a last line without its newline counts."""
        if self.rest.strip():
            self.take(b"\n")

    def write(self, path: Path, timed: bool) -> int:
        """Writes the rows that are kept, with the header; the time of the first."""
        with self.lock:
            kept, first = list(self.kept), self.count - len(self.kept)
        path.write_bytes(b"\n".join([*self.header, *kept, b""]))
        return stamp_of(kept[0], 1)[0] if timed and kept else first


class Stream:
    """r2u2 between a source of rows and whoever hears its verdicts."""

    def __init__(self, words: List[str], source: IO[bytes], rows: Rows, on_verdict: OnVerdict):
        self.source, self.rows, self.on_verdict = source, rows, on_verdict
        self.tail = bytearray()
        self.fault: Optional[Exception] = None
        self.stopped = False
        self.ended = threading.Event()
        pipe = subprocess.PIPE
        try:
            # a separate group: an interrupt from the terminal ends it by way of this tool
            self.child = subprocess.Popen([program("r2u2"), *words], stdin=pipe, stdout=pipe, stderr=pipe, start_new_session=True)
        except OSError as fault:
            raise ToolError(f"cannot run r2u2: {fault.strerror}") from None
        self.errors = threading.Thread(target=self.keep_errors, daemon=True)
        self.reader = threading.Thread(target=self.read, daemon=True)

    def start(self) -> None:
        for thread in (self.errors, self.reader, threading.Thread(target=self.feed, daemon=True)):
            thread.start()

    def feed(self) -> None:
        """Passes rows on as they come, to the end of the source, or until r2u2 takes no more."""
        target: Any = self.child.stdin
        try:
            while block := os.read(self.source.fileno(), BLOCK):
                self.rows.take(block)
                target.write(block)
                target.flush()
            self.rows.end()
        except BrokenPipeError:
            pass
        except OSError as fault:
            self.fault = fault
        finally:
            try:
                target.close()
            except OSError:
                pass

    def read(self) -> None:
        """Gives each stretch of verdicts to whoever hears them."""
        assert self.child.stdout
        try:
            for name, first, last, word in Reader("r2u2").stretches(self.child.stdout):
                self.on_verdict(name, first, last, word)
        except (ToolError, ValueError, OSError) as fault:
            self.fault = None if self.stopped else fault
        finally:
            self.ended.set()

    def keep_errors(self) -> None:
        errors: Any = self.child.stderr
        while block := errors.read1(BLOCK):
            self.tail += block
            del self.tail[:-BLOCK]

    def stop(self) -> None:
        """Ends r2u2 where it still runs; no further verdict counts."""
        self.stopped = True
        if self.child.poll() is None:
            self.child.terminate()
        try:
            self.child.wait(GRACE)
        except subprocess.TimeoutExpired:
            self.child.kill()
            self.child.wait()

    def finish(self) -> None:
        """Waits for the end, and says in one line what went wrong, where something did."""
        self.reader.join()
        status = self.child.wait()
        self.errors.join(GRACE)
        if self.stopped:
            return
        if self.fault:
            raise ToolError(f"the trace cannot be read: {getattr(self.fault, 'strerror', None) or self.fault}")
        if status:
            raise ToolError(message(bytes(self.tail)) or f"r2u2 ended with status {status}")
