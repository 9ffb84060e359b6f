"""A line on a terminal that says how far a long piece of work has come."""

import sys
import time


class Progress:
    """Rewrites one line of the error output, where that is a terminal; elsewhere it prints nothing."""

    def __init__(self, every: float = 0.25) -> None:
        self.shown = sys.stderr is not None and sys.stderr.isatty()
        self.every, self.next = every, 0.0

    def tell(self, text: str) -> None:
        """Shows a text in place of the one before, unless that came just now."""
        if self.shown and time.monotonic() >= self.next:
            self.next = time.monotonic() + self.every
            print(f"\r{text}\x1b[K", end="", file=sys.stderr, flush=True)

    def done(self) -> None:
        """Clears the line."""
        if self.shown and self.next:
            print("\r\x1b[K", end="", file=sys.stderr, flush=True)
