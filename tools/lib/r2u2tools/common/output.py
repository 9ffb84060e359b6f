"""Where a trace or a page goes: the standard output, or a file that takes its place only when it is complete."""

from __future__ import annotations

import os
import stat
import sys
from contextlib import contextmanager
from pathlib import Path
from typing import IO, Any, Iterator, Optional, Sequence, Union

from r2u2tools.common.cli import os_error


class Output:
    """Where a text goes. A file takes its place only when it is whole."""

    def __init__(self, path: Optional[str], sources: Sequence[IO[bytes]] = ()) -> None:
        self.path, self.file = path, sys.stdout
        self.temporary: Optional[str] = None
        self.live = not all(is_regular(source) for source in sources)

    def __enter__(self) -> "Output":
        try:
            self.begin()
        except OSError as fault:
            self.__exit__()
            raise os_error(self.path, "write", fault) from None
        except BaseException:
            self.__exit__()
            raise
        return self

    def begin(self) -> None:
        """Opens the file. Its name is known before it is there, so that a signal at any time removes it."""
        if not self.path or self.path == "-":
            return
        if os.path.exists(self.path) and not os.path.isfile(self.path):
            self.file = open(self.path, "w", encoding="utf-8", errors="replace")
            return
        self.temporary = os.path.join(os.path.dirname(os.path.realpath(self.path)), f".trace{os.urandom(8).hex()}")
        handle = os.open(self.temporary, os.O_WRONLY | os.O_CREAT | os.O_EXCL | os.O_CLOEXEC, 0o600)
        self.file = os.fdopen(handle, "w", encoding="utf-8", errors="replace")

    def write(self, text: str) -> None:
        """Writes a text, at once where the input comes from a pipe."""
        with self.named():
            self.file.write(text)
            if self.live:
                self.file.flush()

    @contextmanager
    def named(self) -> Iterator[None]:
        """Says of a fault which file it is about."""
        try:
            yield
        except OSError as fault:
            raise os_error(self.path or "the standard output", "write", fault) from None

    def line(self, text: str) -> None:
        self.write(text + "\n")

    def keep(self) -> None:
        """The text is whole."""
        with self.named():
            self.file.flush()
        if self.temporary:
            mask = os.umask(0)
            os.umask(mask)
            os.chmod(self.temporary, 0o666 & ~mask)
            os.replace(self.temporary, os.path.realpath(str(self.path)))
            self.temporary = None

    def __exit__(self, *_: Any) -> None:
        try:
            if self.file is not sys.stdout:
                self.file.close()
        except OSError:
            if self.temporary is None:
                raise
        finally:
            if self.temporary and os.path.exists(self.temporary):
                os.unlink(self.temporary)


def write(path: Union[str, Path], text: str) -> None:
    """Writes a text into a file: the whole of it, or nothing."""
    with Output(str(path)) as output:
        output.write(text)
        output.keep()


def is_regular(file: IO[bytes]) -> bool:
    try:
        return stat.S_ISREG(os.fstat(file.fileno()).st_mode)
    except (OSError, ValueError):
        return False
