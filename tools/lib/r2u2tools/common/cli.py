"""How the tools say what is wrong: one line on the error output, and a status."""

from __future__ import annotations

import argparse
import errno
import io
import os
import re
import signal
import sys
from pathlib import Path
from typing import IO, Any, Callable, NoReturn, Optional, Union

# Where a tool can't do what it was asked for: a file can't be read, a line isn't what it should be.
TROUBLE = 2


class ToolError(Exception):
    """What is wrong, in one line, with its place."""

    def __init__(self, text: str, status: int = TROUBLE) -> None:
        super().__init__(text)
        self.status = status


class Stopped(BaseException):
    """A signal that ends the tool. It passes through all blocks, so that files and programs don't outlive the tool."""

    def __init__(self, number: int) -> None:
        super().__init__(number)
        self.number = number


class Closed(io.RawIOBase):
    """A stream that the caller of the tool has closed."""

    def writable(self) -> bool:
        return True

    def write(self, _: Any) -> int:
        raise OSError(errno.EBADF, "it is closed", "the standard output")


def name() -> str:
    """The name under which the tool was called."""
    return Path(sys.argv[0]).name


def note(text: object) -> None:
    print(f"{name()}: {text}", file=sys.stderr, flush=True)


class Parser(argparse.ArgumentParser):
    """A reader of the command line that prints a fault in one line."""

    def error(self, message: str) -> NoReturn:
        note(f"{message} (see --help)")
        sys.exit(TROUBLE)

    def _print_message(self, message: str, file: Any = None) -> None:
        """Writes the help; unlike the method of the library it reports that it can't."""
        (file or sys.stdout).write(message)


def plain(text: str) -> str:
    """A text without control characters, which no XML may hold."""
    return "".join(letter if letter.isprintable() or letter in "\t\n" else "\N{REPLACEMENT CHARACTER}" for letter in text)


def parser(doc: Optional[str], **more: Any) -> Parser:
    """A reader of the command line: its text for --help, and the forms that it shows, are those at the top of the tool."""
    head, usage, body = (doc or "").split("\n\n", 2)
    forms = re.sub(r"^(usage: | {7})[\w-]+", lambda found: found[1] + "%(prog)s", usage, flags=re.M)
    return Parser(
        prog=name(),
        usage=forms.removeprefix("usage: "),
        description=f"{head}\n\n{body}".strip(),
        formatter_class=argparse.RawDescriptionHelpFormatter,
        allow_abbrev=False,
        **more,
    )


def count(text: str) -> int:
    """A number among the arguments."""
    if not re.fullmatch(r"[0-9]+", text):
        raise argparse.ArgumentTypeError(f"{text} isn't a whole number from 0 on")
    return int(text)


def stop(number: int, _frame: object) -> NoReturn:
    """Ends the tool by a signal, once; further ones don't disturb what it cleans up."""
    for other in (signal.SIGTERM, signal.SIGHUP):
        signal.signal(other, signal.SIG_IGN)
    raise Stopped(number)


def fill_streams() -> None:
    """Opens the null device in the place of closed streams, so that no file takes their numbers."""
    for number in range(3):
        try:
            os.fstat(number)
        except OSError:
            os.set_inheritable(os.open(os.devnull, os.O_RDWR), True)
    if sys.stderr is None:
        sys.stderr = open(os.devnull, "w", encoding="utf-8")
    if sys.stdout is None:
        sys.stdout = io.TextIOWrapper(io.BufferedWriter(Closed()))


def prepare() -> None:
    """Sets up streams and signals: a closed pipe ends the tool without a message, other signals after cleaning up."""
    fill_streams()
    signal.signal(signal.SIGPIPE, signal.SIG_DFL)
    for number in (signal.SIGTERM, signal.SIGHUP):
        if signal.getsignal(number) == signal.SIG_DFL:
            signal.signal(number, stop)
    for stream in (sys.stdout, sys.stderr):
        if isinstance(stream, io.TextIOWrapper):
            stream.reconfigure(encoding="utf-8", errors="replace")


def exit_status(main: Callable[[], Any]) -> Any:
    """Runs a tool, and returns its exit code when all that it printed is written."""
    try:
        status = main()
    except SystemExit as end:
        status = end.code
    sys.stdout.flush()
    return status


def run(main: Callable[[], Any]) -> NoReturn:
    """Runs a tool to its end: a closed pipe or a signal ends it without a message, trouble with one line."""
    prepare()
    try:
        status = exit_status(main)
    except ToolError as trouble:
        note(trouble)
        status = trouble.status
    except OSError as fault:
        note(f"{fault.filename}: {fault.strerror}" if fault.filename else fault.strerror or str(fault))
        sys.stdout = open(os.devnull, "w", encoding="utf-8")
        status = TROUBLE
    except KeyboardInterrupt:
        status = 128 + signal.SIGINT
    except Stopped as stopped:
        status = 128 + stopped.number
    except MemoryError:
        note("out of memory")
        status = TROUBLE
    sys.exit(status)


def os_error(path: object, doing: str, fault: OSError) -> ToolError:
    """ToolError with a file: `cannot open x.csv: No such file or directory`."""
    return ToolError(f"cannot {doing} {path}: {fault.strerror}")


def opened(path: Union[str, Path]) -> IO[bytes]:
    """A file as bytes, or the standard input for `-`."""
    if str(path) == "-":
        if sys.stdin is None:
            raise ToolError("cannot read the standard input: it is closed")
        return sys.stdin.buffer
    try:
        file = open(path, "rb")
        if Path(path).is_dir():
            raise IsADirectoryError(21, "Is a directory")
        return file
    except OSError as fault:
        raise os_error(path, "open", fault) from None


# What generate and signals call these.
Trouble, told_os, words = ToolError, os_error, parser
