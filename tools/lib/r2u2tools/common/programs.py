"""Where r2u2 and c2po are, and how they are run."""

from __future__ import annotations

import os
import shutil
import subprocess
import sys
import tempfile
from pathlib import Path
from typing import Any, Optional, Sequence

from r2u2tools.common.cli import ToolError, note

LIBRARY = Path(__file__).resolve().parents[2]
# The repository, or the folder share/r2u2 that `make install` or pip filled.
HOME = LIBRARY.parents[1] if LIBRARY.name == "lib" else Path(sys.prefix, "share/r2u2")
BUILT = HOME / "build"
INSTALLED = not (HOME / "Makefile").is_file()
OWN = HOME.parent.parent / "bin" if INSTALLED else BUILT
# The programs that the tool has said to be unproved.
noted = set[str]()


def program(name: str) -> str:
    """Returns the path of r2u2 or c2po: the variable R2U2 or C2PO, else build/ or bin/ of the tool's PREFIX, else one on the path,
    else the unproved one of build/unproved/, which it notes once on the error output."""
    asked = os.environ.get(name.upper())
    unproved = str(BUILT / "unproved" / f"{name}.run")
    places = [asked] if asked else [str(OWN / name), shutil.which(name) or "", unproved]
    path = next((place for place in places if place and os.access(place, os.X_OK)), None)
    if not path:
        where = asked or f"{name} in {OWN if INSTALLED else 'build/ or build/unproved/'} or on the path"
        raise ToolError(f"no program {where}: `make` builds it, `make unproved` without a proof, and {name.upper()} may name another")
    if path == unproved and not asked and name not in noted:
        noted.add(name)
        note(f"{name} is unproved")
    return path


def tool(name: str) -> list[str]:
    """The beginning of a command that runs another of these tools, by the same interpreter."""
    load = f"import sys; sys.path.insert(0, {str(LIBRARY)!r}); from r2u2tools.__main__ import main; main()"
    return [sys.executable, "-Bc", load, name]


def ran(words: Sequence[str], give: Optional[bytes] = None, **more: Any) -> tuple[int, bytes, str]:
    """A run to its end: its status, its output as bytes, and its message as one line. What it is given is a file: a program
    that doesn't read all of a pipe would end this one by a signal."""
    with tempfile.TemporaryFile() as file:
        if give is not None:
            file.write(give)
            file.seek(0)
            more["stdin"] = file
        try:
            done = subprocess.run(words, stdout=subprocess.PIPE, stderr=subprocess.PIPE, **more)
        except OSError as fault:
            raise ToolError(f"cannot run {words[0]}: {fault.strerror}") from None
    return done.returncode, done.stdout, message(done.stderr)


def message(raw: bytes) -> str:
    """The last line of what a program wrote on its error output."""
    lines = raw.decode("utf-8", "replace").strip().splitlines()
    return lines[-1] if lines else ""


def written(words: Sequence[str], doing: str) -> bytes:
    """The output of a run that has to succeed."""
    status, out, text = ran(words)
    if status:
        raise ToolError(f"{doing}: {text or f'status {status}'}")
    return out
