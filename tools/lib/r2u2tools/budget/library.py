"""The library, by ctypes: how many bytes a monitor of a program holds."""

from __future__ import annotations

import ctypes
import os

from r2u2tools.common.programs import BUILT
from r2u2tools.common.cli import ToolError

DONE, NO_MEMORY = 0, 4
# The repository, or the folder share/r2u2 of what `make install` put under a PREFIX.
HOME = BUILT.parent
INSTALLED = not (HOME / "Makefile").is_file()
OWN = HOME.parent.parent / "lib/r2u2/libr2u2.so" if INSTALLED else BUILT / "libr2u2.so"
MADE_BY = "`make install` puts it there" if INSTALLED else "`make python` builds it"


class _Fault(ctypes.Structure):
    _fields_ = [("kind", ctypes.c_uint32), ("part", ctypes.c_uint32), ("place", ctypes.c_uint64),
                ("text", ctypes.c_char * 96)]


def path() -> str:
    """The file of R2U2_LIBRARY, else that of build/, or of installed tools that of the same prefix."""
    return os.environ.get("R2U2_LIBRARY") or str(OWN)


def why_none() -> str:
    """Why no library can be asked, in words; nothing where one is there."""
    return "" if os.path.isfile(path()) else f"no {path()}: {MADE_BY}, and R2U2_LIBRARY may name another"


def bytes_of(program: bytes) -> int:
    """How many bytes a monitor of this program holds while it is open."""
    try:
        call = ctypes.CDLL(path()).r2u2_bytes
    except (OSError, AttributeError) as fault:
        raise ToolError(f"cannot use {path()}: {fault}") from None
    number = ctypes.c_uint64
    call.argtypes = [ctypes.c_char_p, ctypes.c_size_t, ctypes.POINTER(number), ctypes.POINTER(_Fault)]
    call.restype = ctypes.c_uint32
    found, fault_of_call = number(), _Fault()
    code = call(program, len(program), found, fault_of_call)
    if code != DONE:
        raise ToolError("out of memory" if code == NO_MEMORY else fault_of_call.text.decode("ascii", "replace"))
    return int(found.value)
