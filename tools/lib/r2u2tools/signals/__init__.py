"""Signals: the columns of a specification, computed from raw fields of telemetry, in Python and in C alike.

`reading` reads a file of signals, `machine` computes rows in Python, `signals_c` writes the same as C, and `checking`
compares a file of signals with the columns of a specification. docs/reference/signals.md defines each operation.
"""

from r2u2tools.signals.checking import Fault, check
from r2u2tools.signals.machine import Machine
from r2u2tools.signals.model import Signal, Signals
from r2u2tools.signals.reading import read, read_text
from r2u2tools.signals.signals_c import emit

__all__ = ["Fault", "Machine", "Signal", "Signals", "check", "emit", "read", "read_text"]
