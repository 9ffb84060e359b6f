"""What the tests of the tools share: where things are, and how a tool is run."""

import os
import resource
import signal
import subprocess
import sys
import tempfile
import unittest
from pathlib import Path

ROOT = Path(__file__).resolve().parent.parent.parent
TOOLS = ROOT / "tools"
DEV = ROOT / "dev"
# The tools: scripts beside the file that runs them.
NAMES = sorted(path.name for path in TOOLS.iterdir() if path.is_file() and path.name not in ("pyproject.toml", "r2u2-tools") and b"r2u2tools.__main__" in path.read_bytes())
# How many seconds a test waits for what comes within one or two where no other work runs.
PATIENCE = 150
# Whether dev/coverage measures: tools take several times longer then.
MEASURED = "COVERAGE_PROCESS_START" in os.environ


for _name in ("r2u2", "c2po"):
    # What is tested when nothing is proved; the tools say nothing of a program that a variable names.
    _unproved = ROOT / "build/unproved" / f"{_name}.run"
    if not (ROOT / "build" / _name).exists() and os.access(_unproved, os.X_OK):
        os.environ.setdefault(_name.upper(), str(_unproved))


def program(name):
    """The path of r2u2 or c2po; without it the test that asks for it is skipped."""
    path = os.environ.get(name.upper()) or str(ROOT / "build" / name)
    if not os.access(path, os.X_OK):
        raise unittest.SkipTest(f"no {path}: make builds it, and {name.upper()} may name another")
    return os.path.abspath(path)


def tool(name, *words, give="", env=None):
    """A run of a tool, or of a script of dev/: its status, its output and its error output, as texts."""
    path = next(folder / name for folder in (TOOLS, DEV) if (folder / name).is_file())
    ran = subprocess.run(
        [sys.executable, str(path), *map(str, words)],
        input=give,
        stdout=subprocess.PIPE,
        stderr=subprocess.PIPE,
        encoding="utf-8",
        env={**os.environ, **(env or {})},
    )
    return ran.returncode, ran.stdout, ran.stderr


def shell(line, **names):
    """A line of bash, in which TOOLS is the folder of the tools and any further name is a variable."""
    env = {**os.environ, "TOOLS": str(TOOLS), **{key: str(value) for key, value in names.items()}}
    ran = subprocess.run(
        ["bash", "-o", "pipefail", "-c", line],
        stdin=subprocess.DEVNULL,
        stdout=subprocess.PIPE,
        stderr=subprocess.PIPE,
        encoding="utf-8",
        env=env,
    )
    return ran.returncode, ran.stdout, ran.stderr


def with_signals():
    """Sets signals to their default in a child: a background job's child inherits that some are ignored."""
    for number in (signal.SIGINT, signal.SIGTERM, signal.SIGHUP):
        signal.signal(number, signal.SIG_DFL)


def spent():
    """The processor's seconds of all children so far; those of the clock say little where other work runs."""
    used = resource.getrusage(resource.RUSAGE_CHILDREN)
    return used.ru_utime + used.ru_stime


class Case(unittest.TestCase):
    """A case with a separate folder, and with checks of what a tool did."""

    def setUp(self):
        folder = tempfile.TemporaryDirectory()
        self.addCleanup(folder.cleanup)
        self.folder = Path(folder.name)

    def file(self, name, text):
        """A file of the case's folder; a text is written as UTF-8."""
        path = self.folder / name
        path.write_bytes(text if isinstance(text, bytes) else text.encode())
        return path

    def one_line(self, errors):
        """An error is one line, and no traceback."""
        self.assertEqual(errors.count("\n"), 1, errors)
        self.assertNotIn("Traceback", errors)
