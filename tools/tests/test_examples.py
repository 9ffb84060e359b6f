"""The examples with stored verdicts: the monitor prints them."""

import subprocess
import sys

from support import ROOT, Case, program


def lines(path):
    return path.read_text(encoding="ascii").splitlines()


def trace_of(log):
    """The trace of a log, made by its file of signals if it has one."""
    signals = log.with_suffix(".toml")
    if not signals.exists():
        return log.read_text(encoding="ascii")
    made = [sys.executable, str(ROOT / "tools/trace"), "--signals", str(signals), str(log)]
    return subprocess.run(made, stdout=subprocess.PIPE, check=True, encoding="ascii").stdout


class Examples(Case):
    def test_stored_verdicts(self):
        r2u2, stored = program("r2u2"), sorted((ROOT / "examples").glob("**/*.verdicts"))
        self.assertTrue(stored)
        for verdicts in stored:
            log = verdicts.with_suffix(".csv")
            spec = next(log.parent / f"{name}.c2po" for name in (log.stem, log.stem.split("_")[0]) if (log.parent / f"{name}.c2po").exists())
            ran = subprocess.run([r2u2, "--source", str(spec), "-"], input=trace_of(log), stdout=subprocess.PIPE, check=True, encoding="ascii")
            self.assertEqual(ran.stdout.splitlines(), lines(verdicts), verdicts.name)
