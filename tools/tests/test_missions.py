"""The logs of the missions, and their verdicts."""

import re
import subprocess
import sys

from support import ROOT, Case, program

FOLDER = ROOT / "examples/missions"
SCRIPT = ROOT / "crates/worked_cases/stdin"
MISSIONS = ("power", "safe_mode", "pointing")


def lines(path):
    return path.read_text(encoding="ascii").splitlines()


class Missions(Case):
    def test_logs_are_made_again(self):
        subprocess.run([sys.executable, str(FOLDER / "logs.py"), str(self.folder)], check=True)
        for name in MISSIONS:
            self.assertEqual(lines(self.folder / f"{name}.csv"), lines(FOLDER / f"{name}.csv"), name)

    def test_cases_have_the_stored_lines(self):
        cases = {case.split("\n")[0]: case for case in re.split(r"\n\s*\ncase ", SCRIPT.read_text(encoding="utf-8"))}
        for name in MISSIONS:
            case = cases["the mission " + name.replace("_", " ")].split("\n")
            said = [line[2:] for line in case if line.startswith("> ")]
            given = [line[2:] for line in case if line.startswith("| ")]
            self.assertEqual(said, lines(FOLDER / f"{name}.expected"), name)
            self.assertEqual(given, lines(FOLDER / f"{name}.c2po") + lines(FOLDER / f"{name}.csv"), name)

    def test_the_monitor_tells_the_stored_lines(self):
        r2u2 = program("r2u2")
        for name in MISSIONS:
            words = [r2u2, "--source", str(FOLDER / f"{name}.c2po"), str(FOLDER / f"{name}.csv")]
            told = subprocess.run(words, stdout=subprocess.PIPE, check=True, encoding="ascii").stdout
            self.assertEqual(told.splitlines(), lines(FOLDER / f"{name}.expected"), name)
