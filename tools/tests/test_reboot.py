"""A monitor that begins again over the last rows gives the verdicts of the whole trace: docs/contributing/save-and-restore.md."""

import csv
import io
import random
import subprocess

import random_specs
from support import Case, program

SPECS = 30
ROWS = 60


def table(spec):
    """The table of c2po, as rows by name of column."""
    out = subprocess.run([program("c2po"), "--table", str(spec)], stdout=subprocess.PIPE, check=True, encoding="ascii").stdout
    return list(csv.DictReader(io.StringIO(out)))


def reach(rows):
    """How many rows before its own a past-time output depends on, at most."""
    past = [row for row in rows if row["engine"] == "pt"]
    found = []
    for row in past:
        operands = [found[int(row[side])] for side in ("left", "right") if row["operation"] != "load" and row[side]]
        found.append(max(operands, default=0) + int(row["high"] or 0))
    return max(found, default=0)


def delay(rows):
    """How many rows late a future-time output is, at most."""
    return max((int(row["worst"]) for row in rows if row["engine"] == "ft"), default=0)


def words(spec, rows):
    """The words of the only output, by time."""
    out = subprocess.run(
        [program("r2u2"), "--source", str(spec), "-"],
        input=random_specs.text_of(rows), stdout=subprocess.PIPE, check=True, encoding="ascii",
    ).stdout
    return [line.split(",")[1] for line in out.splitlines()]


class Reboot(Case):
    def test_kept_rows_suffice(self):
        dice = random.Random(20261129)
        spec = self.folder / "spec.c2po"
        for _ in range(SPECS):
            spec.write_text(random_specs.spec(dice), encoding="ascii")
            of_program = table(spec)
            late, back = delay(of_program), reach(of_program)
            trace = [random_specs.row(dice) for _ in range(ROWS)]
            whole = words(spec, trace)
            for reboot in (late + back, ROWS // 2 + late, ROWS - 1):
                first = max(reboot - late - back, 0)
                again = words(spec, trace[first:])
                skipped = back if first else 0
                with self.subTest(spec=spec.read_text(encoding="ascii"), reboot=reboot):
                    self.assertEqual(again[skipped:], whole[first + skipped :])
