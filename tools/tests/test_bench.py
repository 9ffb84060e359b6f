"""The plain monitor in C++ prints the lines of r2u2, bench/run reports where a baseline doesn't, and hostile texts are legal."""

import random
import subprocess
import sys
import shutil
import unittest
from unittest import mock

import random_specs
from support import ROOT, Case, program

SPECS = 40
BENCH = ROOT / "bench"

import hostile_texts


class Plain(Case):
    def setUp(self):
        super().setUp()
        if not shutil.which("c++"):
            raise unittest.SkipTest("no c++ on the path")
        program("r2u2"), program("c2po")
        self.plain = self.folder / "plain"
        subprocess.run(["c++", "-O1", "-std=c++17", "-o", str(self.plain), str(BENCH / "plain.cpp")], check=True)

    def lines(self, monitor, *words):
        return subprocess.run([str(monitor), *map(str, words)], stdout=subprocess.PIPE, check=True).stdout

    def test_random_specifications(self):
        out = self.folder / "spec.obs"
        for seed in range(SPECS):
            dice = random.Random(seed)
            spec = self.file("spec.c2po", random_specs.spec(dice))
            trace = self.file("rows.csv", random_specs.text_of([random_specs.row(dice) for _ in range(40)]))
            subprocess.run([program("c2po"), "-o", str(out), str(spec)], check=True)
            wanted = self.lines(program("r2u2"), out, trace)
            self.assertEqual(self.lines(self.plain, out, trace), wanted, spec.read_text())


class Runner(Case):
    def test_a_baseline_that_prints_other_lines(self):
        """The monitor and the baseline are scripts: one prints a line, the other none."""
        if not shutil.which("time"):
            raise unittest.SkipTest("no GNU time on the path")
        monitor, baseline = self.file("r2u2", "#!/bin/sh\necho f:0,T\n"), self.file("other", "#!/bin/sh\n")
        compiler = self.file("c2po", "#!/bin/sh\n")
        for path in (monitor, baseline, compiler):
            path.chmod(0o755)
        for other, status in ((monitor, 0), (baseline, 1)):
            words = [sys.executable, str(BENCH / "run"), str(monitor), "--baseline", str(other)]
            ran = subprocess.run(
                [*words, "--rounds", "1", "--only", "outputs"],
                stdout=subprocess.PIPE,
                encoding="ascii",
                env={"PATH": "/usr/bin:/bin", "TMPDIR": str(self.folder)},
            )
            self.assertEqual((ran.returncode, "DIFFER" in ran.stdout), (status, bool(status)), ran.stdout)
            self.assertEqual(list(self.folder.glob("bench-*")), [])


class Texts(Case):
    """Hostile texts are legal."""

    def compiled(self, text, name):
        spec = self.file("spec.c2po", text)
        words = [program("c2po"), "-o", str(self.folder / "spec.obs"), str(spec)]
        ran = subprocess.run(words, stdout=subprocess.PIPE, stderr=subprocess.STDOUT)
        self.assertEqual((ran.returncode, ran.stdout), (0, b""), name)

    # Their names and numbers are searched for, in some minutes.
    SEARCHED = ("colliding", "constants")

    def test_texts_are_legal(self):
        """Each of as many items as 16 KiB hold."""
        with mock.patch.object(hostile_texts, "BYTES", 1 << 14):
            for text in hostile_texts.TEXTS:
                if text.name not in self.SEARCHED:
                    self.compiled(text.make(), text.name)


class Hostile(Case):
    def test_rows_of_the_page(self):
        """A row has an input, what it asks for, and the most of its runs."""
        ran = subprocess.run(
            [sys.executable, str(BENCH / "hostile.py"), "/bin/true", "/bin/true", "--rows", "--only", "valves"],
            stdout=subprocess.PIPE, encoding="utf-8",
        )
        self.assertRegex(ran.stdout, r"^\| `valves` \| .+ \| 0\.0 \| \d+ \|\n$")
