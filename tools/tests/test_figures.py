"""dev/figures: that each measurement it names is in its page, with a date and a command."""

import re
import subprocess
import sys
import unittest

from support import ROOT


class Figures(unittest.TestCase):
    def told(self, *words):
        ran = subprocess.run([sys.executable, str(ROOT / "dev/figures"), *words], capture_output=True, encoding="utf-8")
        self.assertEqual(ran.stderr, "")
        return ran.returncode, ran.stdout.splitlines()

    def test_each_figure_has_a_date_and_a_command(self):
        status, lines = self.told()
        self.assertEqual(status, 0, lines)
        for line in lines:
            self.assertRegex(line, r"^[\w/-]+\.md:\d+  \d{4}-\d\d-\d\d  \S")

    def test_stale_figures_are_some_of_them(self):
        all_lines, stale = self.told()[1], self.told("--stale")[1]
        self.assertLessEqual(set(stale), set(all_lines))

    def test_pages_are_there(self):
        for line in self.told()[1]:
            self.assertTrue((ROOT / re.split(":", line)[0]).exists())
