"""dev/clauses: the public calls of a crate with their clauses."""

import subprocess
import sys
import unittest

from support import DEV


def printed(*words):
    ran = subprocess.run([sys.executable, str(DEV / "clauses"), *words], capture_output=True, encoding="utf-8")
    return ran.returncode, ran.stdout, ran.stderr


class Clauses(unittest.TestCase):
    def test_calls_and_methods(self):
        status, out, errors = printed("r2u2_monitor")
        self.assertEqual((status, errors), (0, ""))
        self.assertIn("r2u2_monitor: Monitor::step: steps_over, rest, drained, ready, cause, same, unwritten, counted\n", out)
        self.assertIn("r2u2_monitor: most_reports: most, few\n    Returns the most reports", out)

    def test_exported_calls(self):
        self.assertIn("r2u2_c: r2u2_open: opens, already, refused, kept, untold, codes\n    Opens the program", printed("r2u2_c")[1])

    def test_the_text_of_a_clause(self):
        self.assertIn("        ensures counted { steps.new ≤ steps.old + row_work", printed("--full", "r2u2_monitor")[1])

    def test_all_crates(self):
        status, out, _ = printed()
        self.assertEqual(status, 0)
        self.assertIn("r2u2_cli: r2u2_main: ", out)

    def test_an_unknown_crate(self):
        self.assertEqual(printed("no_such_crate"), (1, "", "clauses: no crate no_such_crate\n"))


if __name__ == "__main__":
    unittest.main()
