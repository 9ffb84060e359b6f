"""dev/test: what it counts, how it ends, and that a run without a test fails."""

import shutil

from support import DEV, TOOLS, Case, shell

MIXED = """
import unittest
class Mixed(unittest.TestCase):
    def test_a(self): pass
    def test_b(self): self.assertEqual(1, 2)
    def test_c(self): raise unittest.SkipTest("no reason at all")
    def test_d(self):
        with self.subTest(k=1): self.assertEqual(3, 4)
"""


class Runner(Case):
    def run_over(self, words="", **files):
        for folder in ("dev/lib", "tools/tests"):
            (self.folder / folder).mkdir(parents=True)
        for name in ("dev/test", "dev/lib/counts.py", "tools/pyproject.toml", "tools/tests/conftest.py"):
            shutil.copy((DEV.parent / name), self.folder / name)
        for name, text in files.items():
            self.file(f"tools/tests/test_{name}.py", text)
        return shell(f'"$HERE/dev/test" --jobs 1 {words}', HERE=self.folder)

    def test_counts(self):
        status, out, _ = self.run_over(mixed=MIXED)
        self.assertEqual((status, out.splitlines()[-1]), (1, "1 passed, 2 failed, 1 skipped"))
        for text in ("no reason at all", "1 != 2", "3 != 4"):
            self.assertIn(text, out)

    def test_one_name(self):
        status, out, _ = self.run_over("test_a", mixed=MIXED)
        self.assertEqual((status, out.splitlines()[-1]), (0, "1 passed, 0 failed, 0 skipped"))

    def test_a_file_that_cannot_be_read(self):
        status, out, _ = self.run_over(broken="import nothing_of_this_name\n")
        self.assertEqual((status, out.splitlines()[-1]), (2, "0 passed, 1 failed, 0 skipped"))

    def test_a_run_without_a_test_fails(self):
        for words in ("nowhere", ""):
            with self.subTest(words):
                shutil.rmtree(self.folder / "dev", ignore_errors=True)
                shutil.rmtree(self.folder / "tools", ignore_errors=True)
                status, out, errors = self.run_over(words, **({"mixed": MIXED} if words else {}))
                self.assertEqual((status, out.splitlines()[-1]), (1, "0 passed, 0 failed, 0 skipped"))

    def test_a_set_up_that_fails(self):
        text = "import unittest\ndef setUpModule(): raise ValueError('lost')\n" + MIXED
        status, out, _ = self.run_over(mixed=text)
        self.assertEqual(status, 1)
        self.assertIn("lost", out)
        self.assertTrue(out.splitlines()[-1].startswith("0 passed, 4 failed"), out)

    def test_every_test_file_is_collected(self):
        status, out, _ = shell(f'"{DEV}/test" --list')
        self.assertEqual(status, 0)
        for path in (TOOLS / "tests").glob("test_*.py"):
            self.assertIn(f"{path.name}::", out)
