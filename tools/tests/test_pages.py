"""dev/pages: that it finds what pages leave out, and what has no case."""

import importlib.machinery
import importlib.util
import re
import shutil
import subprocess
import sys
import tempfile
import unittest
from pathlib import Path

ROOT = Path(__file__).resolve().parent.parent.parent
PARTS = [".ci", "bench", "completions", "crates", "dev", "docs", "editors", "embed", "examples", "tools"]

# A file, what is in it, what is put in its place, and what is to be printed then.
CHANGES = [
    ("README.md", "(docs/reference/language.md)", "(docs/reference/languages.md)", "README.md: no file docs/reference/languages.md"),
    ("bench/README.md", "(plain.cpp)", "(plain.c)", "bench/README.md: no file plain.c"),
    ("CONTRIBUTING.md", "#to-change-a-rule", "#to-change", "CONTRIBUTING.md: no heading docs/contributing/change-a-rule.md#to-change"),
    ("README.md", "granted:2,F", "granted:2,T", "README.md: no case gives the lines of"),
    ("docs/reference/messages.md", "`mixed tense`", "`mixed times`", "docs/reference/messages.md: no entry shows mixed tense"),
    ("docs/reference/messages.md", "`FTSPEC f: p == q;`", "`FTSPEC f: q == p;`", "no case has the line FTSPEC f: q == p;"),
    ("docs/man/c2po.1", "bad divisor", "bad division", "DIAGNOSTICS of the manual: no entry shows bad divisor"),
    ("docs/man/r2u2.1", ".It Fl -runs", ".It Fl -run", "docs/man/r2u2.1: no entry for --runs"),
    ("docs/man/c2po.5", "heaters, 2", "heaters, 1", "docs/man/c2po.5: no case has this specification"),
    ("docs/assurance/qualification.md", "`scq_ring/lets_go_too_early`", "`scq_ring/lets_go`", "docs/assurance/qualification.md: no wrong body scq_ring/lets_go"),
    ("docs/reference/language.md", "forexactly", "forexact", "docs/reference/language.md: no entry for forexactly"),
    ("docs/reference/language.md", "| 3 | 1 | 0 | F | 4 |", "| 3 | 1 | 0 | T | 4 |", "docs/reference/language.md: no case gives the table"),
    ("docs/reference/language.md", "| 3 | 1 | 0 | F | 4 |", "| 3 | 1 | 0 | F | 3 |", "a case has lines after other rows"),
    ("examples/grant.csv", "0,1", "1,1", "examples/grant.csv: no case has this trace"),
    ("examples/grant.c2po", "F[0,3]", "F[0,4]", "examples/grant.c2po: no case has this specification"),
    ("crates/c2po_compile/src/fault.rt", '"mixed tense"', '"mixed times"', "no entry shows mixed times"),
    ("crates/scq_ring/src/lib.rt", "a ring of merged runs", "a ring of runs", "docs/contributing/house.md: scq_ring is left out"),
    ("crates/c2po_lexer/src/token.rt", 'b"<->"', 'b"<-->"', "docs/reference/language.md: no entry for <-->"),
]


def module():
    """dev/pages as a module."""
    loader = importlib.machinery.SourceFileLoader("pages", str(ROOT / "dev/pages"))
    found = importlib.util.module_from_spec(importlib.util.spec_from_loader("pages", loader))
    loader.exec_module(found)
    return found


class Pages(unittest.TestCase):
    @classmethod
    def setUpClass(cls):
        cls.folder = tempfile.TemporaryDirectory()
        cls.top = Path(cls.folder.name)
        for part in PARTS:
            if (ROOT / part).is_dir():
                shutil.copytree(ROOT / part, cls.top / part, ignore=shutil.ignore_patterns("out", "__pycache__"))
        for file in filter(Path.is_file, ROOT.iterdir()):
            shutil.copy(file, cls.top / file.name)

    @classmethod
    def tearDownClass(cls):
        cls.folder.cleanup()

    def test_help(self):
        ran = subprocess.run([sys.executable, str(ROOT / "dev/pages"), "--help"], capture_output=True, encoding="utf-8")
        self.assertEqual((ran.returncode, ran.stderr), (0, ""))
        self.assertIn("usage: dev/pages [--unrun | --write] [--no-library]\n", ran.stdout)

    def test_last_line(self):
        """It says whether all is right, and how many blocks were skipped and for want of what."""
        ended = module().ended
        self.assertEqual(ended([], []), "pages: ok")
        self.assertEqual(ended(["a"], []), "pages: 1 fault")
        self.assertEqual(ended([], ["parallel"]), "pages: ok, 1 block skipped: 1 without parallel")
        skipped = ["libr2u2.so", "parallel", "libr2u2.so"]
        self.assertEqual(ended(["a", "b"], skipped), "pages: 2 faults, 3 blocks skipped: 2 without libr2u2.so, 1 without parallel")

    def told(self):
        ran = subprocess.run([sys.executable, str(self.top / "dev/pages"), "--unrun"], capture_output=True, encoding="utf-8")
        self.assertEqual(ran.stderr, "")
        return ran.returncode, ran.stdout

    def test_pages_as_they_are(self):
        self.assertEqual(self.told(), (0, "pages: ok\n"))

    def test_counts_of_the_library(self):
        """The counts that embed/tests/misuse.c printed are those of the page."""
        page = (self.top / "docs/reference/c-interface.md").read_text(encoding="utf-8")
        counts = re.search(r"(\d+) of an opening, (\d+) of one under a header and (\d+) of `r2u2_bytes`", page).groups()
        self.addCleanup(shutil.rmtree, self.top / "build")
        (self.top / "build/x86_64/tries").mkdir(parents=True)
        out = self.top / "build/x86_64/tries/misuse.out"
        printed = "blocks asked for: {}\nblocks asked for under a header: {}\nblocks asked for to count the bytes: {}\n7 checks, 0 failed\n"
        out.write_text(printed.format(*counts), encoding="utf-8")
        self.assertEqual(self.told(), (0, "pages: ok\n"))
        out.write_text(printed.format(counts[0], int(counts[1]) + 1, counts[2]), encoding="utf-8")
        status, said = self.told()
        self.assertEqual(status, 1)
        self.assertIn("docs/reference/c-interface.md: embed/tests/misuse.c counts", said)

    def test_a_name_in_a_comment_is_none(self):
        page, code = self.top / "docs/assurance/promises.md", self.top / "crates/scq_ring/src/lib.rt"
        texts = [file.read_text(encoding="utf-8") for file in (page, code)]
        page.write_text(texts[0] + "\n`no_such_name`\n", encoding="utf-8")
        code.write_text(texts[1] + "\n// no_such_name\n", encoding="utf-8")
        status, out = self.told()
        for file, text in zip((page, code), texts):
            file.write_text(text, encoding="utf-8")
        self.assertEqual(status, 1)
        self.assertIn("no code has no_such_name", out)


def finds(name, old, new, wanted):
    """A test that the change is found."""

    def test(self):
        file = self.top / name
        text = file.read_text(encoding="utf-8")
        self.assertIn(old, text)
        file.write_text(text.replace(old, new), encoding="utf-8")
        status, out = self.told()
        file.write_text(text, encoding="utf-8")
        self.assertEqual(status, 1)
        self.assertIn(wanted, out)

    return test


for number, change in enumerate(CHANGES):
    setattr(Pages, f"test_change_{number}", finds(*change))

if __name__ == "__main__":
    unittest.main()
