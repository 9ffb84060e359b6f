"""dev/lib/cases.py: which runs a script has, over which files."""

import unittest



import cases

SCRIPT = """# A remark
least 2

file nothing

case one
file spec | INPUT p: bool;
repeat 2 + d$n := d$m;
hex 0a 41
set 0 69
$ c2po spec ""
>copy nothing
>hex 41
>2 a line
>+ more
keep made
= 2
file spec copy made
cut 3
fail trace 0
$ r2u2 spec
= 6

case two
file spec copy nothing
|
$ r2u2 --source spec nothing
differs status
= 1
"""


class Script(unittest.TestCase):
    def test_runs(self):
        first, second, third = cases.runs(SCRIPT)
        self.assertEqual((first.case, first.line, first.words, first.status), ("one", 11, ["c2po", "spec", ""], 2))
        self.assertEqual(first.files, {"nothing": b"", "spec": b"iNPUT p: bool;\nd0 := d1;d1 := d2;\nA"})
        self.assertEqual(first.output, b"Aa line\nmore")
        self.assertEqual((second.words, second.status), (["r2u2", "spec"], None))
        self.assertEqual(second.files, {"nothing": b"", "made": first.output, "spec": b"Aa "})
        self.assertEqual((third.case, third.files, third.status), ("two", {"nothing": b"", "spec": b"\n"}, None))

    def test_all_cases(self):
        runs = list(cases.runs(cases.SCRIPT.read_text(encoding="utf-8")))
        self.assertEqual({run.words[0] for run in runs}, {"c2po", "r2u2", "plain"})
        self.assertEqual(len(runs), cases.SCRIPT.read_text(encoding="utf-8").count("\n$ "))
