"""The goals of the Makefile, with an rt that only says how it was called."""

import os
import shutil

from support import ROOT, Case, shell

RT = '#!/bin/sh\necho "rt $* in ${PWD##*/}"\nexit "${RT_STATUS:-0}"\n'
UNPROVED = """#!/bin/sh
echo unproved: built >&2
mkdir -p build/unproved && printf '#!/bin/sh\\necho "$*"\\n' > build/unproved/r2u2 && chmod +x build/unproved/r2u2
"""


class Goals(Case):
    def setUp(self):
        super().setUp()
        for folder in ("bin", "examples", "tools", "dev", *(f"crates/{name}/out" for name in ("r2u2", "c2po", "r2u2_c", "worked_cases"))):
            (self.folder / folder).mkdir(parents=True)
        for name in ("Makefile", "VERSION"):
            shutil.copy(ROOT / name, self.folder)
        self.program("bin/rt", RT)
        self.program("dev/test", "#!/bin/sh\necho 3 passed, 0 failed\n")
        self.program("dev/edges", "#!/bin/sh\necho 2 passed, 0 failed\n")
        self.program("dev/prove", "#!/bin/sh\necho prove $*\n")
        self.program("dev/unproved", UNPROVED)
        self.file("crates/worked_cases/stdin", "")
        for name in ("grant.c2po", "grant.csv"):
            self.file(f"examples/{name}", "")
        for path in ("r2u2/out/r2u2", "c2po/out/c2po", "r2u2_c/out/libr2u2_c.a"):
            self.file(f"crates/{path}", path)

    def program(self, name, text):
        self.file(name, text).chmod(0o755)

    def make(self, words, **names):
        path = f"{self.folder}/bin:{os.environ['PATH']}"
        return shell(f'make -s -C "$FOLDER" {words}', FOLDER=self.folder, PATH=path, **names)

    def built(self):
        return sorted(path.name for path in (self.folder / "build").glob("*"))

    def test_try(self):
        wanted = "--source examples/grant.c2po examples/grant.csv\n"
        self.assertEqual(self.make("try"), (0, wanted, "unproved: built\n"))

    def test_try_over_files_of_ones_own(self):
        spec, trace = self.file("my own.c2po", ""), self.file("my.csv", "")
        status, out, _ = self.make(f"try SPEC='{spec}' TRACE=\"$TRACE\"", TRACE=trace)
        self.assertEqual((status, out), (0, f"--source {spec} {trace}\n"))

    def test_test_builds_programs_when_none_is_proved(self):
        self.assertEqual(self.make("test")[::2], (0, "unproved: built\n"))
        for name in ("r2u2", "c2po"):
            self.program(f"build/{name}", "")
        self.assertEqual(self.make("test")[::2], (0, ""))

    def test_test_tells_both_counts(self):
        status, out, _ = self.make("test")
        lines = ["3 passed, 0 failed", "rt try --steps 1 --seconds 300 in worked_cases"]
        self.assertEqual((status, out.splitlines()[-2:]), (0, lines))
        self.assertNotEqual(self.make("test", RT_STATUS=1)[0], 0)

    def test_test_fails_where_a_tool_does(self):
        self.program("dev/test", "#!/bin/sh\necho 2 passed, 1 failed\nexit 1\n")
        self.assertNotEqual(self.make("test")[0], 0)

    def test_test_leaves_long_cases_out(self):
        self.program("bin/rt", "#!/bin/sh\ncat\n")
        self.file("crates/worked_cases/stdin", "case one (long)\n$ r2u2\n\nfile all\n\ncase two\n$ c2po\n")
        self.assertEqual(self.make("test")[1].splitlines()[-4:], ["file all", "", "case two", "$ c2po"])

    def test_check_leaves_programs_and_library(self):
        self.assertEqual(self.make("check")[:2], (0, "rt ci in " + self.folder.name + "\n2 passed, 0 failed\n"))
        self.assertEqual(self.built(), ["c2po", "libr2u2_c.a", "r2u2"])

    def test_a_gate_that_fails_leaves_nothing(self):
        self.assertNotEqual(self.make("check", RT_STATUS=1)[0], 0)
        self.assertEqual(self.built(), [])

    def test_all(self):
        self.assertEqual(self.make("")[:2], (0, "prove r2u2 c2po\n"))

    def test_one_program(self):
        self.assertEqual(self.make("c2po")[:2], (0, "prove c2po\n"))

    def test_an_installation_proves_nothing(self):
        """What isn't built is named, with the command that builds it and its time, and nothing is installed."""
        (self.folder / "embed").mkdir()
        shutil.copy(ROOT / "embed/embed.mk", self.folder / "embed")
        status, out, errors = self.make("install PREFIX=usr", MAKEFLAGS="")
        self.assertNotEqual(status, 0)
        self.assertEqual(out, "")
        self.assertIn("no build/r2u2\n", errors)
        self.assertIn("no build/c2po\n", errors)
        self.assertIn('"make" proves and builds both programs, in 17 to 31 minutes', errors)
        self.assertFalse((self.folder / "usr").exists())
        (self.folder / "build").mkdir()
        for name in ("r2u2", "c2po"):
            self.program(f"build/{name}", "#!/bin/sh\n")
        for goal in ("install", "install-embed", "deb"):
            status, out, errors = self.make(f"{goal} PREFIX=usr", MAKEFLAGS="")
            self.assertNotEqual(status, 0, goal)
            self.assertEqual(out, "")
            self.assertIn('no build/x86_64/libr2u2.a: "make embed" proves and builds the library, in some 20 minutes', errors)
        self.assertFalse((self.folder / "usr").exists())
        self.assertFalse((self.folder / "build/x86_64").exists())
