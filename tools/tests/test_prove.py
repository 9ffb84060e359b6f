"""dev/prove and dev/mutants: what they hand the gate and what they leave, with an rt that only says what it was given."""

import os
import shutil

from support import ROOT, Case, shell

# Says what it finds, "proves" two crates and builds each program, or fails.
RT = r"""#!/bin/bash
echo "$*: $(ls crates | xargs)" && cat crates.txt HANDLES && find . -name must-fail -o -name mutants
[ -n "$RT_STATUS" ] && echo "error: no proof of low" && exit "$RT_STATUS"
for name in low top; do echo "rt: $name proved"; done
for main in crates/*/src/main.rt; do out=${main%src/main.rt}out; mkdir -p "$out" && echo built > "$out/$(basename "${out%/out}")"; done
"""
CRATES = "# all\nlow: csv\nside: low\nc_side staticlib: low\ntop: low\nother: side\n"


class Proofs(Case):
    def setUp(self):
        super().setUp()
        for folder in ("bin", "dev", "crates/low/must-fail", "crates/low/mutants", "crates/low/out"):
            (self.folder / folder).mkdir(parents=True)
        for name in ("low", "side", "c_side", "top", "other"):
            (self.folder / f"crates/{name}/src").mkdir(parents=True)
            self.file(f"crates/{name}/src/{'main' if name in ('top', 'other') else 'lib'}.rt", "")
        self.file("crates.txt", CRATES)
        self.file("HANDLES", "Handles allowed: none.\n")
        self.file("bin/rt", RT).chmod(0o755)
        shutil.copy(ROOT / "dev/prove", self.folder / "dev")
        shutil.copytree(ROOT / "dev/lib", self.folder / "dev/lib")

    def prove(self, words, **names):
        path = f"{self.folder}/bin:{os.environ['PATH']}"
        return shell(f'"$FOLDER/dev/prove" {words}', FOLDER=self.folder, PATH=path, **names)

    def log(self):
        return (self.folder / "build/prove.log").read_text().splitlines()

    def test_the_gate_gets_these_crates_alone_and_no_edits(self):
        self.prove("top")
        self.assertEqual(self.log()[:4], ["ci: low top", "low: csv", "top: low", "Handles allowed: none."])
        self.assertNotIn("edits", "\n".join(self.log()))

    def test_each_proved_crate_is_told(self):
        status, out, errors = self.prove("top")
        self.assertEqual((status, errors), (0, ""))
        told = ["prove: 1 of 2: low (0.0 min)", "prove: 2 of 2: top (0.0 min)", "prove: build/top"]
        self.assertEqual(out.splitlines(), told)
        self.assertEqual((self.folder / "build/top").read_text(), "built\n")

    def test_a_proof_that_fails_leaves_no_program(self):
        status, out, _ = self.prove("top", RT_STATUS=1)
        self.assertEqual(status, 1)
        self.assertIn("error: no proof of low\n", out)
        self.assertEqual(out.splitlines()[-1], "prove: not all was proved; build/prove.log has all that the prover said")
        self.assertFalse((self.folder / "build/top").exists())

    def test_a_name_that_is_no_program(self):
        for name in ("low", "nothing"):
            status, out, errors = self.prove(name)
            self.assertEqual((status, out, errors), (1, "", f"prove: no program {name} is in crates.txt\n"))

    def test_no_kit(self):
        tools = f"{os.path.dirname(shutil.which('python3'))}:/usr/bin:/bin"
        (self.folder / "bin/rt").unlink()
        status, _, errors = shell('"$FOLDER/dev/prove" top', FOLDER=self.folder, PATH=tools)
        self.assertEqual((status, errors), (1, "prove: rt, the command of Rattle's kit, is not on the path\n"))


class Mutants(Case):
    """dev/mutants, with an rt that only says how it was called."""

    def setUp(self):
        super().setUp()
        for folder in ("bin", "dev", "crates/low/mutants", "crates/top"):
            (self.folder / folder).mkdir(parents=True)
        self.file("crates/low/mutants/wrong.edit", "")
        self.file("crates.txt", "low:\n")
        self.file("HANDLES", "Handles allowed: none.\n")
        self.file("bin/rt", '#!/bin/sh\necho "rt $*: $(ls crates/low/must-fail)"\n').chmod(0o755)
        shutil.copy(ROOT / "dev/mutants", self.folder / "dev")

    def mutants(self, words):
        path = f"{self.folder}/bin:{os.environ['PATH']}"
        return shell(f'"$FOLDER/dev/mutants" {words}', FOLDER=self.folder, PATH=path)

    def test_a_copy_is_tried(self):
        for words in ("", "low"):
            self.assertEqual(self.mutants(words), (0, "rt must-fail low: wrong.edit\n", ""))
            self.assertFalse((self.folder / "crates/low/must-fail").exists())

    def test_a_crate_without_mutants(self):
        for name in ("top", "nothing", "--all"):
            self.assertEqual(self.mutants(name), (2, "", f"dev/mutants: crate {name} has no mutants\n"))
            self.assertEqual(self.mutants(f"low {name}")[:2], (2, ""))

    def test_help(self):
        status, out, errors = self.mutants("--help")
        self.assertEqual((status, errors), (0, ""))
        self.assertIn("dev/mutants NAME..", out)
