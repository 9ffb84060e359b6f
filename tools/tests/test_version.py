"""The version is in the file VERSION, and what repeats it agrees; and an archive without a kit."""

import os

from support import ROOT, Case, shell


class Version(Case):
    def test_the_library_and_its_header_have_it(self):
        version = (ROOT / "VERSION").read_text(encoding="utf-8").strip()
        large, middle, small = map(int, version.split("."))
        number = 10_000 * large + 100 * middle + small
        header = (ROOT / "embed/include/r2u2.h").read_text(encoding="utf-8")
        library = (ROOT / "crates/r2u2_c/src/version.rt").read_text(encoding="utf-8")
        self.assertIn(f"#define R2U2_VERSION {number}u\n", header)
        self.assertIn(f'#define R2U2_VERSION_TEXT "{version}"\n', header)
        self.assertIn(f"pub const VERSION: u32 = {number};\n", library)
        self.assertIn(f"\nversion: {version}\n", (ROOT / "CITATION.cff").read_text(encoding="utf-8"))


class Archive(Case):
    def test_without_a_kit_there_is_no_archive(self):
        for folder in ("bin", "crates/lib/out"):
            (self.folder / folder).mkdir(parents=True)
        old = self.file("crates/lib/out/liblib.a", "old")
        self.file("bin/rt", "#!/bin/sh\n").chmod(0o755)
        path = f"{self.folder}/bin:{os.environ['PATH']}"
        status, out, _ = shell(f'cd "$FOLDER" && "{ROOT}/embed/archive" lib', FOLDER=self.folder, PATH=path)
        self.assertEqual((status, old.exists()), (1, False))
        self.assertIn("archive: ", out)
