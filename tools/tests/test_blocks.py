"""dev/lib/blocks.py: which code blocks of a page are right, over small pages."""

import os
import shutil
import tempfile
import unittest
from pathlib import Path
from unittest import mock

from support import program

import blocks
import drawings
from r2u2tools.timeline import svg

SPEC = "INPUT p: bool;\nFTSPEC f: p;\n"


def block(text, kind="console", marks=""):
    return f"# A page\n\n```{kind}{marks}\n{text}```\n"


class Blocks(unittest.TestCase):
    def setUp(self):
        self.folder = tempfile.TemporaryDirectory()
        self.addCleanup(self.folder.cleanup)
        self.root = Path(self.folder.name)
        for name in ("tools", "embed", "dev"):
            (self.root / name).mkdir()
        self.page = self.root / "page.md"

    def faults(self, text, write=False, library=True):
        self.page.write_text(text, encoding="utf-8")
        return blocks.check(self.root, {self.page: text}, write, library)

    def with_programs(self):
        """Names programs that may not be there; a test of commands without them needs no more."""
        names = {"R2U2": shutil.which("true"), "C2PO": shutil.which("true")}
        before = {name: os.environ.get(name) for name in names}
        os.environ.update(names)
        self.addCleanup(lambda: [os.environ.pop(name) if old is None else os.environ.update({name: old}) for name, old in before.items()])

    def test_commands(self):
        self.with_programs()
        self.assertEqual(self.faults(block("$ echo a; echo b\na\nb\n$ false\n$ echo $?\n1\n")), [])
        self.assertEqual(self.faults(block("$ seq 9\n1\n...\n9\n")), [])
        self.assertEqual(self.faults(block("$ cat <<END\n> a\n> END\na\n")), [])
        self.assertEqual(self.faults(block("$ echo b\na\n")), ["page.md:3: $ echo b\nprints\nb"])
        self.assertEqual(self.faults(block("a\n")), ["page.md:3: begins without a command"])
        self.assertEqual(self.faults(block("$ echo x >&2\n")), ["page.md:3: $ echo x >&2\nprints\nx"])
        self.assertEqual(len(self.faults(block("$ exit 3\n$ echo a\na\n"))), 1)

    def test_written(self):
        self.with_programs()
        self.faults(block("$ echo b\na\n$ seq 9\n1\n...\n"), write=True)
        self.assertEqual(self.page.read_text(encoding="utf-8"), block("$ echo b\nb\n$ seq 9\n1\n...\n"))

    def test_files(self):
        self.with_programs()
        text = block("a\n", "text", ' title="folder/it"') + block("$ cat folder/it\na\n")
        self.assertEqual(self.faults(text), [])
        self.assertIn("is a file of the repository", self.faults(block("a\n", "text", ' title="../it"'))[0])

    def test_listed_files(self):
        (self.root / "embed/it.c").write_text("int a;\n")
        self.assertEqual(self.faults(block("int a;\n", "c", ' file="embed/it.c"')), [])
        self.assertEqual(self.faults(block("int b;\n", "c", ' file="embed/it.c"'), write=True), ["page.md:3: differs from embed/it.c"])
        self.assertIn("int a;", self.page.read_text(encoding="utf-8"))
        self.assertEqual(self.faults(block("a\n", "c", ' file="embed/no.c"')), ["page.md:3: no file embed/no.c"])

    def test_listed_files_with_a_title(self):
        self.with_programs()
        (self.root / "embed/it.c").write_text("int a;\n")
        self.assertEqual(self.faults(block("int a;\n", "c", ' title="a.c" file="embed/it.c"') + block("$ cat a.c\nint a;\n")), [])

    def test_kinds(self):
        self.assertEqual(self.faults(block("a\n", "")), ["page.md:3: nothing says what this block is"])
        self.assertEqual(self.faults(block("a\n", "pearl")), ["page.md:3: pearl says what this block is"])
        self.assertEqual(self.faults(block("make install\n", "sh")), [])
        self.assertEqual(self.faults(block("ls\n", "sh")), ["page.md:3: belongs into a block of console: ls"])
        self.assertIn("syntax error", self.faults(block("if\n", "sh", ' title="a.sh"'))[0])
        self.assertEqual(len(self.faults(block("def\n", "python"))), 1)
        self.assertEqual(len(self.faults(block("{\n", "json"))), 1)

    @unittest.skipUnless(shutil.which("cc"), "no compiler of C")
    def test_listings(self):
        self.assertEqual(self.faults(block("int f(void) { return 1; }\n", "c")), [])
        self.assertIn("error", self.faults(block("int f(void) { return x; }\n", "c"))[0])

    def test_skipped(self):
        self.with_programs()
        self.assertEqual(self.faults(block("$ echo b\na\n", marks=' needs="no-such-program"')), ["skipped: no-such-program"])

    def test_library_left_unbuilt(self):
        """A block is wrong, and isn't skipped, without a library that could have been built."""
        self.with_programs()
        text = block("$ echo b\na\n", marks=' needs="libr2u2.so"')
        wanted = 'page.md:3: not run without libr2u2.so: "make check-embed TARGET=x86_64" builds it, and --no-library skips the block'
        with mock.patch.object(blocks, "BUILDERS", ["true"]):
            self.assertEqual(self.faults(text), [wanted])
            self.assertEqual(self.faults(text, library=False), ["skipped: libr2u2.so"])
            (self.root / "build").mkdir()
            (self.root / "build/libr2u2.so").touch()
            self.assertEqual(self.faults(text), ["page.md:3: $ echo b\nprints\nb"])
            self.assertEqual(self.faults(text, library=False), ["page.md:3: $ echo b\nprints\nb"])
        (self.root / "build/libr2u2.so").unlink()
        with mock.patch.object(blocks, "BUILDERS", ["no-such-program"]):
            self.assertEqual(self.faults(text), ["skipped: libr2u2.so"])
        with mock.patch.dict(os.environ, R2U2="no-such-program"):
            self.assertEqual(self.faults(text), ["skipped: libr2u2.so"])

    def test_specifications(self):
        named = mock.patch.dict(os.environ, R2U2=program("r2u2"), C2PO=program("c2po"))
        named.start()
        self.addCleanup(named.stop)
        self.assertEqual(self.faults(block(SPEC, "c2po") + block("# p\n1\n", "csv")), [])
        self.assertEqual(self.faults(block("INPUT p: bool;\nFTSPEC f: p\n", "c2po")), ["page.md:3: c2po: line 2: syntax"])
        self.assertEqual(self.faults(block(SPEC, "c2po") + block("# p\n2\n", "csv"))[0].splitlines()[-1], "page.md:9: r2u2: trace line 2: out of range in column 1")


class Drawings(unittest.TestCase):
    def test_contrast(self):
        """Texts differ from their ground by 4.5 to 1, lines by 3 to 1, in both schemes."""
        light, dark = drawings.STYLE.split("@media")
        for scheme in (light, dark):
            ground = colour(scheme, ".ground", "fill")
            for kind in (".box", ".main", ".true", ".false", ".ground"):
                self.assertGreaterEqual(contrast(colour(scheme, "text", "fill"), colour(scheme, kind, "fill")), 4.5, kind)
                self.assertGreaterEqual(contrast(colour(scheme, ".small", "fill"), colour(scheme, kind, "fill")), 4.5, kind)
            for kind in (".box", ".main", ".true", ".false", ".line"):
                self.assertGreaterEqual(contrast(colour(scheme, kind, "stroke"), ground), 3, kind)


class Timelines(unittest.TestCase):
    def test_contrast(self):
        """The same of the pictures of tools/timeline."""
        for text, fill, ink in svg.LOOKS.values():
            self.assertGreaterEqual(contrast(ink[1:], fill[1:]), 4.5, text)
        for ground, faint, ink in (("ffffff", svg.FAINT[1:], svg.INK[1:]), ("0d1117", "a9b4c0", "e6edf3")):
            self.assertGreaterEqual(contrast(ground, faint), 4.5)
            self.assertGreaterEqual(contrast(ground, ink), 4.5)


def colour(scheme, kind, name):
    """The colour that a scheme gives to what is of a kind."""
    rule = next(line for line in scheme.splitlines() if line.strip().startswith(kind))
    return rule.split(f"{name}: #")[1][:6]


def contrast(one, other):
    """The ratio of the lightness of two colours, as the guidelines for content on the web have it."""

    def lightness(text):
        parts = [int(text[at : at + 2], 16) / 255 for at in (0, 2, 4)]
        parts = [it / 12.92 if it <= 0.04045 else ((it + 0.055) / 1.055) ** 2.4 for it in parts]
        return 0.2126 * parts[0] + 0.7152 * parts[1] + 0.0722 * parts[2]

    high, low = sorted((lightness(one), lightness(other)), reverse=True)
    return (high + 0.05) / (low + 0.05)


if __name__ == "__main__":
    unittest.main()
