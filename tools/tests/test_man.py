"""Each option of a tool is in its man page, and each option of the page is one of the tool."""

import re

from support import ROOT, TOOLS, Case, shell, tool


class Man(Case):
    def pages(self):
        for page in sorted((ROOT / "docs/man").glob("r2u2-*.1")):
            if (TOOLS / page.stem.removeprefix("r2u2-")).exists():
                yield page.stem.removeprefix("r2u2-"), page

    def test_options(self):
        self.assertTrue(list(self.pages()))
        for name, page in self.pages():
            with self.subTest(name):
                helped = set(re.findall(r"^  +(?:-\w, )?(-[-\w]+)", tool(name, "--help")[1], re.M)) - {"--help", "-h"}
                lists = "\n".join(re.findall(r"^\.(?:It|Op) .*$", page.read_text(encoding="utf-8"), re.M))
                told = {f"-{word}" for word in re.findall(r"Fl (-?[a-z][-a-z]*)", lists)} - {"--help", "-h"}
                self.assertEqual(helped, told)

    def test_forms(self):
        """The forms that the help shows are those of the synopsis, with the same options."""
        for name, page in self.pages():
            with self.subTest(name):
                forms = tool(name, "--help")[1].partition("\n\n")[0]
                synopsis = page.read_text(encoding="utf-8").partition(".Sh SYNOPSIS")[2].partition(".Sh ")[0]
                self.assertEqual(len(re.findall(rf"\b{name} ", forms)), synopsis.count(".Nm"))
                told = {f"-{word}" for word in re.findall(r"Fl (-?[a-z][-a-z]*)", synopsis)}
                self.assertEqual(set(re.findall(r"(?<!\S)\[?(--?[a-z][-a-z]*)", forms)), told)

    def test_examples(self):
        """Each help and each page has an example of the tool."""
        for name, page in self.pages():
            with self.subTest(name):
                self.assertRegex(tool(name, "--help")[1], rf"(?m)^(?:example: |  \$ ).*\b{name} ")
                self.assertIn(f"r2u2-{name} ", page.read_text(encoding="utf-8").partition(".Sh EXAMPLES")[2].partition(".Sh ")[0])

    def test_groff_takes_them(self):
        if shell("command -v groff")[0]:
            self.skipTest("no groff")
        for page in sorted((ROOT / "docs/man").glob("*.[1-9]")):
            name = page.name
            self.assertEqual(shell('groff -Tutf8 -mdoc -ww "$PAGE" >/dev/null', PAGE=page), (0, "", ""), name)

    def test_see_also(self):
        """A page that another one refers to refers back; the four of the programs and formats do as they like."""
        seen = {}
        for page in sorted((ROOT / "docs/man").glob("*.[1-9]")):
            also = page.read_text(encoding="utf-8").partition(".Sh SEE ALSO")[2]
            seen[page.name] = {f"{name}.{part}" for name, part in re.findall(r"^\.Xr (\S+) (\d)", also, re.M)}
        for page, others in seen.items():
            self.assertTrue(others, page)
            for other in others & set(seen):
                if not (page.startswith("r2u2-") and other in ("r2u2.1", "c2po.1", "r2u2.3", "c2po.5")):
                    self.assertIn(page, seen[other], f"{other} doesn't refer to {page}")
