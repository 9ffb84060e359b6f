"""The colours of pictures and pages: they are in one table, and texts are legible on both screens."""

import re
import unittest

from support import TOOLS
from r2u2tools.common.palette import DARK, LIGHT

COLOUR = re.compile(r"#[0-9a-fA-F]{6}\b|#[0-9a-fA-F]{3}\b(?!;)")
TEXTS = [(ground, f"{ground}-ink") for ground in ("true", "false", "idle", "open")]
TEXTS += [("back", "ink"), ("back", "faint"), ("back", "bad"), ("back", "pick"), ("pale", "ink")]


def light_of(colour):
    """How light a colour is, as WCAG has it."""
    parts = [int(colour[k : k + 2], 16) / 255 for k in (1, 3, 5)]
    red, green, blue = (part / 12.92 if part <= 0.03928 else ((part + 0.055) / 1.055) ** 2.4 for part in parts)
    return 0.2126 * red + 0.7152 * green + 0.0722 * blue


class Palette(unittest.TestCase):
    def test_no_colour_stands_elsewhere(self):
        files = [path for kind in ("py", "html", "css", "js") for path in (TOOLS / "lib").rglob(f"*.{kind}")]
        for path in files:
            if path.name != "palette.py":
                self.assertIsNone(COLOUR.search(path.read_text(encoding="utf-8")), path)

    def test_texts_are_legible(self):
        for colours in (LIGHT, DARK):
            self.assertEqual(colours.keys(), LIGHT.keys())
            for ground, text in TEXTS:
                dark, light = sorted(light_of(colours[name]) for name in (ground, text))
                self.assertGreaterEqual((light + 0.05) / (dark + 0.05), 4.5, (ground, text))


if __name__ == "__main__":
    unittest.main()
