"""embed/constant: a program as a constant array of C, with its digest."""

import hashlib
import re

from support import ROOT, Case, shell

CONSTANT, GRANT = ROOT / "embed/constant", ROOT / "examples/embed/grant.bin"


class Constant(Case):
    def test_bytes_and_digest(self):
        status, out, errors = shell('"$CONSTANT" grant "$GRANT"', CONSTANT=CONSTANT, GRANT=GRANT)
        self.assertEqual((status, errors), (0, ""))
        arrays = re.findall(r"uint8_t (\w+)\[\d*\] = \{(.*?)\}", out, re.S)
        found = {name: bytes.fromhex("".join(re.findall("0x(..)", body))) for name, body in arrays}
        raw = GRANT.read_bytes()
        self.assertEqual(found, {"grant": raw, "grant_digest": hashlib.sha256(raw).digest()})

    def test_refusals(self):
        """Nothing is written for a file that can't be read twice, nor for a name that C refuses."""
        for words, status, said in (
            ("grant /dev/stdin", 6, "cannot read /dev/stdin"), ("grant /", 6, "cannot read /"),
            ("grant /dev/null", 6, "cannot read /dev/null"), ("grant no.obs", 6, "cannot read no.obs"), ('my-program "$GRANT"', 1, "my-program is no name in C"),
            ('7 "$GRANT"', 1, "7 is no name in C"), ("", 1, "usage: "),
        ):
            pipe = 'cat "$GRANT" | ' if words.endswith("stdin") else ""
            ended, out, errors = shell(f'{pipe}"$CONSTANT" {words}', CONSTANT=CONSTANT, GRANT=GRANT)
            with self.subTest(words):
                self.assertEqual((ended, out, said in errors), (status, "", True))
