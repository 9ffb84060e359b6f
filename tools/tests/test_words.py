"""Numbers, words and texts of r2u2.h, in the other languages of the library."""

import importlib.util
import os
import re
import unittest
from unittest import mock

from r2u2tools.common import verdict_lines
from r2u2tools.generate import handlers
from support import ROOT

HEADER = (ROOT / "embed/include/r2u2.h").read_text(encoding="utf-8")
RUST = (ROOT / "embed/rust/src/lib.rs").read_text(encoding="utf-8")


def enumerators(kind):
    """The names of an enum of r2u2.h without R2U2_, with their numbers."""
    body = re.search(rf"enum {kind} \{{(.*?)\}};", HEADER, re.S)[1]
    return {name: int(number) for name, number in re.findall(r"\bR2U2_(\w+) = (\d+)", body)}


def texts(call):
    """The texts of a list of r2u2.h, in order."""
    body = re.search(rf"{call}\(uint32_t \w+\) \{{.*?\{{(.*?)\}};", HEADER, re.S)[1]
    return re.findall(r'"(.*?)"', body)


def module():
    """The Python module, whose library isn't loaded."""
    spec = importlib.util.spec_from_file_location("r2u2_module", ROOT / "embed/python/r2u2/__init__.py")
    made = importlib.util.module_from_spec(spec)
    with mock.patch.dict(os.environ, R2U2_LIBRARY="nowhere.so"):
        spec.loader.exec_module(made)
    return made


class Words(unittest.TestCase):
    def test_each_number_has_a_text(self):
        for kind, call, first in (("r2u2_code", "r2u2_code_text", 0), ("r2u2_word", "r2u2_word_text", 0), ("r2u2_fault_kind", "r2u2_fault_kind_text", 1)):
            self.assertEqual(sorted(enumerators(kind).values()), list(range(first, len(texts(call)))), kind)

    def test_python(self):
        python = module()
        self.assertEqual({it.name: int(it) for it in python.Code}, enumerators("r2u2_code"))
        self.assertEqual([it.text for it in python.Code], texts("r2u2_code_text"))
        self.assertEqual(list(python.WORDS), texts("r2u2_word_text"))
        self.assertEqual({it.name: int(it) for it in python.OutputKind}, enumerators("r2u2_output_kind"))
        self.assertEqual({it.name: int(it) for it in python.SignalKind}, enumerators("r2u2_signal_kind"))
        for name, number in (("DIGEST_BYTES", python.DIGEST_BYTES), ("NAME_BYTES", python.NAME_BYTES)):
            self.assertIn(f"#define R2U2_{name} {number}u\n", HEADER)

    def test_rust(self):
        codes = re.findall(r"^const (\w+): u32 = (\d+);", RUST, re.M)
        self.assertLessEqual({(name, int(number)) for name, number in codes}, set(enumerators("r2u2_code").items()))
        self.assertIn(("NOT_A_ROW", "6"), codes)
        numbers = dict(re.findall(r"^    (\w+) = (\d),", re.search(r"enum Word \{(.*?)\n\}", RUST, re.S)[1], re.M))
        printed = dict(re.findall(r'Word::(\w+) => "(\w+)",', RUST))
        self.assertEqual({int(numbers[name]): text for name, text in printed.items()}, dict(enumerate(texts("r2u2_word_text"))))

    def test_tools(self):
        self.assertEqual(set(verdict_lines.WORDS), set(texts("r2u2_word_text")))
        self.assertEqual({"F", "T", *handlers.CONTRACT}, set(texts("r2u2_word_text")))

    def test_no_other_list_of_words(self):
        """C and C++ take the texts of the header."""
        for folder in ("embed", "examples/embed"):
            for path in sorted((ROOT / folder).rglob("*.[ch]*")):
                if path.name != "r2u2.h":
                    self.assertNotIn('"inactive"', path.read_text(encoding="utf-8"), path)


if __name__ == "__main__":
    unittest.main()
