"""Values by which the comparisons of a row come out as asked for, against all values of a small range."""

import random
import unittest
from unittest import mock

from shown_text import definitions
from r2u2tools.why import row_values
from r2u2tools.why.omega import Omega, Unknown, value_of
from r2u2tools.why.row_values import computed

SMALL = range(-6, 7)
def expression(dice, lines, depth):
    if depth == 0 or dice.random() < 0.3:
        return dice.choice(("x", "y", "x", "y", str(dice.randint(0, 3))))
    left = expression(dice, lines, depth - 1)
    text = dice.choice((
        f"-{left}", f"{left} + {expression(dice, lines, depth - 1)}", f"{left} - {expression(dice, lines, depth - 1)}",
        f"{left} * {dice.choice(('2', '3', 'x', 'y'))}", f"{left} / {dice.randint(1, 3)}", f"{left} % {dice.randint(1, 3)}",
    ))
    lines.append(f"DEFINE n{len(lines)} := {text};")
    return f"n{len(lines) - 1}"


def question(dice):
    """A few comparisons with words, and now and then a signal that has a value."""
    lines, words = [], {}
    for _ in range(dice.randint(1, 4)):
        left, right = expression(dice, lines, 2), expression(dice, lines, 1)
        lines.append(f"DEFINE n{len(lines)} := {left} {dice.choice(('==', '<', '<='))} {right};")
        words[f"n{len(lines) - 1}"] = dice.randint(0, 1)
    shown = definitions("\n".join(["INPUT x: int;", "INPUT y: int;", *lines, ""]))
    return shown, words, {"x": dice.randint(-3, 3)} if dice.random() < 0.3 else {}


def fits(shown, words, values):
    return all(computed(shown, ref, values) == word for ref, word in words.items())


class RowValues(unittest.TestCase):
    def found(self, dice):
        """What is found for a question, which has to fit where it is something, and whether a small range has an answer."""
        shown, words, fixed = question(dice)
        found = row_values.row_values(shown, words, fixed)
        if found is not None:
            self.assertTrue(fits(shown, words, {"x": 0, "y": 0, **found, **fixed}), (shown.nodes, words, fixed, found))
        xs = [fixed["x"]] if fixed else SMALL
        return found is not None, any(fits(shown, words, {"x": x, "y": y}) for x in xs for y in SMALL)

    def test_small_numbers(self):
        dice = random.Random(0)
        with mock.patch.multiple(row_values, LEAST=SMALL[0], GREATEST=SMALL[-1]):
            for _ in range(150):
                found, there = self.found(dice)
                self.assertEqual(found, there)

    def test_numbers_of_32_bits(self):
        dice, unknown = random.Random(1), 0
        for _ in range(150):
            try:
                found, there = self.found(dice)
                self.assertTrue(found or not there)
            except Unknown:
                unknown += 1
        self.assertLess(unknown, 8)

    def test_what_no_number_fulfils(self):
        for text, words in (
            ("DEFINE n0 := x % 2;\nDEFINE a := n0 == 1;\nDEFINE n1 := x / 2;\nDEFINE n2 := 2 * n1;\nDEFINE b := n2 == x;", {"a": 1, "b": 1}),
            ("DEFINE n0 := x + y;\nDEFINE a := n0 <= 2;\nDEFINE n1 := y + x;\nDEFINE b := 3 <= n1;", {"a": 1, "b": 1}),
            ("DEFINE n0 := x * x;\nDEFINE a := n0 < 0;", {"a": 1}),
            ("DEFINE a := x <= 2147483647;", {"a": 0}),
            ("DEFINE n0 := 6 * x;\nDEFINE n1 := 10 * y;\nDEFINE n2 := n0 + n1;\nDEFINE a := n2 == 15;", {"a": 1}),
        ):
            shown = definitions(f"INPUT x: int;\nINPUT y: int;\n{text}\n")
            self.assertIsNone(row_values.row_values(shown, words, {}), text)

    def test_sums(self):
        """The narrower pairs have no integer here, and those next to the lower bounds have."""
        below = [{"x": -11, "y": -13, "": 27}, {"x": 11, "y": 13, "": -45}, {"x": -7, "y": 9, "": -10}, {"x": 7, "y": -9, "": -4}]
        self.assertIsNone(Omega(5000).solved([], below))
        self.assertIsNone(Omega(5000).solved([{"x": 2, "y": 4, "": 1}], []))
        zero = {"x": 7, "y": 12, "z": 31, "": -17}
        found = Omega(5000).solved([zero], [{"x": -1, "": 5}])
        self.assertEqual((value_of(zero, found), found["x"] >= 5), (0, True))
        with self.assertRaises(Unknown):
            Omega(1).solved([zero], [])

    def test_that_there_are_none_is_tried(self):
        shown = definitions("INPUT x: int;\nINPUT y: int;\nDEFINE n0 := x + y;\nDEFINE n1 := n0 == 1;\n")
        with mock.patch.object(row_values.Search, "found", lambda _: None):
            found = row_values.row_values(shown, {"n1": 1}, {"x": 0})
        self.assertEqual(found, {"y": 1})
