"""What `why` says of verdicts is so, over specifications by hypothesis.

R2U2_QUESTIONS is how many questions `why` is asked, by default 40.
"""

import os
import random
import subprocess
from pathlib import Path

from hypothesis import HealthCheck, Phase, given, settings

import hypothesis_specs as specs
from support import Case, program
from r2u2tools.common.compiled import compiled
from r2u2tools.why.explanation import Explainer
from r2u2tools.why.part_verdicts import FALSE, TRUE
from r2u2tools.why.sentences import Sentences
from r2u2tools.why.trace_window import Cells

QUESTIONS = int(os.environ.get("R2U2_QUESTIONS", "40"))
CHANGES, AHEAD = 3, 25
NAMES = list(specs.SIGNALS)


def text_of(rows):
    return "".join(",".join(map(str, row)) + "\n" for row in rows)


def verdicts(spec, rows, folder):
    """The words of each output by time, as r2u2 prints them."""
    trace = Path(folder, "asked.csv")
    trace.write_text(text_of(rows))
    out = subprocess.run([program("r2u2"), "--source", str(spec), str(trace)], stdout=subprocess.PIPE, check=True).stdout
    found = {}
    for line in out.decode("ascii").splitlines():
        name, _, told = line.partition(":")
        time, _, word = told.partition(",")
        found.setdefault(name, {})[int(time)] = word
    return found


class Why(Case):
    """The named cells decide a verdict, none of them can be left out, and each line of the tree is true."""

    asked = shown = unshown = decided = 0

    def test_cells_decide_and_none_can_be_left_out(self):
        program("r2u2"), program("c2po")
        checks = settings(
            max_examples=QUESTIONS, deadline=None, derandomize=True, database=None, phases=(Phase.generate, Phase.shrink),
            suppress_health_check=list(HealthCheck), print_blob=False,
        )
        checks(given(specs.questions())(self.check))()
        self.assertGreater(self.decided, QUESTIONS // 3)
        self.assertEqual(self.unshown, 0, "cells that may not be needed")
        print(f"{self.asked} questions, {self.decided} decided, {self.shown} cells needed, {self.unshown} not shown to be")

    def check(self, question):
        self.asked += 1
        folder = self.folder / str(self.asked)
        folder.mkdir()
        spec, trace = folder / "spec.c2po", folder / "rows.csv"
        spec.write_text(question.text)
        trace.write_text(text_of(question.rows))
        made = compiled(spec, folder)
        explainer = Explainer(made, made.shown.output("f"), folder)
        window = explainer.window(str(trace), question.time, False)
        found = explainer.explain(window, question.time)
        told = verdicts(spec, question.rows, folder)
        self.assertEqual(found.word, told.get("f", {}).get(question.time))
        if found.word is None:
            self.check_open(question, spec, found, folder)
        else:
            self.decided += 1
            self.check_decided(question, spec, found, folder)
        self.check_lines(question, made, window, explainer, found, folder)

    def other_rows(self, dice, rows, kept):
        """Rows with other fields in all cells but those kept, and rows after them that settle all."""
        found = []
        for at in range(len(rows) + AHEAD):
            row = [dice.randint(0, 1) if kind == "bool" else dice.randint(-3, 5) for kind in specs.SIGNALS.values()]
            found.append([rows[at][k] if (name, at) in kept else row[k] for k, name in enumerate(NAMES)])
        return found

    def check_decided(self, question, spec, found, folder):
        dice = random.Random(0)
        for _ in range(CHANGES):
            rows = self.other_rows(dice, question.rows, found.cells)
            self.assertEqual(verdicts(spec, rows, folder)["f"].get(question.time), found.word, rows)
        for cell in found.cells:
            if cell in found.needed:
                self.shown += 1
                self.check_needed(question, spec, found, cell, folder)
            else:
                self.unshown += 1
                print("not shown to be needed:", cell, "of", sorted(found.cells), "\n", question)

    def check_needed(self, question, spec, found, cell, folder):
        """Over rows that agree in all cells but one, the verdict is another one."""
        other, last = found.needed[cell], max(time for _, time in found.needed[cell])
        rows = [[other.get((name, at), row[k]) for k, name in enumerate(NAMES)] for at, row in enumerate(question.rows)]
        rows += [[other.get((name, at), 0) for name in NAMES] for at in range(len(rows), last + AHEAD)]
        for name, at in found.cells - {cell}:
            self.assertEqual(rows[at][NAMES.index(name)], question.rows[at][NAMES.index(name)])
        self.assertNotIn(verdicts(spec, rows, folder)["f"].get(question.time), (found.word, None))

    def check_open(self, question, spec, found, folder):
        """The named rows to come decide what the verdict of that time will be."""
        self.assertTrue(all(at >= len(question.rows) for _, at in found.cells))
        dice = random.Random(0)
        there = {(name, at) for name in NAMES for at in range(len(question.rows))}
        ahead = self.other_rows(dice, question.rows, there)
        words = set()
        for _ in range(CHANGES):
            rows = self.other_rows(dice, ahead, there | found.cells)
            words.add(verdicts(spec, rows, folder)["f"].get(found.at))
        self.assertEqual(len(words), 1)

    def check_lines(self, question, made, window, explainer, found, folder):
        """Each formula of the tree, as it is written, has the word that is said of it, at those times."""
        says, told, left = Sentences(made.shown, Cells(window, explainer.signals), False), {}, list(found.reasons)
        while left:
            reason = left.pop()
            left += reason.below
            text, word = says.worded(reason.ref, reason.denied, reason.word)
            if word in (TRUE, FALSE):
                told.setdefault((text, word), set()).update(reason.times)
        section = question.text[question.text.rindex("SPEC") - 2 :][:6]
        outputs = "\n".join(f"{section} {text};" for text, _ in told)
        head = question.text[: question.text.rindex(section)]
        spec = folder / "lines.c2po"
        spec.write_text(head + outputs + "\n")
        words = verdicts(spec, question.rows, folder) if told else {}
        for number, ((text, word), times) in enumerate(told.items()):
            for time in times:
                self.assertIn(words.get(str(number), {}).get(time), (("F", "T")[word], None), (text, time))
