"""The reading of traces as runs."""

import io
import random
import time
from unittest import mock

from support import Case

from r2u2tools.common import traces
from r2u2tools.common.program_file import Signal
from r2u2tools.common.cli import ToolError
from r2u2tools.common.verdict_lines import Reader


def runs(trace):
    return {name: list(column) for name, column in zip(trace.names, trace.columns)}


class Traces(Case):
    def read(self, text, signals=None):
        return traces.read_trace(self.file("trace", text), signals)

    def test_header(self):
        trace = self.read("# a, b \n1,5\n\n1,5\r\n0 , 5\n")
        self.assertEqual(runs(trace), {"a": [(0, 1, "1"), (2, 2, "0")], "b": [(0, 2, "5")]})
        self.assertEqual((trace.times, trace.stamps), (3, None))

    def test_a_header_with_quotes(self):
        kept = [Signal("x", "int", 0), Signal("z", "bool", 1)]
        self.assertEqual(runs(self.read('#"speed, m/s",x,z\n7,50,1\n', kept)), {"x": [(0, 0, "50")], "z": [(0, 0, "1")]})
        self.assertEqual(self.read('#"a ""b""", "c",d"e\r\n1,2,3\n').names, ['a "b"', '"c"', 'd"e'])

    def test_no_header(self):
        self.assertEqual(runs(self.read("1,2\n3,4")), {"column 0": [(0, 0, "1"), (1, 1, "3")], "column 1": [(0, 0, "2"), (1, 1, "4")]})

    def test_signals(self):
        kept = [Signal("b", "int", 1), Signal("a", "bool", 0)]
        self.assertEqual(runs(self.read("# x,a,b\n9,1,5\n", kept)), {"b": [(0, 0, "5")], "a": [(0, 0, "1")]})
        self.assertEqual(runs(self.read("1,5\n", kept)), {"b": [(0, 0, "5")], "a": [(0, 0, "1")]})

    def test_stamps(self):
        trace = self.read("# a\n@0,1\n@3,0\n@9000000000,1\n")
        self.assertEqual(runs(trace), {"a": [(0, 2, "1"), (3, 8999999999, "0"), (9000000000, 9000000000, "1")]})
        self.assertEqual(list(trace.stamps), [0, 3, 9000000000])

    def test_runs(self):
        column = self.read("# a\n1\n1\n0\n0\n1\n").columns[0]
        self.assertEqual(list(column.between(1, 3)), [(1, 1, "1"), (2, 3, "0")])
        self.assertEqual([column.at(k) for k in range(6)], ["1", "1", "0", "0", "1", None])

    def test_columns_are_their_fields(self):
        """Each column and each stretch of it, over rows at random, has the fields that are there."""
        dice = random.Random(0)
        for _ in range(30):
            rows = [[str(dice.randint(0, 1)), str(dice.randint(0, 3) // 3), "7"] for _ in range(dice.randint(1, 30))]
            columns = self.read("# a,b,c\n" + "".join(",".join(row) + "\n" for row in rows)).columns
            first, last = sorted(dice.randint(0, 32) for _ in range(2))
            for k, column in enumerate(columns):
                fields = [row[k] for row in rows]
                self.assertEqual([column.at(time) for time in range(len(rows))], fields)
                self.assertEqual(len(column), 1 + sum(one != other for one, other in zip(fields, fields[1:])))
                told = [(time, value) for begin, end, value in column.between(first, last) for time in range(begin, end + 1)]
                self.assertEqual(told, list(enumerate(fields))[first : last + 1])

    def test_lines_that_are_alike_as_one_by_one(self):
        """Rows at random, some stamped, with blanks, empty lines and faults, in pieces of any size."""
        def outcome(rows, size):
            file = io.BytesIO(rows)
            file.read1 = lambda _: io.BytesIO.read(file, size)
            try:
                trace = traces.filled(file, None, None)
            except ToolError as trouble:
                return str(trouble)
            return runs(trace), trace.times, trace.stamps

        dice, said = random.Random(0), set()
        for _ in range(300):
            rows, time = [b"# a,b"] * dice.randint(0, 1), -1
            fields = dice.choice([["0", "1"], ["0", "1", " 1"], ["7", "\u00b5", "\udcff"], ["", "0"]])
            stamped, end = dice.choice([0, 0, 1, 0.5]), dice.choice([b"\n", b"\r\n"])
            for _ in range(dice.randint(0, 60)):
                time += dice.choice([1, 1, 5])
                stamp = f"@{time}," if dice.random() < stamped else ""
                rows.append((stamp + ",".join(dice.choice(fields) for _ in range(2))).encode("utf-8", "surrogateescape"))
                if dice.random() < 0.01:
                    rows.append(dice.choice([b"", b" \t", b"1", b"1,0,1", b"@x,1,0", b"@0,1,0", b"@ 9,1,0", b" @9,1", b"@" + b"9" * 5000 + b",1,0"]))
            text, size = end.join(rows) + end, dice.choice([5, 100, 1 << 16])
            found = outcome(text, size)
            with mock.patch.object(traces.Filler, "take_alike", return_value=False):
                self.assertEqual(outcome(text, size), found, text)
            said.add(found if isinstance(found, str) else "")
        self.assertGreater(len(said), 5)

    def test_faults(self):
        for text, said in [("# a,b\n1\n", "line 2: too few"), ("@0,1\n@0,1\n", "line 2: times"), ("@x,1\n", "line 1: bad time")]:
            with self.assertRaises(ToolError) as caught:
                self.read(text)
            self.assertIn(said, str(caught.exception))
        with self.assertRaises(ToolError) as caught:
            traces.read_trace(self.folder / "nothing.csv")
        self.assertEqual(str(caught.exception), f"cannot open {self.folder}/nothing.csv: No such file or directory")

    def test_a_million_rows(self):
        path = self.file("long.csv", "# a,b\n" + "0,1\n1,1\n" * 500000)
        before = time.process_time()
        trace = traces.read_trace(path)
        self.assertLess(time.process_time() - before, 20)
        self.assertEqual((trace.times, len(trace.columns[0]), len(trace.columns[1])), (1000000, 1000000, 1))


class VerdictLines(Case):
    def outcome(self, text, read):
        """What lines say of each output, or what is wrong with them."""
        found = {}
        try:
            for name, times, words in read(Reader("x"), io.BytesIO(text)):
                found.setdefault(name, []).extend(zip(times, words))
        except ToolError as trouble:
            return str(trouble)
        return list(found.items())

    def test_blocks_tell_the_same_as_lines(self):
        """Of lines at random, some of them with a fault."""
        def by_line(reader, file):
            return ((name, [last], [word]) for name, _, last, word in reader.stretches(file))

        def by_block(reader, file):
            return ((name, part.times, part.words) for parts in reader.parts(file) for name, part in parts.items())

        faults = ["", "a,b:c", ":1,T", "a:,T", "a:1,X", "a:0,T", "a: 1,T", "a:1_0,T", "a:+9,T", "z:" + "0" * 13 + "1,T", "x" * 65 + ":1,T", "x" * 200]
        dice, said = random.Random(0), set()
        for _ in range(300):
            next_of, lines = dict.fromkeys("abc", 0), []
            for _ in range(dice.randint(0, 60)):
                name = dice.choice("abc")
                time = next_of[name] + dice.choice([0, 0, 3])
                next_of[name] = time + 1
                lines.append(f"{name}:{time},{dice.choice(['T', 'F', 'inactive', 'invalid', 'verified'])}{dice.choice(['', '', chr(13)])}")
            if dice.random() < 0.4:
                lines.insert(dice.randint(0, len(lines)), dice.choice(faults))
            text = "\n".join(lines).encode() + b"\n" * (bool(lines) and dice.randint(0, 1))
            found = self.outcome(text, by_block)
            self.assertEqual(found, self.outcome(text, by_line), text)
            said.add(found if isinstance(found, str) else "")
        self.assertGreater(len(said), 10)
