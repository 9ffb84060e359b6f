"""Tests of the Python module over the library that R2U2_LIBRARY names; GRANT names the program of the first example.

    R2U2_LIBRARY=build/libr2u2.so python3 -m unittest embed/tests/test_module.py
"""

import copy
import ctypes
import os
import pickle
import subprocess
import sys
import unittest
from array import array
from decimal import Decimal
from fractions import Fraction
from pathlib import Path
from types import SimpleNamespace
from unittest import mock

ROOT = Path(__file__).resolve().parents[2]
sys.path.insert(0, str(ROOT / "embed/python"))
GRANT = ROOT / "examples/embed/grant.bin"
# A program of version 1 without columns, with the truth as its one output `o`.
NO_COLUMNS = (b"MLTL\1\0\0\0" + b"".join(k.to_bytes(4, "little") for k in (0, 0, 1, 0, 1, 1))
              + b"".join(k.to_bytes(4, "little") for k in (0x10, 0, 0, 0, 0, 1)) + b"".join(k.to_bytes(4, "little") for k in (0x30, 0, 0, 1, 0, 0)) + b"o")
ROWS = [[1, 0], [0, 1], [1, 0], [0, 0], [0, 0], [0, 0]]
WORDS = ["T", "T", "F", "T", "T", "T"]

try:
    import r2u2

    r2u2.version()
except OSError:
    r2u2 = None
try:
    import numpy
except ImportError:
    numpy = None


@unittest.skipIf(r2u2 is None, "no libr2u2.so: make python builds it, and R2U2_LIBRARY may name another")
class Module(unittest.TestCase):
    def setUp(self):
        self.monitor = r2u2.Monitor(GRANT.read_bytes())
        self.addCleanup(self.monitor.close)

    def words(self, rows, **how):
        """The words that rows bring to a fresh monitor."""
        self.monitor.reset()
        return [report.word for report in self.monitor.row_many(rows, **how)]

    def assert_raises(self, kind, text, call, *arguments):
        with self.assertRaises(kind) as raised:
            call(*arguments)
        self.assertIn(text, str(raised.exception))
        return raised.exception


class Sequences(Module):
    def test_rows_of_any_sequence(self):
        self.assertEqual(self.words(ROWS), WORDS)
        self.assertEqual(self.words(tuple(map(tuple, ROWS))), WORDS)
        self.assertEqual(self.words(iter(ROWS)), WORDS)
        self.assertEqual(self.words([array("b", row) for row in ROWS]), WORDS)
        self.assertEqual(self.words([[float(it) for it in row] for row in ROWS]), WORDS)
        self.assertEqual(self.words([[bool(it) for it in row] for row in ROWS]), WORDS)
        self.assertEqual(self.words([[Fraction(it), Decimal(other)] for it, other in ROWS]), WORDS)
        self.assertEqual(self.words([]), [])

    def test_one_row_of_any_sequence(self):
        for row in ([0, 1], (0, 1), iter([0, 1]), array("q", [0, 1]), array("h", [0, 1]), array("d", [0, 1]), memoryview(array("q", [0, 1]))):
            self.monitor.reset()
            self.monitor.row(row)
            self.assertEqual(self.monitor.rows, 1)

    def test_one_row_that_does_not_fit(self):
        for row in ([0, 2**63], iter([0, 2**63]), array("Q", [0, 2**63]), [0, 2.0**63], [0, 2]):
            error = self.assert_raises(r2u2.Error, "no number that fits in column 2", self.monitor.row, row)
            self.assertEqual(error.column, 1)

    def test_what_is_no_row(self):
        for take in (self.monitor.row, lambda row: self.monitor.row_many([[0, 1], row])):
            self.assert_raises(ValueError, "column 2: 0.5 is not a whole number", take, [0, 0.5])
            self.assert_raises(ValueError, "column 1: nan is not a whole number", take, [float("nan"), 0])
            self.assert_raises(ValueError, "column 1: 'a' is not a whole number", take, ["a", 0])
            self.assert_raises(ValueError, "Fraction(1, 2) is not a whole number", take, [0, Fraction(1, 2)])
            for row in (b"\0\1", "01", 1, None, {0, 1}, {0: 0, 1: 1}):
                self.assert_raises(TypeError, f"not {type(row).__name__}", take, row)
        self.assert_raises(TypeError, "rows are an iterable of rows or a buffer, and not int", self.monitor.row_many, 1)
        self.assertEqual(self.monitor.rows, 0)

    def test_rows_that_do_not_fit(self):
        for bad, column in (([0, 2], 1), ([0], 1), ([0, 2**70], 1), ([0, 1, 0], 2), ([-(2**63) - 1, 0], 0)):
            self.monitor.reset()
            error = self.assert_raises(r2u2.Error, f"column {column + 1}", self.monitor.row_many, [*ROWS, bad, *ROWS])
            self.assertEqual((error.code, error.column, error.taken), (r2u2.Code.NOT_A_ROW, column, 6))
            self.assertEqual([report.word for report in error.reports], WORDS)

    def test_a_flat_buffer(self):
        flat = array("q", [it for row in ROWS for it in row])
        self.assertEqual(self.words(flat), WORDS)
        self.assertEqual(self.words(memoryview(flat).toreadonly()), WORDS)
        self.assertEqual(self.words(memoryview(flat).cast("B").cast("q", (6, 2))), WORDS)
        self.assertEqual(self.words(array("i", flat)), WORDS)
        self.assert_raises(ValueError, "11 numbers are not whole rows of a program of 2 columns", self.words, flat[:11])
        self.assert_raises(ValueError, "0.5 is not a whole number", self.words, array("d", [0, 0.5]))

    def test_addresses_are_aligned(self):
        """The library takes aligned numbers, wherever the buffer of a row or of rows begins."""
        shifted = memoryview(bytearray(1) + array("q", [0, 1, 0, 1]).tobytes())[1:]
        for buffer in (shifted.cast("q"), shifted.toreadonly().cast("q")):
            self.assertEqual(ctypes.addressof(r2u2._integers(buffer)) % 8, 0)
            self.assertEqual(self.words(buffer), ["T", "T"])
            self.monitor.reset()
            self.monitor.row(buffer[:2])
        aligned = array("q", [0, 1])
        self.assertEqual(ctypes.addressof(r2u2._integers(memoryview(aligned))), aligned.buffer_info()[0])

    def test_a_monitor_is_not_copied(self):
        for take in (copy.copy, copy.deepcopy, pickle.dumps):
            self.assert_raises(TypeError, "neither copied nor pickled", take, self.monitor)

    def test_what_is_no_program(self):
        for program in ("grant.bin", 5, None):
            self.assert_raises(TypeError, "a bytes-like object is required", r2u2.Monitor, program)

    def test_a_program_without_columns(self):
        with r2u2.Monitor(NO_COLUMNS) as monitor:
            self.assertEqual(len(monitor.row_many([[], [], []])), 3)
            self.assertEqual(monitor.rows, 3)
            monitor.reset()
            self.assertEqual(monitor.table([[], []]), {"o": ["T", "T"]})
            self.assertEqual(monitor.row_many([]), [])
            self.assert_raises(ValueError, "1 numbers are not whole rows", monitor.row_many, array("q", [1]))
            if numpy:
                self.assertEqual(len(monitor.row_many(numpy.empty((4, 0), dtype="int64"))), 4)

    def test_rows_of_many_reports(self):
        """However many reports a row may bring, there is room for some of them."""
        with mock.patch.multiple(r2u2, ROOM=1, MOST_ROOM=1), r2u2.Monitor(GRANT.read_bytes()) as monitor:
            self.assertEqual(len(monitor._room), 2)
            for rows in (ROWS, array("q", sum(ROWS, []))):
                monitor.reset()
                self.assertEqual([report.word for report in monitor.row_many(rows)], WORDS)
                error = self.assert_raises(r2u2.Error, "column 2", monitor.row_many, [[0, 1], [0, 2]])
                self.assertEqual((error.taken, len(error.reports)), (1, 1))

    def test_a_library_that_lies(self):
        """Whatever the library returns, row_many and all_reports end."""
        call = self.monitor._call
        for rows in (0, 7, 2**63):
            def lie(it, runs, numbers, count, room, size, batch, fault, rows=rows):
                batch.rows = rows
                return 0
            self.monitor._call = SimpleNamespace(r2u2_row_many=lie)
            self.assert_raises(RuntimeError, f"took {rows} of 6 rows", self.monitor.row_many, ROWS)
        self.monitor._call = SimpleNamespace(r2u2_next_many=lambda *_: 0)
        self.assert_raises(RuntimeError, "more than 4 reports of a row", self.monitor.all_reports)
        self.monitor._call = call

    def test_codes(self):
        self.assertEqual(str(r2u2.Error(r2u2.Code.NO_MEMORY)), "out of memory")
        error = self.assert_raises(r2u2.Error, "short", r2u2.Monitor, GRANT.read_bytes()[:-1])
        self.assertEqual((error.code, error.fault.kind), (r2u2.Code.REFUSED, 1))
        self.assertIs(type(error.code), r2u2.Code)


@unittest.skipIf(numpy is None, "no numpy: apt-get install python3-numpy")
class Arrays(Module):
    def test_other_shapes_are_refused(self):
        self.assert_raises(ValueError, "each row has 4 columns, and the program has 2", self.words, numpy.array([[1, 0, 0, 0], [0, 1, 0, 0]]))
        self.assert_raises(ValueError, "each row has 1 columns, and the program has 2", self.words, numpy.array([[1], [0]]))
        self.assert_raises(ValueError, "these have 3", self.words, numpy.zeros((2, 2, 2), dtype="int64"))
        self.assert_raises(ValueError, "these have 0", self.words, numpy.array(1))
        self.assert_raises(ValueError, "a row has one dimension, and this one has 2", self.monitor.row, numpy.array([[1, 0]]))
        self.assertEqual(self.monitor.rows, 0)

    def test_any_type_of_whole_numbers(self):
        for kind in ("int64", "int32", "int16", "int8", "uint8", "uint16", "uint32", "uint64", "bool", "float64", "float32", "float16", ">i4", ">i8", "object"):
            rows = numpy.array(ROWS).astype(kind)
            with self.subTest(kind):
                self.assertEqual(self.words(rows), WORDS)
                self.assertEqual(self.words(list(rows)), WORDS)
                self.monitor.reset()
                self.monitor.row(rows[0])

    def test_any_layout(self):
        rows = numpy.array(ROWS)
        wide = numpy.zeros((12, 4), dtype="int64")
        wide[::2, ::2] = rows
        for same in (numpy.asfortranarray(rows), wide[::2, ::2], rows[::-1][::-1], numpy.ascontiguousarray(rows.T).T):
            self.assertEqual(self.words(same), WORDS)
        rows.setflags(write=False)
        self.assertEqual(self.words(rows), WORDS)
        self.assertEqual(self.words(rows[:0]), [])

    def test_masked_numbers_are_missing(self):
        rows = numpy.ma.array(ROWS)
        self.assertEqual(self.words(rows), WORDS)
        rows[3, 1] = numpy.ma.masked
        self.assert_raises(ValueError, "column 2: masked is not a whole number", self.words, rows)
        self.assert_raises(ValueError, "column 2: masked is not a whole number", self.monitor.row, rows[3])

    def test_numbers_that_do_not_fit(self):
        rows = numpy.array(ROWS, dtype="uint64")
        rows[3, 1] = 2**64 - 1
        error = self.assert_raises(r2u2.Error, "column 2", self.words, rows)
        self.assertEqual((error.taken, error.column, len(error.reports)), (3, 1, 2))
        self.assert_raises(ValueError, "column 2: nan is not a whole number", self.words, numpy.array([[0, numpy.nan]]))
        self.assert_raises(ValueError, "column 1: inf is not a whole number", self.words, numpy.array([[numpy.inf, 0]]))
        self.assert_raises(TypeError, "format", self.words, numpy.array([[1j, 0]]))
        for kind in ("datetime64[D]", "timedelta64[s]"):
            self.assert_raises(ValueError, "is not a whole number", self.words, numpy.array([[0, 1]], dtype=kind))


class Types(unittest.TestCase):
    def test_types(self):
        try:
            ran = subprocess.run(["mypy", "--strict", "--python-version", "3.9", "--cache-dir", "/dev/null", str(ROOT / "embed/python/r2u2")],
                                 stdout=subprocess.PIPE, encoding="utf-8")
        except FileNotFoundError:
            self.skipTest("no mypy: apt-get install mypy")
        self.assertEqual(ran.returncode, 0, ran.stdout)


if __name__ == "__main__":
    unittest.main()
