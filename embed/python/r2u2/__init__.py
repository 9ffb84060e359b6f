"""The monitor in Python, by ctypes over libr2u2.so, which `make python` builds and `make wheel` packs.

    with Monitor(open("grant.bin", "rb").read(), "#request,grant") as monitor:
        for report in monitor.watch([[1, 0], [0, 1]]):
            print(report)

The library is the file that the variable R2U2_LIBRARY names, otherwise the one next to this file, otherwise libr2u2.so as the
system finds it. A row is a sequence of whole numbers or a buffer of one dimension, such as array("q") or a row of a numpy array.
Aligned buffers of 64-bit integers are not copied.
"""

import ctypes
import enum
import functools
import html
import operator
import os
import struct
from array import array
from collections.abc import Iterable, Iterator, Mapping, Set
from typing import Any, NamedTuple, Optional

WORDS = ("F", "T", "inactive", "invalid", "verified")
DIGEST_BYTES = 32
NAME_BYTES = 65
# How many reports of rows there is room for, beyond the most that one row brings, if these are at most MOST_ROOM.
ROOM = 1024
MOST_ROOM = 65536
# A report as the library writes it.
REPORT = struct.Struct("=QII")


class Code(enum.IntEnum):
    """What a call of the library returns."""

    DONE = 0
    NOT_OPEN = 1
    ALREADY_OPEN = 2
    REFUSED = 3
    NO_MEMORY = 4
    REPORTS_LEFT = 5
    NOT_A_ROW = 6
    TOO_MANY_ROWS = 7
    NO_REPORT = 8
    DAMAGED = 9
    NO_ROOM = 10

    @property
    def text(self) -> str:
        return "out of memory" if self is Code.NO_MEMORY else self.name.lower().replace("_", " ")


class OutputKind(enum.IntEnum):
    """What an output is."""

    FORMULA = 1
    CONTRACT = 2


class SignalKind(enum.IntEnum):
    """What a signal's column holds."""

    WHOLE = 0
    TRUTH = 1


class _Struct(ctypes.Structure):
    _fields_ = [("at", ctypes.c_void_p), ("rows", ctypes.c_uint64), ("width", ctypes.c_uint32),
                ("outputs", ctypes.c_uint32), ("signals", ctypes.c_uint32), ("steps", ctypes.c_uint64),
                ("most_reports", ctypes.c_uint64)]


class _Fault(ctypes.Structure):
    _fields_ = [("kind", ctypes.c_uint32), ("part", ctypes.c_uint32), ("place", ctypes.c_uint64),
                ("text", ctypes.c_char * 96)]


class _RowFault(ctypes.Structure):
    _fields_ = [("why", ctypes.c_uint32), ("column", ctypes.c_uint32)]


class _Report(ctypes.Structure):
    _fields_ = [("time", ctypes.c_uint64), ("output", ctypes.c_uint32), ("word", ctypes.c_uint32)]


class _Batch(ctypes.Structure):
    _fields_ = [("rows", ctypes.c_size_t), ("reports", ctypes.c_size_t)]


class Fault(NamedTuple):
    """The fault of a program or a header, as r2u2.h has it."""

    kind: int
    part: int
    place: int
    text: str


class Report(NamedTuple):
    """The word of an output at a time, in rows from 0."""

    name: str
    time: int
    word: str

    def __str__(self) -> str:
        return f"{self.name}:{self.time},{self.word}"


class Signal(NamedTuple):
    """A signal that a program stores; `column` is counted from 0."""

    name: str
    column: int
    is_truth: bool


class Error(Exception):
    """A code above 0. `fault` has kind, part, place and text if a program was refused; `column` is the column whose number
    doesn't fit, counted from 0. If `row_many` took rows before the one at fault, `taken` is how many, and `reports` has the
    reports of these."""

    def __init__(self, code: Code, text: str = "", fault: Optional[Fault] = None, column: Optional[int] = None) -> None:
        super().__init__(text or code.text)
        self.code, self.fault, self.column = code, fault, column
        self.taken = 0
        self.reports: list[Report] = []

    def _after(self, taken: int, reports: "list[Report]") -> "Error":
        self.taken, self.reports = taken, reports
        return self


class Table(dict[str, list[str]]):
    """The words of each output by name, one for each decided time; a notebook shows it as a table."""

    def _repr_html_(self) -> str:
        times = max((len(words) for words in self.values()), default=0)
        head = "".join(f"<th>{time}</th>" for time in range(times))
        rows = (
            f"<tr><th>{html.escape(name)}</th>" + "".join(f"<td>{word}</td>" for word in words) + "</tr>"
            for name, words in self.items()
        )
        return f"<table><tr><th>output</th>{head}</tr>{''.join(rows)}</table>"


_report = Report._make


def _does_not_fit(column: int) -> Error:
    return Error(Code.NOT_A_ROW, f"no number that fits in column {column + 1}", column=column)


def _row_error(code: int, column: int) -> Error:
    return _does_not_fit(column) if code == Code.NOT_A_ROW else Error(Code(code))


def _whole(number: Any, column: int) -> int:
    """Returns a number as an int. A float, a Decimal or a Fraction serves if it is whole."""
    try:
        return operator.index(number)
    except TypeError:
        pass
    try:
        whole, parts = number.as_integer_ratio()
    except (AttributeError, OverflowError, ValueError):
        parts = 0
    if parts != 1:
        raise ValueError(f"column {column + 1}: {number!r} is not a whole number")
    return int(whole)


def _no_row(it: Any) -> TypeError:
    return TypeError(f"a row is a sequence of whole numbers, and not {type(it).__name__}")


def _items(row: Any) -> "list[Any]":
    """Returns the items of a sequence or an iterator."""
    if not isinstance(row, Iterable):
        raise _no_row(row)
    return list(row)


def _view(rows: Any) -> "Optional[memoryview]":
    """Returns the buffer of an object, if it has one with numbers in it, none of which is masked."""
    if isinstance(rows, (bytes, bytearray, str, Mapping, Set)):
        raise _no_row(rows)
    if hasattr(rows, "mask"):
        return None
    try:
        view = memoryview(rows)
    except (TypeError, ValueError, BufferError):
        return None
    return None if view.format == "O" else view


def _integers(view: "memoryview") -> Any:
    """Returns the numbers of a buffer as C has them: a buffer of aligned 64-bit integers as it is, others copied."""
    if view.format in ("q", "l") and view.itemsize == 8 and view.c_contiguous and view.nbytes:
        kind = ctypes.c_int64 * (view.nbytes // 8)
        shared = None if view.readonly else kind.from_buffer(view)
        return shared if shared and not ctypes.addressof(shared) % 8 else kind.from_buffer_copy(view)
    return _array(_listed(view))


def _listed(view: "memoryview") -> "list[int]":
    """Returns the numbers of a buffer, row by row."""
    width = view.shape[-1] if view.shape else 1
    try:
        numbers = [it for it, in struct.iter_unpack(view.format, view.tobytes())] if view.nbytes else []
    except (struct.error, ValueError):
        raise TypeError(f"numbers of format {view.format!r} are not whole numbers") from None
    return [it if type(it) is int else _whole(it, k % width) for k, it in enumerate(numbers)]


def _array(numbers: "list[int]") -> Any:
    """Returns numbers as C has them. Raises OverflowError if one has more than 64 bits."""
    return (ctypes.c_int64 * max(len(numbers), 1)).from_buffer(array("q", numbers or [0]))


def _flat(view: "memoryview") -> "memoryview":
    """Returns the buffer of a row, which has one dimension."""
    if view.ndim != 1:
        raise ValueError(f"a row has one dimension, and this one has {view.ndim}")
    return view


def _row_of(row: Any) -> "list[int]":
    """Returns the numbers of a row."""
    view = _view(row)
    return [_whole(number, k) for k, number in enumerate(_items(row))] if view is None else _listed(_flat(view))


def _numbers(row: Any) -> "tuple[Any, int]":
    """Returns the numbers of a row as C has them, and their count."""
    listed = row if type(row) in (list, tuple) else None
    view = _view(row) if listed is None else None
    try:
        if view is not None:
            return _integers(_flat(view)), len(view)
        listed = _items(row) if listed is None else listed
        try:
            numbers = array("q", listed)
        except TypeError:
            numbers = array("q", _row_of(listed))
    except OverflowError:
        wholes = _row_of(row if listed is None else listed)
        raise _does_not_fit(next(k for k, it in enumerate(wholes) if not -(2**63) <= it < 2**63)) from None
    return (ctypes.c_int64 * len(numbers)).from_buffer(numbers) if numbers else (ctypes.c_int64 * 1)(), len(numbers)


def _unless_done(code: int, fault: _Fault) -> None:
    if code:
        text = fault.text.decode()
        refused = Fault(fault.kind, fault.part, fault.place, text) if code == Code.REFUSED else None
        raise Error(Code(code), text, fault=refused)


def _bytes(program: Any) -> bytes:
    return memoryview(program).tobytes()


def bytes_of(program: bytes) -> int:
    """Returns how many bytes a monitor of this program holds while it is open."""
    found, fault, program = ctypes.c_uint64(), _Fault(), _bytes(program)
    _unless_done(_library().r2u2_bytes(program, len(program), found, fault), fault)
    return int(found.value)


def version() -> int:
    """Returns the version of the library: 10,000, 100 and 1 times its three numbers."""
    return int(_library().r2u2_version())


def _path() -> str:
    beside = os.path.join(os.path.dirname(os.path.abspath(__file__)), "libr2u2.so")
    return os.environ.get("R2U2_LIBRARY") or (beside if os.path.isfile(beside) else "libr2u2.so")


@functools.lru_cache(maxsize=None)
def _loaded(path: str) -> Any:
    library = ctypes.CDLL(path)
    it, size, number = ctypes.POINTER(_Struct), ctypes.c_size_t, ctypes.c_uint32
    fault, chars = ctypes.POINTER(_Fault), ctypes.c_char_p
    calls: "dict[str, tuple[Any, list[Any]]]" = {
        "open": (number, [it, chars, size, fault]),
        "open_under": (number, [it, chars, size, chars, size, fault]),
        "open_checked": (number, [it, chars, size, chars, fault]),
        "bytes": (number, [chars, size, ctypes.POINTER(ctypes.c_uint64), fault]),
        "width": (number, [it]),
        "outputs": (number, [it]),
        "rows": (ctypes.c_uint64, [it]),
        "delay": (number, [it, number]),
        "steps": (ctypes.c_uint64, [it]),
        "most_reports": (ctypes.c_uint64, [it]),
        "output_kind": (number, [it, number]),
        "signals": (number, [it]),
        "signal": (number, [it, number, ctypes.POINTER(number), ctypes.POINTER(number), chars, size]),
        "version": (number, []),
        "name": (number, [it, number, chars, size]),
        "row": (number, [it, ctypes.POINTER(ctypes.c_int64), size, ctypes.POINTER(_RowFault)]),
        "next": (number, [it, number, ctypes.POINTER(_Report)]),
        "next_many": (number, [it, number, ctypes.POINTER(_Report), size, ctypes.POINTER(size)]),
        "row_many": (number, [it, number, ctypes.c_void_p, size, ctypes.POINTER(_Report), size,
                              ctypes.POINTER(_Batch), ctypes.POINTER(_RowFault)]),
        "reset": (number, [it]),
        "close_struct": (None, [it]),
    }
    for name, (result, arguments) in calls.items():
        call = getattr(library, f"r2u2_{name}")
        call.restype, call.argtypes = result, arguments
    return library


def _library() -> Any:
    return _loaded(_path())


class Monitor:
    """A monitor of a compiled program: with its signals in the columns of `header`, or opened only if the program's SHA-256 is
    `digest`. One thread uses it at a time. It is closed by `close`, or at the end of a `with`."""

    def __init__(self, program: bytes, header: Optional[str] = None, digest: Optional[bytes] = None) -> None:
        if digest is not None and (header is not None or len(digest) != DIGEST_BYTES):
            raise ValueError(f"a digest has {DIGEST_BYTES} bytes, and goes without a header")
        self._call = _library()
        self._it = _Struct()
        self._fault = _RowFault()
        self._open(_bytes(program), header, digest)
        self.width: int = self._call.r2u2_width(self._it)
        outputs = range(self._call.r2u2_outputs(self._it))
        self.names = [self._name(k) for k in outputs]
        self.delays: list[int] = [self._call.r2u2_delay(self._it, k) for k in outputs]
        self.steps: int = self._call.r2u2_steps(self._it)
        self.most_reports: int = self._call.r2u2_most_reports(self._it)
        self._room, self._batch = (_Report * (min(self.most_reports, MOST_ROOM) + ROOM))(), _Batch()
        self.contracts = [self._call.r2u2_output_kind(self._it, k) == OutputKind.CONTRACT for k in outputs]
        self.signals = [self._signal(k) for k in range(self._call.r2u2_signals(self._it))]

    def _open(self, program: bytes, header: Optional[str], digest: Optional[bytes]) -> None:
        fault = _Fault()
        if digest is not None:
            code = self._call.r2u2_open_checked(self._it, program, len(program), digest, fault)
        elif header is None:
            code = self._call.r2u2_open(self._it, program, len(program), fault)
        else:
            line = header.encode()
            code = self._call.r2u2_open_under(self._it, program, len(program), line, len(line), fault)
        _unless_done(code, fault)

    def _name(self, k: int) -> str:
        buffer = ctypes.create_string_buffer(NAME_BYTES)
        self._call.r2u2_name(self._it, k, buffer, len(buffer))
        return buffer.value.decode()

    def _signal(self, k: int) -> Signal:
        buffer, column, kind = ctypes.create_string_buffer(NAME_BYTES), ctypes.c_uint32(), ctypes.c_uint32()
        self._call.r2u2_signal(self._it, k, column, kind, buffer, len(buffer))
        return Signal(buffer.value.decode(), column.value, kind.value == SignalKind.TRUTH)

    @property
    def rows(self) -> int:
        """How many rows were taken."""
        return int(self._call.r2u2_rows(self._it))

    def row(self, numbers: Any) -> None:
        """Takes a row. All reports of the row before have to be asked for first.

        Raises Error if the row isn't taken, and ValueError or TypeError if a number isn't whole."""
        row, count = _numbers(numbers)
        fault = self._fault
        code = self._call.r2u2_row(self._it, row, count, fault)
        if code:
            raise _row_error(code, fault.column)

    def row_many(self, rows: Any, runs: bool = False) -> "list[Report]":
        """Takes rows, and returns their reports, by as few calls of the library as it can. The rows are an iterable of rows, a
        buffer of two dimensions, such as an array of numpy with a row of numbers in each row, or one of one dimension, such as
        array("q"), with rows one after another. If one row may bring more than 65,536 reports each row is taken by a call.

        Raises ValueError, before any row is taken, if a buffer has other dimensions or another number of columns than the
        program, and Error at the first row that isn't taken."""
        view = _view(rows)
        if view is None:
            if not isinstance(rows, Iterable):
                raise TypeError(f"rows are an iterable of rows or a buffer, and not {type(rows).__name__}")
            listed = [row if type(row) in (list, tuple) else _row_of(row) for row in rows]
            return self._listed_rows(listed, runs)
        count = self._rows_in(view)
        if not self.width:
            return self._listed_rows([[]] * count, runs)
        try:
            integers = None if self.most_reports > MOST_ROOM else _integers(view)
        except OverflowError:
            integers = None
        if integers is None:
            numbers = _listed(view)
            return self._one_by_one([numbers[k * self.width : (k + 1) * self.width] for k in range(count)], runs)
        return self._take(integers, count * self.width, runs)

    def _rows_in(self, view: "memoryview") -> int:
        """Returns how many rows a buffer has."""
        shape = tuple(view.shape or ())
        if len(shape) not in (1, 2):
            raise ValueError(f"rows have one or two dimensions, and these have {len(shape)}")
        if len(shape) == 2 and shape[1] != self.width:
            raise ValueError(f"each row has {shape[1]} columns, and the program has {self.width}")
        if len(shape) == 2:
            return shape[0]
        if shape[0] % self.width if self.width else shape[0]:
            raise ValueError(f"{shape[0]} numbers are not whole rows of a program of {self.width} columns")
        return shape[0] // self.width if self.width else 0

    def _listed_rows(self, rows: "list[Any]", runs: bool) -> "list[Report]":
        if not self.width or self.most_reports > MOST_ROOM or any(len(row) != self.width for row in rows):
            return self._one_by_one(rows, runs)
        try:
            numbers = _array([number for row in rows for number in row])
        except (OverflowError, TypeError):
            return self._one_by_one([_row_of(row) for row in rows], runs)
        return self._take(numbers, len(rows) * self.width, runs)

    def _take(self, numbers: Any, count: int, runs: bool) -> "list[Report]":
        found: list[Report] = []
        call, it, room, batch, fault = self._call.r2u2_row_many, self._it, self._room, self._batch, self._fault
        at = taken = 0
        while at < count:
            code = call(it, runs, ctypes.byref(numbers, 8 * at), count - at, room, len(room), batch, fault)
            if code:
                raise _row_error(code, fault.column)._after(taken, found)
            if not 0 < batch.rows <= (count - at) // self.width:
                raise RuntimeError(f"the library says that it took {batch.rows} of {(count - at) // self.width} rows")
            found += self._stored(batch.reports)
            taken += batch.rows
            at = taken * self.width
        return found

    def _one_by_one(self, rows: "list[Any]", runs: bool) -> "list[Report]":
        found: list[Report] = []
        for taken, row in enumerate(rows):
            try:
                self.row(row)
            except Error as error:
                raise error._after(taken, found)
            found += self.all_reports(runs)
        return found

    def _stored(self, count: int) -> "list[Report]":
        """Returns the first reports in the room."""
        names, reports = self.names, memoryview(self._room).cast("B")[: REPORT.size * count]
        return [_report((names[output], time, WORDS[word])) for time, output, word in REPORT.iter_unpack(reports)]

    def reports(self, runs: bool = False) -> Iterator[Report]:
        """Yields the reports of the rows so far that weren't returned yet: of each time, or of each longest run of one word."""
        report = _Report()
        while (code := self._call.r2u2_next(self._it, int(runs), report)) == Code.DONE:
            yield Report(self.names[report.output], report.time, WORDS[report.word])
        if code == Code.NOT_OPEN:
            raise Error(Code.NOT_OPEN)

    def all_reports(self, runs: bool = False) -> "list[Report]":
        """Returns the reports that `reports` yields, by as few calls of the library as it can."""
        found: list[Report] = []
        count = ctypes.c_size_t(len(self._room))
        while count.value == len(self._room):
            code = self._call.r2u2_next_many(self._it, int(runs), self._room, len(self._room), count)
            if code:
                raise Error(Code(code))
            found += self._stored(count.value)
            if len(found) > self.most_reports:
                raise RuntimeError(f"the library returns more than {self.most_reports} reports of a row")
        return found

    def watch(self, rows: Iterable[Any], runs: bool = False) -> Iterator[Report]:
        """Takes rows one by one, and yields the reports of each before it takes the next."""
        for row in rows:
            self.row(row)
            yield from self.reports(runs)

    def table(self, rows: Any) -> Table:
        """Takes all rows, and returns each output's words from time 0 on, by name."""
        words = Table((name, []) for name in self.names)
        for report in self.row_many(rows):
            words[report.name].append(report.word)
        return words

    def reset(self) -> None:
        """Resets the monitor to its state before the first row, in the memory that it has."""
        code = self._call.r2u2_reset(self._it)
        if code:
            raise Error(Code(code))

    def close(self) -> None:
        """Closes the monitor, and frees its memory."""
        self._call.r2u2_close_struct(self._it)

    def __reduce__(self) -> Any:
        raise TypeError("a monitor is neither copied nor pickled: open another one")

    def __enter__(self) -> "Monitor":
        return self

    def __exit__(self, *_: object) -> None:
        self.close()

    def __del__(self) -> None:
        if hasattr(self, "_it"):
            self.close()
