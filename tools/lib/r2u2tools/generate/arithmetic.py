"""The Booleanizer in C: one constant local for each integer and each comparison of a row."""

from __future__ import annotations

from typing import Iterator

from r2u2tools.generate.program import Instruction, Program

SMALLEST, LARGEST = -(1 << 31), (1 << 31) - 1
COMPARED = ("==", "<", "<=")
Range = tuple[int, int]


def towards_zero(left: int, right: int) -> int:
    quotient = abs(left) // abs(right)
    return quotient if (left < 0) == (right < 0) else -quotient


def remainders(left: Range, divisor: int) -> Range:
    most = abs(divisor) - 1
    return (0 if left[0] >= 0 else -most, 0 if left[1] <= 0 and left[0] < 0 else most)


def range_of(it: Instruction, found: list[Range]) -> Range:
    """The least and the greatest value of an instruction, by those of its operands."""
    if it.op == "column":
        return SMALLEST, LARGEST
    if it.op == "const":
        return it.value, it.value
    if it.op == "truth" or it.op in COMPARED:
        return 0, 1
    left = found[it.left]
    if it.op == "neg":
        return -left[1], -left[0]
    right = found[it.right]
    if it.op == "%":
        return remainders(left, right[0])
    ends = [ended(it.op, one, other) for one in left for other in right]
    return min(ends), max(ends)


def ended(op: str, one: int, other: int) -> int:
    if op == "/":
        return towards_zero(one, other)
    return {"+": one + other, "-": one - other, "*": one * other}[op]


def ranges(program: Program) -> list[Range]:
    found = list[Range]()
    for it in program.bz:
        found.append(range_of(it, found))
    return found


def literal(value: int) -> str:
    """A constant of C with the type that holds it."""
    if value == -(1 << 63):
        return "(-INT64_C(9223372036854775807) - 1)"
    if value == SMALLEST:
        return "(-INT32_C(2147483647) - 1)"
    kind = "INT32_C" if SMALLEST <= value <= LARGEST else "INT64_C"
    return f"{kind}({value})" if value >= 0 else f"(-{kind}({-value}))"


class Arithmetic:
    """How the instructions of the Booleanizer are written: by number, the name or the constant that stands for each."""

    def __init__(self, program: Program) -> None:
        self.program = program
        self.ranges = ranges(program)

    def ref(self, k: int) -> str:
        it = self.program.bz[k]
        return literal(it.value) if it.op == "const" else f"b{k}"

    def is_small(self, k: int) -> bool:
        return SMALLEST <= self.ranges[k][0] and self.ranges[k][1] <= LARGEST

    def type_of(self, k: int) -> str:
        if self.program.bz[k].op in (*COMPARED, "truth"):
            return "bool"
        return "int32_t" if self.is_small(k) else "int64_t"

    def value(self, k: int) -> str:
        """The expression of an instruction; where 32 bits don't hold its operands or its value, it is computed in 64."""
        it = self.program.bz[k]
        if it.op == "column":
            return f"row[{it.left}]"
        if it.op == "truth":
            return f"row[{it.left}] != 0"
        if it.op in COMPARED and it.left == it.right:
            return "false" if it.op == "<" else "true"
        if it.op in COMPARED:
            return f"{self.ref(it.left)} {it.op} {self.ref(it.right)}"
        if it.op == "%" and abs(self.program.bz[it.right].value) == 1 or it.op == "%" and self.ranges[it.right][0] in (1, -1):
            return "0"
        cast = "" if self.is_small(k) else "(int64_t)"
        if it.op == "neg":
            return f"-{cast}{self.ref(it.left)}"
        if it.op == "%" and not self.is_small(it.right):
            cast = "(int64_t)"
        text = f"{cast}{self.ref(it.left)} {it.op} {self.ref(it.right)}"
        return f"(int32_t)({text})" if self.is_small(k) and not (self.is_small(it.left) and self.is_small(it.right)) else text

    def lines(self, used: set[int]) -> Iterator[str]:
        for k in sorted(used):
            if self.program.bz[k].op != "const":
                yield f"const {self.type_of(k)} b{k} = {self.value(k)};"

    def below(self, loads: set[int]) -> set[int]:
        """Some instructions with all that they read."""
        found, left = set[int](), list(loads)
        while left:
            k = left.pop()
            if k in found:
                continue
            found.add(k)
            it = self.program.bz[k]
            if it.op not in ("column", "truth", "const"):
                left += [it.left] if it.op == "neg" else [it.left, it.right]
        return found
