"""What to write instead: the reader's own line, as the language has it."""

import re
from typing import Callable, List, Match, Optional, Tuple, Union

from r2u2tools.check.notes import Row

Rewrite = Tuple[str, str, Union[str, Callable[[Match[str]], str]]]
ROWS_A_SECOND = 10
SECONDS = {"ms": 0.001, "s": 1, "sec": 1, "min": 60, "m": 60, "h": 3600}
WORDS = {"and": "&&", "or": "||", "not": "!", "implies": "->", "iff": "<->"}
SIGNS = {"≤": "<=", "≥": ">=", "≠": "!=", "∧": "&&", "∨": "||", "¬": "!", "→": "->", "↔": "<->", "~": "!", "&": "&&", "|": "||"}
OPERAND = r"(\w+|\([^()]*\))"


def scaled(found: Match[str]) -> str:
    """An interval with decimals: all ends times the same power of ten."""
    ends = re.split(r"\s*,\s*", found[2])
    places = max(len(it.partition(".")[2]) for it in ends)
    return f"{found[1]}[{','.join(str(round(float(it) * 10**places)) for it in ends)}]"


def in_rows(found: Match[str]) -> str:
    """An interval with units: its ends in rows."""
    def rows(end: Match[str]) -> str:
        return str(round(float(end[1]) * SECONDS.get(end[2], 1) * ROWS_A_SECOND))

    return f"{found[1]}[{re.sub(r'([0-9.]+)([a-z]*)', rows, found[2])}]"


def sign(found: Match[str]) -> str:
    """A word for an operator as its sign, with the blank after it."""
    word = WORDS[found[0].strip().lower()]
    return word if word == "!" else word + " "


def section(found: Match[str]) -> str:
    return found[0].upper()


# How a line is recognized: what is wrong with it, and what takes the place of that.
REWRITES: List[Rewrite] = [
    (r"^\s*/\*\s*(.*?)\s*(?:\*/\s*(.*)|$)", "a comment runs from -- to the end of its line", lambda it: f"{it[2] or ''} -- {it[1]}".strip()),
    (r"/\*.*?\*/|/\*.*$", "a comment runs from -- to the end of its line", ""),
    (r"//", "a comment runs from -- to the end of its line", "--"),
    (r"^\s*(?:[Ss]truct|[Ii]nput|[Dd]efine|[FfPp]tspec)\b", "sections are written in capitals", section),
    (r"^\s*ATOMIC\s+(\w+)\s*:(?!=)", "a comparison with a name is a definition", r"DEFINE \1 :="),
    (r"\b([FGURSOH])\[((?:\d+\s*,\s*)?\d*\.\d+|\d*\.\d+\s*,\s*\d*\.?\d+)\]", "an interval counts rows, in whole numbers: seconds times the rows of one", scaled),
    (r"\b([FGURSOH])\[([0-9., ]*\d\s*(?:ms|sec|min|s|m|h)\s*)\]", f"an interval counts rows, here {ROWS_A_SECOND} to a second", in_rows),
    (r"\b([FGUR])\[\s*-\d+\s*,", "an interval begins at row 0 or later; O, H and S in PTSPEC look back", r"\1[0,"),
    (r"(?<=:)(\s*)G\s*(?=\()", "each row is judged by itself, so a requirement always holds without G", r"\1"),
    (r"\b([FGOH])(?:\s*(?=\()|\s+(?=[\w!]))", "an operator of time has an interval in rows", r"\1[0,10] "),
    (r"\b(\w+)\s*==\s*true\b", "a Boolean is its own truth", r"\1"),
    (r"\b(\w+)\s*==\s*false\b|\b(\w+)\s*!=\s*true\b", "a Boolean is its own truth", lambda it: f"!{it[1] or it[2]}"),
    (r"\b([A-Za-z_]\w*(?:[-.]\w+)+)(\s*:)(?!=)", "a name has letters, digits and _", lambda it: re.sub(r"[-.]", "_", it[1]) + it[2]),
    (rf"{OPERAND}\s+xor\s+{OPERAND}", "exclusive or", r"!(\1 <-> \2)"),
    (r"\brose\(([^()]*)\)", "a change is between two rows, in PTSPEC from the row before", r"(\1 && O[1,1] !(\1))"),
    (r"\bfell\(([^()]*)\)", "a change is between two rows, in PTSPEC from the row before", r"(!(\1) && O[1,1] (\1))"),
    (r"\b(?:prev|previous|yesterday)\(([^()]*)\)", "the row before, in PTSPEC", r"O[1,1] (\1)"),
    (r"\b(?:next|X)\s*\(([^()]*)\)", "the next row, in FTSPEC", r"F[1,1] (\1)"),
    (rf"\b({'|'.join(WORDS)})\b *|\b({'|'.join(WORDS).upper()})\b *", "operators are signs", sign),
    (r"(?<!&)&(?!&)|(?<!\|)\|(?!\|)|[≤≥≠∧∨¬→↔~]", "operators are signs of ASCII", lambda it: SIGNS[it[0]]),
]


def rewritten(line: str) -> Optional[Row]:
    """The line in other words, where some of the patterns are in it."""
    code, dashes, comment = line.partition("--")
    reasons: List[str] = []
    for pattern, why, by in REWRITES:
        code, count = re.subn(pattern, by, code)
        reasons += [why] * (count > 0 and why not in reasons)
    return Row("; ".join(reasons), line, (code + dashes + comment).strip()) if reasons else None
