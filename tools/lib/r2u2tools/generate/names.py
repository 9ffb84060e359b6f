"""Names in C."""

from __future__ import annotations

import re

from r2u2tools.common.cli import Trouble

# Words of C and C++ that no struct can have as its name.
RESERVED = frozenset(
    """alignas alignof and and_eq asm auto bitand bitor bool box break case catch char class compl const const_cast constexpr
    continue decltype default delete do double dynamic_cast else enum explicit export extern false float for friend goto if
    inline int long mutable namespace new noexcept not not_eq nullptr operator or or_eq private protected public queue
    register reinterpret_cast restrict return short signed sizeof static static_assert static_cast struct switch template
    this thread_local throw true try typedef typeid typename union unsigned using virtual void volatile wchar_t while xor
    xor_eq""".split()
)


def struct_name(text: str) -> str:
    """The name of the struct, which has to be an identifier of C that no other use is made of."""
    text = text.removesuffix(".c").removesuffix(".h")
    if not re.fullmatch(r"[A-Za-z][A-Za-z0-9_]{0,30}", text):
        raise Trouble(f"'{text}' is no name of a struct: write a letter and up to 30 letters, digits and _, as -o grant", 1)
    if text in RESERVED or re.match(r"u?int\d*_t$", text):
        raise Trouble(f"'{text}' is a word of C or of the source: write another one, as -o {text}_monitor", 1)
    return text
