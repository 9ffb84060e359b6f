"""Colours of specifications in the site: mkdocs runs this file, which brings pygments the language."""

import sys
from pathlib import Path

from pygments import lexers, token
from pygments.lexer import RegexLexer, words

__all__ = ["C2poLexer"]


class C2poLexer(RegexLexer):
    name = "C2PO"
    aliases = ["c2po"]
    tokens = {
        "root": [
            (r"\s+", token.Whitespace),
            (r"--.*", token.Comment.Single),
            (words(("STRUCT", "INPUT", "DEFINE", "FTSPEC", "PTSPEC"), suffix=r"\b"), token.Keyword),
            (words(("bool", "int", "set"), suffix=r"\b"), token.Keyword.Type),
            (words(("true", "false"), suffix=r"\b"), token.Keyword.Constant),
            (words(("foreach", "forsome", "forexactly", "foratleast", "foratmost"), suffix=r"\b"), token.Keyword.Reserved),
            (r"[FGURSOH]\b", token.Operator.Word),
            (r"\d+", token.Number),
            (r"\w+(?=\s*:)", token.Name.Label),
            (r"\w+", token.Name),
            (r"[-+*/%<>!.=&|:]+", token.Operator),
            (r".", token.Punctuation),
        ]
    }


# Pygments imports a lexer by the name of its module.
sys.path.append(str(Path(__file__).parent))
lexers.LEXERS["C2poLexer"] = (Path(__file__).stem, C2poLexer.name, tuple(C2poLexer.aliases), (), ())
