"""The page, with what it shows first."""

import json
from pathlib import Path
from string import Template
from typing import Any, Dict

from r2u2tools.common.palette import css
from r2u2tools.play.examples import examples

PAGE = Path(__file__).resolve().parent / "page.html"
STYLE, SCRIPT = PAGE.with_name("page.css"), PAGE.with_name("page.js")


def page(first: Dict[str, Any], nonce: str) -> str:
    """The whole page as one text; data can't end the element that holds it."""
    data = json.dumps({"first": first, "examples": examples()}).replace("<", "\\u003c")
    texts = {"style": css() + STYLE.read_text(encoding="utf-8"), "script": SCRIPT.read_text(encoding="utf-8")}
    return Template(PAGE.read_text(encoding="utf-8")).substitute(nonce=nonce, data=data, **texts)
