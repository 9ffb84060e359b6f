"""The colours of all pictures and pages, by what they show, on a light screen and on a dark one."""

from __future__ import annotations

from typing import Mapping

LIGHT = {
    "back": "#ffffff", "ink": "#1f2933", "faint": "#6b7785", "grid": "#d9dfe6", "pale": "#e8edf2", "curve": "#8593a3", "mark": "#7b8794",
    "true": "#2f74c0", "true-ink": "#ffffff", "false": "#c93a4e", "false-ink": "#ffffff", "idle": "#c9d3de", "idle-ink": "#3b4754",
    "open": "#f3f5f7", "open-ink": "#5f6b78", "bad": "#b3263d", "pick": "#8a5a00", "pin": "#1f293326",
}
# Squares of words are the same on both, so that a picture in a page and the page agree.
DARK = {
    **LIGHT, "back": "#0d1117", "ink": "#e6edf3", "faint": "#a9b4c0", "grid": "#5b6b7c", "pale": "#2a3542", "curve": "#5b6b7c",
    "open": "#20262d", "open-ink": "#a9b4c0", "bad": "#f58d9c", "pick": "#ffcf70", "pin": "#e6edf333",
}


def variables(colours: Mapping[str, str]) -> str:
    return " ".join(f"--{name}: {colour};" for name, colour in colours.items())


def css() -> str:
    """The colours as variables of a page, by the screen or by its attribute data-theme."""
    light, dark = f"color-scheme: light; {variables(LIGHT)}", f"color-scheme: dark; {variables(DARK)}"
    by_screen = f'@media (prefers-color-scheme: dark) {{ :root:not([data-theme="light"]) {{ {dark} }} }}'
    return f':root {{ {light} }}\n{by_screen}\n:root[data-theme="dark"] {{ {dark} }}\n'
