"""Formulas in a text, between the marks that MathJax, KaTeX and pandoc take."""
import re
from typing import NamedTuple

# `$` opens a formula before a character that is not a blank, and closes it after one and before no digit, as in
# pandoc's Markdown; so `$5 and $6` are amounts. `\$` is a dollar.
MARKS = re.compile(
    r"\\\$"
    r"|\\\((?P<inline>.+?)\\\)"
    r"|\\\[(?P<display>.+?)\\\]"
    r"|\$\$(?P<dollars>.+?)\$\$"
    r"|\$(?P<dollar>(?!\s)(?:\\.|[^$\\])+?)(?<!\s)\$(?!\d)",
    re.DOTALL,
)


class Found(NamedTuple):
    """A formula: its source and where that begins, and where the formula begins and ends with its marks."""

    source: str
    offset: int
    start: int
    end: int
    is_display: bool


def formulas_of(text):
    """The formulas of a text, in order."""
    for match in MARKS.finditer(text):
        kind = match.lastgroup
        if kind is None or not match[kind].strip():
            continue
        yield Found(match[kind], match.start(kind), match.start(), match.end(), kind in ("display", "dollars"))
