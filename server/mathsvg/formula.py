"""A formula as a caller gives it, and its fault in the caller's own text."""

import dataclasses
import re

# What a formula must not have: a brace without its counterpart, a $ outside of braces, a backslash at the end. A
# comment hides what is behind it. These are the tokens of docs/RULES.md, "Source: tokens".
MARK = re.compile(rb"\\(?:[A-Za-z]+|.|\Z)|%[^\n]*|[{}$]", re.DOTALL)
TOKEN = re.compile(r"\\(?:[A-Za-z]+|.)|.", re.DOTALL)
# Displays that cannot be a part of a formula, and so are set by themselves.
WHOLE = re.compile(rb"\\(?:eqno|leqno|eqalignno|leqalignno|displaylines)(?![A-Za-z])")


@dataclasses.dataclass(frozen=True)
class Fault:
    """Why there is no picture. The line and the column count from 1, in characters; the length can be 0, at the end.

    `where` is "formula", or "definitions" where the place is in these.
    """

    line: int
    column: int
    length: int
    text: str
    where: str = "formula"

    def as_json(self):
        """The fault as the server answers it."""
        found = {"line": self.line, "column": self.column, "length": self.length, "text": self.text}
        if self.where != "formula":
            found["in"] = self.where
        return found


@dataclasses.dataclass(frozen=True)
class Formula:
    """A formula without the dollars round it, in text style or as a display."""

    source: str
    display: bool = False


def fault_at(text, offset, said, length=None, where="formula"):
    """A fault at an offset of a text, at the token there if no length is given."""
    before = text[:offset]
    if length is None:
        token = TOKEN.match(text, offset)
        length = len(token[0]) if token else 0
    return Fault(before.count("\n") + 1, offset - before.rfind("\n"), length, said, where)


def whole_fault(formula, said):
    """A fault of a formula as a whole."""
    return Fault(1, 1, len(formula.source), said)


def unbalanced(text):
    """The offset of what would end the formula's group or page early, and why; None if there is nothing."""
    opened = []
    for mark in MARK.finditer(text):
        if mark[0] == b"{":
            opened.append(mark.start())
        elif mark[0] == b"}":
            if not opened:
                return mark.start(), "this } has no matching {"
            opened.pop()
        elif mark[0] == b"$" and not opened:
            return mark.start(), "a formula is given without the $ round it"
        elif mark[0] == b"\\":
            return mark.start(), "a backslash at the end of the formula"
    return (opened[0], "this { has no matching }") if opened else None


def ends_in_comment(text):
    """Whether what follows the text would be a part of a comment."""
    last = None
    for last in MARK.finditer(text):
        pass
    return last is not None and last[0][:1] == b"%" and last.end() == len(text)
