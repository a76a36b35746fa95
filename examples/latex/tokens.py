"""TeX's tokens with their places (The TeXbook, chapters 7 and 8)."""

import re
from typing import NamedTuple

# The kinds of tokens: control sequences, and characters by their category.
NAME = "name"
BEGIN = "begin"
END = "end"
MATH = "math"
TAB = "tab"
PARAMETER = "parameter"
UP = "superscript"
DOWN = "subscript"
SPACE = "space"
LETTER = "letter"
OTHER = "other"
ACTIVE = "active"

CATEGORIES = {
    "{": BEGIN, "}": END, "$": MATH, "&": TAB, "#": PARAMETER, "^": UP, "_": DOWN, "~": ACTIVE,
}  # fmt: skip

# A comment with its line end and the blanks of the next line; an empty line; blanks; a control sequence; a character.
PATTERN = (
    r"%%[^\n]*(?:\n[ \t]*)?|[ \t\r]*\n[ \t\r]*(?:\n[ \t\r]*)+|[ \t\r]+(?:\n[ \t\r]*)?|\n[ \t\r]*"
    r"|\\[%s]+|\\[\s\S]|[\s\S]"
)
OUTSIDE = re.compile(PATTERN % "A-Za-z")
INSIDE = re.compile(PATTERN % "A-Za-z@")
EMPTY_LINE = re.compile(r"[ \t\r]*\n[ \t\r]*\n")


class Token(NamedTuple):
    """A token: its kind, its character or the name of a control sequence, and its place."""

    kind: str
    text: str
    place: int

    def is_name(self, *names):
        """Whether this is one of these control sequences."""
        return self.kind == NAME and self.text in names

    def is_character(self, *characters):
        """Whether this is one of these letters or other characters."""
        return self.kind in (OTHER, LETTER) and self.text in characters

    def source(self):
        """The token as it is written."""
        return "\\" + self.text if self.kind == NAME else self.text

    def length(self):
        """How many characters it is long in the text."""
        return len(self.source())


class Lexer:
    """Gives the tokens of a text, one at a time."""

    def __init__(self, text, start, name=""):
        self.text = text
        self.start = start
        self.name = name
        self.at = 0
        self.pattern = INSIDE if name.endswith((".sty", ".cls")) else OUTSIDE

    def next(self):
        """The next token, or None at the end."""
        text = self.text
        while self.at < len(text):
            at = self.at
            found = self.pattern.match(text, at).group()
            self.at += len(found)
            first = found[0]
            if first == "\\":
                return self.control(found, at)
            if first == "%":
                if self.ends_paragraph():
                    return Token(NAME, "par", self.start + at)
                continue
            if first.isspace():
                if found.count("\n") > 1:
                    return Token(NAME, "par", self.start + at)
                return Token(SPACE, " ", self.start + at)
            kind = CATEGORIES.get(first) or (LETTER if first.isalpha() and first.isascii() else OTHER)
            return Token(kind, first, self.start + at)
        return None

    def control(self, found, at):
        """A control sequence; blanks after a control word are skipped."""
        name = found[1:]
        if name.isspace():
            return Token(NAME, " ", self.start + at)
        if name[:1].isalpha() or name[:1] == "@" and len(name) > 1:
            self.skip_blanks()
        return Token(NAME, name, self.start + at)

    def skip_blanks(self):
        """Skips blanks and a line end, but no empty line."""
        text = self.text
        end = self.at
        while end < len(text) and text[end] in " \t\r":
            end += 1
        if end < len(text) and text[end] == "\n" and not EMPTY_LINE.match(text, self.at):
            end += 1
            while end < len(text) and text[end] in " \t\r":
                end += 1
        elif end < len(text) and text[end] == "\n":
            return
        self.at = end

    def ends_paragraph(self):
        """Whether an empty line follows a comment; it is taken."""
        found = re.match(r"(?:[ \t\r]*\n)+[ \t\r]*", self.text[self.at : self.at + 200])
        if found and self.text[self.at - 1 : self.at] in ("\n", " ", "\t"):
            self.at += found.end()
            return True
        return False

    def raw_until(self, mark):
        """Skips up to and with a text, and gives what is before it."""
        end = self.text.find(mark, self.at)
        if end < 0:
            end = len(self.text)
        found = self.text[self.at : end]
        self.at = min(len(self.text), end + len(mark))
        return found


def tokens_of(text, place=0, with_at=False):
    """All tokens of a text, with one place for all of them, as for the body of a definition of ours."""
    lexer = Lexer(text, 0, ".sty" if with_at else "")
    found = []
    while (token := lexer.next()) is not None:
        found.append(token._replace(place=place))
    return found
