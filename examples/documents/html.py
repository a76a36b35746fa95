"""Formulas in the text of an HTML document."""
import html
from bisect import bisect_right
from html.parser import HTMLParser
from typing import NamedTuple

from .text import formulas_of

# The text of these elements is code, or is not shown as text.
SKIPPED = {"code", "kbd", "math", "pre", "samp", "script", "style", "svg", "textarea", "title"}


class Formula(NamedTuple):
    """A formula of a document: its source, and where it is with its marks.

    `places` has the offset in the document of each character of the source, and of its end.
    """

    source: str
    places: list
    start: int
    end: int
    is_display: bool


class Lines:
    """Lines and columns of a document; both begin with 1."""

    def __init__(self, document):
        self.starts = [0]
        self.starts += [at + 1 for at, character in enumerate(document) if character == "\n"]

    def offset(self, line, column):
        """The offset of a line and of a column that begins with 0, as a parser has them."""
        return self.starts[line - 1] + column

    def place(self, offset):
        line = bisect_right(self.starts, offset)
        return line, offset - self.starts[line - 1] + 1


class Texts(HTMLParser):
    """Collects the runs of text between tags, each with the offset in the document of each character."""

    def __init__(self, document):
        super().__init__(convert_charrefs=False)
        self.document = document
        self.lines = Lines(document)
        self.skipped = []
        self.runs = []
        self.text, self.places = [], []
        self.feed(document)
        self.close()
        self.end_run(len(document))

    def end_run(self, offset):
        if self.text:
            self.runs.append(("".join(self.text), [*self.places, offset]))
        self.text, self.places = [], []

    def here(self):
        return self.lines.offset(*self.getpos())

    def add(self, text, places):
        if not self.skipped:
            self.text.append(text)
            self.places.extend(places)

    def handle_data(self, data):
        self.add(data, range(self.here(), self.here() + len(data)))

    def handle_entityref(self, name):
        self.reference("&" + name)

    def handle_charref(self, name):
        self.reference("&#" + name)

    def reference(self, written):
        text = html.unescape(written + ";")
        self.add(text, [self.here()] * len(text))

    def handle_starttag(self, tag, attributes):
        self.end_run(self.here())
        if tag in SKIPPED:
            self.skipped.append(tag)

    def handle_startendtag(self, tag, attributes):
        self.end_run(self.here())

    def handle_endtag(self, tag):
        self.end_run(self.here())
        if tag in self.skipped:
            while self.skipped.pop() != tag:
                pass

    def handle_comment(self, data):
        self.end_run(self.here())

    handle_decl = handle_pi = unknown_decl = handle_comment


def formulas_in(document):
    """The formulas of an HTML document, in order."""
    for text, places in Texts(document).runs:
        for found in formulas_of(text):
            inside = places[found.offset : found.offset + len(found.source) + 1]
            yield Formula(found.source, inside, places[found.start], places[found.end], found.is_display)


def replaced(document, formulas, texts):
    """The document with a text in place of each formula; None leaves the formula as it is."""
    parts, at = [], 0
    for formula, text in zip(formulas, texts):
        if text is not None:
            parts += document[at : formula.start], text
            at = formula.end
    return "".join(parts) + document[at:]
