"""Formulas on their way: what the program gets of each, and what came of it."""

import re

from .formula import WHOLE, ends_in_comment, fault_at

BEFORE = b"\\smash.\\underline{"
AFTER = b"}\\smash."
# A page before the caller's definitions: if they set something, this page or the count of pages is another one.
MARK = b"$.$\n"
# What has no tokens: between two dollars these would be the beginning of a display.
BLANK = re.compile(rb"(?:\s|%[^\n]*(?:\n|\Z))*")
REDEFINED = re.compile(rb"\\def\s*\\(?:smash|underline)(?![A-Za-z])")


class Sheet:
    """A formula on its way: what the program gets, and what came of it."""

    def __init__(self, formula, room):
        self.formula = formula
        # What is left for the pictures of the request.
        self.room = room
        self.result = None
        self.is_converted = False
        text = encoded(formula.source)
        self.take(text, fault_in(formula.source, text))

    def take(self, text, own_fault):
        """Takes the text for the program. `own_fault` gives the fault in the caller's text at an offset of it."""
        self.text = text + b"\n" if ends_in_comment(text) else text
        self.own_fault = own_fault
        self.is_bare = bool(WHOLE.search(text))

    def page(self, is_bare):
        """A page with the formula alone, or so that it is measured."""
        marks = b"$$" if self.formula.display else b"$"
        bare = b" " if BLANK.fullmatch(self.text) else self.text
        inside = bare if is_bare else BEFORE + self.text + AFTER
        return marks + inside + marks + b"\n\\eject\n"


class Batch:
    """Sheets that are set with the same definitions, until a time. `room` is for the bytes of pictures."""

    def __init__(self, sheets, deadline, room, is_latex=False, definitions=""):
        self.sheets = sheets
        self.deadline = deadline
        self.room = room
        self.is_latex = is_latex
        self.asked_definitions = definitions
        # Those of LaTeX are carried out before the program runs.
        self.own = b"" if is_latex else encoded(definitions)
        self.definitions = MARK + self.own + b"\n\\eject\n" if self.own else b""
        self.is_redefined = bool(REDEFINED.search(self.own))

    def left(self):
        """The sheets without a result."""
        return without_results(self.sheets)

    def refuse(self, offset, said, length=None):
        """Gives all sheets that are left a fault at an offset of the definitions, which counts bytes in plain TeX."""
        text = self.asked_definitions
        at = offset if self.is_latex else characters_before(self.own, max(0, offset))
        fault = fault_at(text, at, said, length, "definitions")
        for sheet in self.left():
            sheet.result = fault


def without_results(sheets):
    """The sheets that are left."""
    return [sheet for sheet in sheets if sheet.result is None]


def encoded(text):
    """The bytes of a text. The program reports those that are not ASCII."""
    return text.encode("utf-8", "surrogatepass")


def characters_before(data, offset):
    """How many characters begin before an offset of the bytes of a text."""
    return sum(byte & 0xC0 != 0x80 for byte in data[:offset])


def fault_in(text, data):
    """Gives faults at offsets of the bytes of a text."""

    def found(offset, said):
        return fault_at(text, characters_before(data, offset), said)

    return found
