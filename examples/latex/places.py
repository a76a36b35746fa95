"""Texts of authors, and places in them.

A place is an offset into all texts that were read, one behind the other, so that a token needs one number only.
"""

import bisect
from typing import NamedTuple


class Fault(NamedTuple):
    """What cannot be had, at a place; a warning does not keep its formula from being set."""

    place: int
    length: int
    text: str
    is_warning: bool = False


class Refused(Exception):
    """A fault that ends the reading of a formula."""

    def __init__(self, place, text, length=1):
        super().__init__(text)
        self.fault = Fault(place, length, text)


class Texts:
    """All texts that were read, with the names of their files."""

    def __init__(self):
        self.starts = []
        self.names = []
        self.texts = []
        self.lines = []
        self.size = 0

    def add(self, text, name):
        """Takes a text, and gives the place of its first character."""
        start = self.size
        self.starts.append(start)
        self.names.append(name)
        self.texts.append(text)
        self.lines.append(None)
        self.size += len(text) + 1
        return start

    def file_of(self, place):
        """The number of the text in which this place is."""
        return max(0, bisect.bisect_right(self.starts, place) - 1)

    def line_column(self, place):
        """The name of the file, the line and the column of a place, both from 1."""
        number = self.file_of(place)
        if self.lines[number] is None:
            text = self.texts[number]
            self.lines[number] = [0] + [at + 1 for at, char in enumerate(text) if char == "\n"]
        offset = place - self.starts[number]
        line = bisect.bisect_right(self.lines[number], offset)
        return self.names[number], line, offset - self.lines[number][line - 1] + 1
