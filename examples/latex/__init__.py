"""LaTeX's formulas as those of mathset.

`convert` reads a text as authors write it in LaTeX, a document or formulas alone, and gives its formulas in order,
each as a source for mathset that comes after the definitions of examples/latex-names.tex. What cannot be had is a fault
with its place in the author's text. Python's standard library is all that it needs.

    from latex import convert
    result = convert("Let $x \\\\le \\\\text{a half}$.")
    result.formulas[0].source        # between $ and $, or $$ and $$ for a display; None where it is at fault
    result.formulas[0].is_display
    result.formulas[0].author_offset(7)   # the place in the author's text of a character of the source
    result.faults                    # faults and warnings of all formulas, in order
"""

import bisect
from typing import NamedTuple

from . import document
from .formula import Formula, joined
from .names import names_of
from .places import Fault, Refused, Texts
from .reader import Meanings, Reader, decoded

__all__ = ["convert", "Conversion", "Converted", "Fault", "decoded"]


class Converted(NamedTuple):
    """A formula: its source for mathset in one line (None where it is at fault), whether it is a display, the places of
    its opening mark and of its last token before the closing mark, and its faults and warnings. `marks` has pairs, of
    an offset in the source and of the author's place that it comes from, in the order of the source."""

    source: object
    is_display: bool
    start: int
    end: int
    faults: list
    marks: list

    def author_offset(self, offset):
        """The place in the author's text of the character at an offset of the source."""
        number = bisect.bisect_right(self.marks, (offset, float("inf"))) - 1
        return self.marks[max(0, number)][1] if self.marks else self.start


class Conversion(NamedTuple):
    """What `convert` gives: the formulas, all faults in order, and the texts that places are in. A place below `own` is
    in the definitions; the author's text begins at `own`, so an offset in it is the place less `own`."""

    formulas: list
    faults: list
    texts: Texts
    own: int

    def line_column(self, place):
        """The name of the file of a place, its line and its column, both from 1."""
        return self.texts.line_column(place)

    def offset(self, place):
        """The offset of a place in the author's text; negative in the definitions."""
        return place - self.own


def convert(text, definitions="", name="formula", definitions_name="definitions", names=None, most=None):
    """Converts a text of LaTeX's.

    `text` is the author's text and `definitions` what is read before it, as \\newcommand; formulas in the definitions
    are not given. `name` and `definitions_name` are shown for places in them; files that \\input names are looked for
    beside `name`. `names` is the path of the file of definitions for mathset that the output comes after, by default
    examples/latex-names.tex. After `most` formulas the rest is not read. Nothing is raised for what a text may contain.
    """
    texts = Texts()
    known = names_of(names)
    meanings = Meanings()
    if definitions:
        read_definitions(definitions, definitions_name, texts, meanings, known)
    own = texts.add(text, name)
    reader = new_reader(meanings, texts, known)
    reader.open_text(text, name, own)
    formulas, faults = [], []
    for found in document.Document(reader, faults.append).formulas():
        formulas.append(one(found, reader, known))
        faults += formulas[-1].faults
        if most is not None and len(formulas) >= most:
            break
    return Conversion(formulas, sorted(set(faults)), texts, own)


def new_reader(meanings, texts, known):
    """A reader that knows the names."""
    reader = Reader(meanings, texts)
    reader.known = known
    return reader


def read_definitions(text, name, texts, meanings, known):
    """Carries out the definitions of a text."""
    reader = new_reader(meanings, texts, known)
    reader.open_text(text, name, texts.add(text, name))
    for _ in document.Document(reader, lambda fault: None).formulas():
        pass


def one(found, outer, known):
    """A formula that was found, converted."""
    faults = []
    reader = new_reader(outer.meanings, outer.texts, known)
    reader.is_math = True
    reader.put_back_all(found.inner)
    formula = Formula(reader, known, faults.append)
    is_display = found.kind == document.DISPLAY
    saved = len(outer.meanings.saved)
    outer.meanings.open()
    source, marks = None, []
    try:
        pieces = formula.display(found.opening, found.name) if is_display else formula.inline(found.opening)
        source, marks = joined(pieces)
    except Refused as refused:
        faults.append(refused.fault)
    except RecursionError:
        faults.append(Fault(found.opening.place, 1, "the formula that begins here is nested too deeply"))
    while len(outer.meanings.saved) > saved:
        outer.meanings.close()
    if any(not fault.is_warning for fault in faults):
        source = None
    return Converted(source, is_display, found.opening.place, found.last_place(), faults, marks)
