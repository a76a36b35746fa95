"""Texts in LaTeX for the scripts: converted by examples/latex, with faults at the places of the author's text."""
import pathlib
import sys

from checking.lines import Lines
from checking.source import Document, Place
from latex import convert, decoded
from latex.names import path_of_names
from latex.source import Source, fault_line


def read(name):
    """The text of a file, or of standard input where its name is -."""
    return decoded(sys.stdin.buffer.read() if name == "-" else pathlib.Path(name).read_bytes())


def converted(name, definitions):
    """The conversion of a file; DEFINITIONS is the name of a file of LaTeX definitions that is read before it, or None."""
    before = read(definitions) if definitions else ""
    return convert(read(name), before, "standard input" if name == "-" else name, definitions)


def names_of_mathset():
    """The file of definitions that a converted source comes after, and its text."""
    path = path_of_names()
    return str(path), path.read_bytes()


def in_latin(text):
    """A text as the scripts take it, which write Latin-1: the bytes of its UTF-8."""
    return text.encode("utf-8").decode("latin-1")


class LatexDocument(Document):
    """A converted text behind the definitions; its places are shown by the author's lines."""

    def __init__(self, conversion):
        names, definitions = names_of_mathset()
        self.conversion = conversion
        self.source = Source(conversion)
        super().__init__([names, "source.tex"], [definitions, self.source.text.encode("ascii")])

    def author(self, line, column):
        """The author's file, line and column."""
        return self.source.line_column(line - self.first_lines[-1] + 1, column)

    def shown(self, place):
        """A place as a line of the output."""
        if place.line < self.first_lines[-1]:
            return super().shown(place)
        text = place.with_opening(lambda line, column: self.author(line, column)[1:]).text
        return in_latin("%s:%d:%d: " % self.author(place.line, place.column)) + text

    def sorted_lines(self, places):
        """The lines of the output for places of mathset and for what could not be converted, in the author's order."""
        first = self.first_lines[-1]
        found = [(self.source.place(place.line - first + 1, place.column) or 0, self.shown(place)) for place in places]
        found += [(fault.place, in_latin(fault_line(self.conversion, fault))) for fault in self.conversion.faults]
        return [text for _, text in sorted(found)]

    def count_of_faults(self):
        """How many formulas could not be converted."""
        return sum(not fault.is_warning for fault in self.conversion.faults)


class LatexLines(Lines):
    """The formulas of a conversion, each on the line that is its number in the author's text."""

    def __init__(self, conversion, program):
        names, definitions = names_of_mathset()
        self.conversion = conversion
        self.numbered = [(number, formula) for number, formula in enumerate(conversion.formulas, 1) if formula.source]
        texts = [(number, formula.source.encode("ascii")) for number, formula in self.numbered]
        super().__init__("source.tex", texts, program, names, definitions)
        self.warnings = []

    def place(self, line, column):
        """The author's place."""
        formula = self.conversion.formulas[line - 1]
        return formula.start if formula.source is None else formula.author_offset(column - 1)

    def at_line(self, line, text, column=1):
        name, own_line, own_column = self.conversion.line_column(self.place(line, column))
        return f"{name}:{own_line}:{own_column}: {text}"

    def shown(self, line, place):
        """A fault by the author's lines."""
        column = place.column if place.line == self.before + line else 1
        text = place.with_opening(lambda _, at: self.conversion.line_column(self.place(line, at))[1:]).text
        return self.at_line(line, text, column)

    def faults_of_conversion(self):
        """Pairs of the number of a formula and a text, and the same for warnings."""
        faults, warnings, seen = [], [], set()
        for number, formula in enumerate(self.conversion.formulas, 1):
            for fault in formula.faults:
                (warnings if fault.is_warning else faults).append((number, fault_line(self.conversion, fault)))
                seen.add(fault)
        left = [fault for fault in self.conversion.faults if fault not in seen]
        faults += [(0, fault_line(self.conversion, fault)) for fault in left]
        return faults, warnings
