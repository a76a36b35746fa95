"""The formulas of a conversion as one source for mathset, with the way back to the author's text."""

from .places import Fault

# A page of mathset's is at most 16,383pt long, and ends where the source says so.
ON_A_PAGE = 50


class Source:
    """A source with a formula on each line, and pages that end after so many formulas."""

    def __init__(self, conversion):
        self.conversion = conversion
        self.formulas = [None]
        lines = []
        for formula in conversion.formulas:
            if formula.source is None:
                continue
            lines.append(formula.source)
            self.formulas.append(formula)
            if (len(lines) + 1) % (ON_A_PAGE + 1) == 0:
                lines.append("\\eject")
                self.formulas.append(None)
        self.text = "".join(line + "\n" for line in lines)

    def place(self, line, column):
        """The author's place of a line and a column of the source, both from 1."""
        formula = self.formulas[line] if 0 < line < len(self.formulas) else None
        return None if formula is None else formula.author_offset(column - 1)

    def line_column(self, line, column):
        """The author's file, line and column of a line and a column of the source."""
        place = self.place(line, column)
        return self.conversion.line_column(self.conversion.own if place is None else place)

    def map_lines(self):
        """The lines of a map: line and column of the source, line and column of the author's text, and its file."""
        for line, formula in enumerate(self.formulas):
            for offset, place in formula.marks if formula else ():
                name, from_line, column = self.conversion.line_column(place)
                yield f"{line} {offset + 1} {from_line} {column} {name}\n"


def fault_line(conversion, fault):
    """A fault as a line of output."""
    kind = "warning: " if isinstance(fault, Fault) and fault.is_warning else ""
    return "%s:%d:%d: %s" % (*conversion.line_column(fault.place), kind + fault.text)
