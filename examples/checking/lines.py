"""Formulas that are a line of a file each: what mathset rejects of them, and what it sets but probably not as meant."""
from checking.faults import Check
from checking.source import Cutter, Document, Place, Unit
from checking.warnings import warnings_of


class Lines:
    """The formulas of a file, behind definitions that have no fault. The lines are those of the file."""

    def __init__(self, name, formulas, program, defined_in, definitions):
        """FORMULAS are pairs of a line and its text, in order."""
        self.name = name
        files, texts = [name], [text_of_lines(formulas)]
        if definitions:
            files, texts = [defined_in, *files], [definitions, *texts]
        self.document = Document(files, texts)
        self.before = self.document.first_lines[-1] - 1
        made = [unit for unit in Cutter(definitions.decode("latin-1")).units_of_source() if unit.kind != "formula"]
        self.units = {line: self.unit(line, len(made)) for line, _ in formulas}
        self.several = {line for line, unit in self.units.items() if not unit.is_whole}
        self.check = Check(self.document, program, made + list(self.units.values()))
        self.is_checked = False
        self.warnings = None

    def unit(self, line, made):
        """The formula of a line. It is not whole where mathset ends it elsewhere."""
        start = self.document.offset(self.before + line, 1)
        text = self.document.text[start : self.document.offset(self.before + line + 1, 0)]
        indent = len(text) - len(text.lstrip())
        cutter = Cutter(text.strip())
        tokens = [(token, start + indent + offset) for token, offset in cutter.tokens]
        unit = Unit("formula", start + indent, start + len(text), cutter.text, tokens)
        units = cutter.units_of_source()
        unit.is_whole = len(units) == 1 and units[0].is_whole and units[0].text == cutter.text
        unit.definitions_before = made
        return unit

    def faults(self):
        """The texts of the faults by their lines. The formulas are run at the first call."""
        if not self.is_checked:
            self.check.faults_of_units()
            self.is_checked = True
        return {line: self.shown(line, unit.fault) for line, unit in self.units.items() if unit.fault}

    def at_line(self, line, text, column=1):
        return f"{self.name}:{line}:{column}: {text}"

    def shown(self, line, place):
        """What is found behind the line is shown at its beginning."""
        is_in_line = place.line == self.before + line
        shown = self.document.shown(place if is_in_line else Place(self.before + line, 1, place.text))
        return shown.encode("latin-1").decode(errors="replace")

    def find_warnings(self):
        """Pairs of a line and a text as `warnings`, once. Those of formulas at fault are among them."""
        if self.warnings is None:
            found = warnings_of(self.document, self.check.units)
            self.warnings = [(place.line - self.before, self.shown(place.line - self.before, place)) for place in found]

    def rejected(self, texts):
        """The lines that mathset rejects with these texts in place of their own."""
        self.check.find_names()
        needed = {line: self.check.needed(self.units[line]) for line in texts}
        keys = {line: (text.decode("latin-1"), needed[line], True) for line, text in texts.items()}
        found = self.check.places(dict.fromkeys(keys.values()))
        return {line for line, key in keys.items() if key in found}


def text_of_lines(formulas):
    """A file that has these texts in their lines."""
    lines = [b""] * max((line for line, _ in formulas), default=0)
    for line, text in formulas:
        lines[line - 1] = text
    return b"\n".join(lines) + b"\n"
