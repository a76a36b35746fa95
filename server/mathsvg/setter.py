"""Formulas in plain TeX or in LaTeX, and what comes of each."""

import os
import time

from .converter import Converters
from .engine import Engine
from .formula import Formula, unbalanced, whole_fault
from .limits import Limits, Room
from .program import TOP, find_program
from .sheets import Batch, Sheet

PLAIN_FONTS = TOP / "examples/cm-ams.fonts"
PLAIN_NAMES = TOP / "examples/more-names.tex"
LATEX_FONTS = TOP / "examples/latex.fonts"
LATEX_NAMES = TOP / "examples/latex-names.tex"
LATE = "not set, since the time of the request was over"


class Setter:
    """The program with the fonts of plain TeX and with those of LaTeX.

    `fonts` is a list of fonts and `names` a file of definitions, both instead of those that there are for each syntax.
    It has temporary folders, which `close` or the end of a `with` removes.
    """

    def __init__(self, fonts=None, names=None, limits=None, program=None):
        self.limits = limits or Limits()
        self.engines, self.converters = {}, []
        latex_names = LATEX_NAMES if LATEX_NAMES.exists() else PLAIN_NAMES
        self.latex_names = latex_names if names is None else names
        program = program or find_program()
        plain_names = PLAIN_NAMES if names is None else names
        try:
            self.engines[False] = Engine(fonts or PLAIN_FONTS, plain_names, self.limits, program)
            self.engines[True] = Engine(fonts or LATEX_FONTS, self.latex_names, self.limits, program)
        except BaseException:
            self.close()
            raise
        self.converter = self.new_converter()

    def __enter__(self):
        return self

    def __exit__(self, *_):
        self.close()

    def close(self):
        """Ends the processes and threads, and removes the folders."""
        for part in [*self.converters, *self.engines.values()]:
            part.close()

    def new_converter(self, count=None):
        """A converter from LaTeX, of some processes, for one thread; it ends with this setter."""
        self.converters.append(Converters(self.latex_names, self.limits, count or os.cpu_count() or 1))
        return self.converters[-1]

    def set(self, formulas, definitions="", latex=False, seconds=None):
        """Sets formulas, each a text or a Formula, and gives a Picture or a Fault for each, in order.

        `definitions` are before all of them: `\\def`, `\\mathcode` and `\\delcode`, or with `latex` what LaTeX takes.
        One formula at fault leaves the others as they are. Within `seconds`, or else within the limit of a request, the
        formulas that are not set by then have a fault that says so.
        """
        batch = self.batch(formulas, definitions, latex, seconds)
        self.convert(batch, self.converter)
        self.set_batch(batch)
        return [sheet.result for sheet in batch.sheets]

    def batch(self, formulas, definitions="", latex=False, seconds=None, room=None):
        """The sheets of formulas, and what they have together. `room` is for the bytes of their pictures."""
        formulas = [Formula(each) if isinstance(each, str) else each for each in formulas]
        deadline = time.monotonic() + (self.limits.request_seconds if seconds is None else seconds)
        room = room or Room(float("inf"))
        sheets = [Sheet(formula, room) for formula in formulas]
        for sheet in sheets:
            if len(sheet.formula.source) > self.limits.formula_characters:
                said = f"a formula can have at most {self.limits.formula_characters} characters"
                sheet.result = whole_fault(sheet.formula, said)
            elif not latex:
                refuse_unbalanced(sheet)
        return Batch(sheets, deadline, Room(float("inf")), latex, definitions)

    def convert(self, batch, converter, seconds=None):
        """Makes formulas in LaTeX those of the program. False if that takes more than `seconds`."""
        if batch.is_latex and any(not sheet.is_converted for sheet in batch.left()):
            deadline = batch.deadline if seconds is None else min(batch.deadline, time.monotonic() + seconds)
            is_whole = converter.convert(batch, deadline, seconds is None)
            for sheet in batch.left():
                if sheet.is_converted:
                    refuse_unbalanced(sheet)
            return is_whole
        return True

    def set_batch(self, batch):
        """Gives each sheet of a batch its result."""
        self.engines[batch.is_latex].set(batch)
        for sheet in batch.left():
            sheet.result = whole_fault(sheet.formula, LATE)

    def set_together(self, batches):
        """Sets batches without definitions of their own in the same runs. Sheets that are late have no result."""
        for is_latex, engine in self.engines.items():
            sheets = [sheet for batch in batches if batch.is_latex == is_latex for sheet in batch.left()]
            if sheets:
                deadline = time.monotonic() + self.limits.together_seconds
                engine.set(Batch(sheets, deadline, Room(self.limits.together_bytes), is_latex))

    def file(self, batch, command):
        """What a command of the program writes of a batch of which each formula was set before: a page for each."""
        return self.engines[batch.is_latex].file(batch, command)


def refuse_unbalanced(sheet):
    """Refuses a formula that would not end where it ends."""
    if found := unbalanced(sheet.text):
        sheet.result = sheet.own_fault(*found)
