"""Many formulas set in one run of the program, also where some of them are refused."""

import bisect
import concurrent.futures
import itertools
import os
import pathlib
import re
import time

from .definitions import Definitions
from .fonts import CannotFind, FontList
from .formula import whole_fault
from .outlines import NoOutlines
from .picture import between_periods, by_extents, pages_of
from .program import TOO_LATE, TOO_LONG, CannotRun, Program
from .sheets import MARK, without_results

# The width of a line for what is measured: so wide that no display shrinks.
WIDE = 8000 * 65536
# 6.5in, the width of a line of the program.
LINE = 30785863
# Statuses of limits that all formulas of a run share, so that the one that is named can be innocent; of memory too.
SHARED = {42, 49, 60, TOO_LONG, TOO_LATE}
# A byte that is not allowed is refused before the formulas ahead of it are read.
BYTE = 40
# Statuses of the setting. Their place is the first $ of the formula, as it is of limits.
OF_SETTING = range(43, 48)
OF_THE_WHOLE = range(42, 48)
ONLY = "definitions can be \\def, \\mathcode and \\delcode alone"
# As many formulas are looked through in one process; several processes run side by side.
CHUNK = 128
STILL_OPEN = re.compile(r"\bat line (\d+), column (\d+)(?= is still open)")


class Late(Exception):
    """The time of a request is over, or the room of those that are set together."""


class Engine:
    """The program with a list of fonts and a file of definitions that all formulas may use."""

    def __init__(self, fonts, names, limits, program):
        self.limits = limits
        try:
            self.fonts = FontList(fonts)
            self.names = Definitions(pathlib.Path(names).read_bytes() if names else b"")
        except CannotFind as error:
            raise CannotRun(str(error)) from error
        except OSError as error:
            raise CannotRun(f"{names} cannot be read: {error.strerror}") from error
        # Then nothing can be measured.
        self.is_redefined = any(name in self.names.texts for name in (b"\\smash", b"\\underline"))
        self.program = Program(self.fonts, limits, program)
        self.helpers = concurrent.futures.ThreadPoolExecutor(os.cpu_count() or 1)

    def close(self):
        """Ends the threads and removes the folder of the program."""
        self.helpers.shutdown()
        self.program.close()

    def set(self, batch):
        """Gives each sheet of a batch its result; none to those that are late."""
        try:
            left = [sheet for sheet in batch.left() if sheet.is_converted or not batch.is_latex]
            for part in self.parts(left):
                self.settle(batch, part)
        except Late:
            pass

    def file(self, batch, command):
        """What a command of the program writes of a batch of which each formula was set before: a page for each."""
        names = self.names.needed([batch.own, *(sheet.text for sheet in batch.sheets)])
        pages = [sheet.page(True) for sheet in batch.sheets]
        run = self.program.run(command, b"".join([names, batch.own, b"\n", *pages]))
        if run.status:
            raise CannotRun(reason(run))
        return run.output

    def parts(self, sheets):
        """The sheets, in parts that one run can take."""
        part, size = [], 0
        for sheet in sheets:
            if part and (len(part) == self.limits.run_formulas or size > self.limits.run_bytes):
                yield part
                part, size = [], 0
            part.append(sheet)
            size += len(sheet.text)
        if part:
            yield part

    def settle(self, batch, sheets):
        """Sets sheets in one run. Where one is refused, finds all that are, and sets the rest."""
        if self.attempt(batch, sheets):
            return
        # What is refused only where it is measured, as a formula with 150 groups, is then set by itself.
        for is_bare, is_reading in itertools.product((True, False), (True, False)):
            self.look_through(batch, left_in_form(sheets, is_bare), is_bare, is_reading)
            if self.attempt(batch, sheets):
                return
        for sheet in without_results(sheets):
            sheet.result = whole_fault(sheet.formula, "not set")

    def attempt(self, batch, sheets):
        """Sets the sheets without a result, those that are measured in one run and the others in one. False if one is
        refused."""
        left = without_results(sheets)
        all_bare = self.is_redefined or batch.is_redefined
        bare = [sheet for sheet in left if sheet.is_bare or all_bare]
        measured = [sheet for sheet in left if not (sheet.is_bare or all_bare)]
        return all([self.attempt_alike(batch, measured, False), self.attempt_alike(batch, bare, True)])

    def attempt_alike(self, batch, sheets, is_bare):
        """Sets sheets in one run, or in several where they are together beyond a limit. False if one is refused."""
        if not sheets:
            return True
        run, starts = self.run(batch, sheets, is_bare)
        if run.status == 0:
            return self.take(batch, sheets, is_bare, pages_of(run.output))
        if run.status in SHARED and len(sheets) > 1:
            half = len(sheets) // 2
            parts = sheets[:half], sheets[half:]
            return all([self.attempt_alike(batch, part, is_bare) for part in parts])
        return self.is_of_definitions(batch, run, starts)

    def take(self, batch, sheets, is_bare, pages):
        """Takes the pages of a run. False where one is not the page of a measured formula."""
        if batch.definitions:
            mark = pages.pop(0) if pages else []
            if len(mark) != 1 or len(pages) != len(sheets):
                batch.refuse(0, ONLY)
                return True
        if len(pages) != len(sheets):
            for sheet in sheets:
                sheet.result = whole_fault(sheet.formula, "not set: there are more pages than formulas, or fewer")
            return True
        for sheet, places in zip(sheets, pages):
            self.draw(batch, sheet, places, is_bare)
        return all(sheet.result for sheet in sheets)

    def draw(self, batch, sheet, places, is_bare):
        """Gives a sheet its picture, if the page is that of a measured formula or of one by itself."""
        if len(places) > self.limits.places:
            said = f"a formula can have at most {self.limits.places} glyphs and rules"
            sheet.result = whole_fault(sheet.formula, said)
            return
        try:
            if is_bare:
                picture = by_extents(sheet.formula, self.fonts, places, LINE)
            else:
                picture = between_periods(sheet.formula, self.fonts, places)
        except NoOutlines as error:
            sheet.result = whole_fault(sheet.formula, str(error))
            return
        sheet.is_bare = is_bare or picture is None
        if picture:
            sheet.result = self.within_room(batch, sheet, picture)

    def within_room(self, batch, sheet, picture):
        """The picture, or a fault where the pictures of the request are too long with it."""
        if not sheet.room.take(picture.size()):
            said = f"the pictures of a request can have at most {self.limits.answer_bytes} bytes together"
            return whole_fault(sheet.formula, said)
        if not batch.room.take(picture.size()):
            raise Late
        return picture

    def run(self, batch, sheets, is_bare):
        """Runs the program on sheets. Gives the run, and the lines at which the definitions and the sheets begin."""
        seconds = batch.deadline - time.monotonic()
        if seconds <= 0:
            raise Late
        names = self.names.needed([batch.definitions, *(sheet.text for sheet in sheets)])
        texts = [names, batch.definitions, *(sheet.page(is_bare) for sheet in sheets)]
        starts = list(itertools.accumulate((text.count(b"\n") for text in texts), initial=1))
        run = self.program.run("places", b"".join(texts), seconds, LINE if is_bare else WIDE)
        if run.status == TOO_LATE and time.monotonic() >= batch.deadline:
            raise Late
        return run, starts[1:-1]

    def is_of_definitions(self, batch, run, starts):
        """Refuses all sheets where the fault of a run is in the definitions."""
        place = run.place()
        if not batch.definitions or not place or place[0] >= starts[1]:
            return False
        line, column, said = place
        batch.refuse(offset_of(batch.definitions, line - starts[0] + 1, column) - len(MARK), said)
        return True

    def look_through(self, batch, sheets, is_bare, is_reading):
        """Refuses all sheets with a fault of reading, or all with another fault; several processes side by side."""
        chunks = [sheets[at : at + CHUNK] for at in range(0, len(sheets), CHUNK)]
        if len(chunks) == 1:
            self.refuse_all(batch, sheets, is_bare, is_reading)
            return
        done = [self.helpers.submit(self.refuse_all, batch, chunk, is_bare, is_reading) for chunk in chunks]
        for each in done:
            each.result()

    def refuse_all(self, batch, left, is_bare, is_reading):
        """Refuses the first sheet, then the first one behind it, and so on. A run reads all before it sets one."""
        while left:
            run, starts = self.run(batch, left, is_bare)
            if run.status == 0 or self.is_of_definitions(batch, run, starts):
                return
            if run.status in SHARED and len(left) > 1:
                half = len(left) // 2
                self.refuse_all(batch, left[:half], is_bare, is_reading)
                left = left[half:]
                continue
            if is_reading and run.status in OF_SETTING:
                return
            place = run.place()
            at = bisect.bisect_right(starts, place[0]) - 2 if place else 0
            self.refuse(left[at], run, starts[at + 1], is_bare)
            left = left[:at] * (run.status == BYTE) + left[at + 1 :]

    def refuse(self, sheet, run, first, is_bare):
        """Gives a sheet its fault, or has it set by itself where it is refused only as it is measured."""
        if not is_bare:
            sheet.is_bare = True
            return
        place = run.place()
        if not place or run.status in OF_THE_WHOLE:
            sheet.result = whole_fault(sheet.formula, place[2] if place else reason(run))
            return
        line, column, said = place
        page = sheet.page(is_bare)
        marks = 2 if sheet.formula.display else 1

        def offset(line, column):
            return min(max(0, offset_of(page, line - first + 1, column) - marks), len(sheet.text))

        def moved(found):
            place = sheet.own_fault(offset(int(found[1]), int(found[2])), "")
            return f"at line {place.line}, column {place.column}"

        sheet.result = sheet.own_fault(offset(line, column), STILL_OPEN.sub(moved, said))


def left_in_form(sheets, is_bare):
    """The sheets that are left to be looked through: as they are, or as they are measured."""
    return [sheet for sheet in without_results(sheets) if is_bare or not sheet.is_bare]


def reason(run):
    """What there is to say of a run whose fault has no place."""
    texts = {
        TOO_LATE: "this takes too much time",
        TOO_LONG: "this takes too much memory, time or output",
        60: "this takes too much memory",
    }
    return texts.get(run.status) or run.said.strip().split("\n")[-1] or "not set"


def offset_of(text, line, column):
    """The offset in a text of bytes of a line and a column, which count from 1."""
    at = 0
    for _ in range(line - 1):
        at = text.index(b"\n", at) + 1
    return at + column - 1
