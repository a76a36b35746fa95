"""The pictures of a document's formulas, by the library of the formula server."""
import contextlib
import pathlib
import sys
from typing import NamedTuple, Optional

TOP = pathlib.Path(__file__).resolve().parent.parent.parent
# Seconds for all formulas of a document.
LONGEST = 600.0
DISPLAY = '<span class="mathset-display" style="display:block;margin:1em 0;text-align:center">%s</span>'


class Formula(NamedTuple):
    """A formula without its marks."""

    source: str
    is_display: bool


class Picture(NamedTuple):
    """The HTML of a formula, or its fault and the offset of that in the source."""

    html: Optional[str]
    fault: Optional[str] = None
    offset: int = 0


class CannotSet(Exception):
    """Why nothing can be set."""


def add_options(parser):
    """Adds the options that say how formulas are set."""
    parser.add_argument("--plain", action="store_true", help="the formulas are in plain TeX; in LaTeX if not given")
    parser.add_argument("-p", "--definitions", metavar="DEFINITIONS", help="a file of definitions for all formulas")
    parser.add_argument("-l", "--fonts", metavar="LIST", help="a list of fonts")


def told(program, text):
    """Writes why a program cannot go on, and gives the status with which it ends."""
    sys.stderr.write("%s: %s\n" % (program, text))
    return 2


class Setter:
    """Sets formulas as the options say."""

    def __init__(self, library, setter, options):
        self.library, self.setter, self.options = library, setter, options
        self.definitions = self.read_definitions()

    def read_definitions(self):
        name = self.options.definitions
        if not name:
            return ""
        try:
            return pathlib.Path(name).read_text("utf-8")
        except (OSError, UnicodeDecodeError) as error:
            raise CannotSet("%s: %s" % (name, getattr(error, "strerror", None) or "it is not in UTF-8")) from error

    def pictures(self, formulas):
        """A Picture for each formula, in order. A fault in the definitions is raised, since nothing is set then."""
        wanted = [self.library.Formula(formula.source, formula.is_display) for formula in formulas]
        results = self.setter.set(wanted, self.definitions, latex=not self.options.plain, seconds=LONGEST)
        return [self.picture(formula, result) for formula, result in zip(formulas, results)]

    def picture(self, formula, result):
        if isinstance(result, self.library.Picture):
            html = result.svg("html")
            return Picture(DISPLAY % html if formula.is_display else html)
        if result.where == "definitions":
            name = self.options.definitions
            raise CannotSet("%s:%d:%d: %s" % (name, result.line, result.column, result.text))
        return Picture(None, result.text, offset_of(formula.source, result.line, result.column))


def offset_of(text, line, column):
    """The offset of a line and a column, which count from 1; at most that of the end."""
    before = text.split("\n")[: line - 1]
    return min(len(text), sum(len(each) + 1 for each in before) + column - 1)


@contextlib.contextmanager
def setter_of(program, options):
    """A Setter for a program. Where nothing can be set, the program ends with status 2 and says why."""
    sys.path.insert(0, str(TOP / "server"))
    try:
        import mathsvg
    except ImportError as error:
        sys.exit(told(program, "python3-%s is missing; on Debian: apt install python3-%s" % (error.name, error.name)))
    fonts = {"fonts": options.fonts} if options.fonts else {}
    try:
        with mathsvg.Setter(**fonts) as setter:
            yield Setter(mathsvg, setter, options)
    except (CannotSet, mathsvg.CannotRun) as error:
        sys.exit(told(program, error))
