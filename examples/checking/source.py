"""Sources, cut into formulas, definitions and the rest (docs/RULES.md, "Source: tokens" and "Source: documents")."""
import bisect
import collections
import os
import re
import sys

# A comment; an empty line; blanks; a control word or symbol; bytes that cannot stand in a source; any other byte.
TOKEN = re.compile(
    r"%[^\n]*|\r?\n(?:[ \t]*\r?\n)+|[ \t]+|\r?\n|\\[A-Za-z]+|\\[!-~]"
    r"|\^\^|\\|~|[\x00-\x08\x0b-\x1f\x7f]|[\x80-\xff]+|."
)
BAD = re.compile(r"\^\^|\\|~|[\x00-\x08\x0b-\x1f\x7f]|[\x80-\xff]+")
NUMBER = r"(?:`(?:\\[A-Za-z]|\\.|[^\s\\])|\"[0-9A-F]+|'[0-7]+|[0-9]+)"
ASSIGNMENT = re.compile(r"\\(?:math|del)code(?![A-Za-z])[\s+-]*" + NUMBER + r"\s*=?[\s+-]*" + NUMBER)
# The words that are outside of formulas.
OUTSIDE = ("\\def", "\\mathcode", "\\delcode", "\\eject", "\\bye", "\\end")
PUNCTUATION = (".", ",", ";", ":", "!", "?", ")", "]")
# Whole formulas, and nothing else.
FORMULAS = re.compile(r"(?:\s|\$\$[^$]+\$\$|\$[^$]+\$)*(?:%.*)?")
# Where the text of a fault says that a group begins.
OPENING = re.compile(r"(?<=the )(\S+) at line (\d+), column (\d+)(?= is still open)")


class Place(collections.namedtuple("Place", "line column text")):
    """A line, a column, and what is said there."""

    def with_opening(self, move):
        """The same with the line and the column in its text moved: `move` gives the new ones."""
        return self._replace(text=OPENING.sub(lambda at: self.opening(at[1], move(int(at[2]), int(at[3]))), self.text))

    @staticmethod
    def opening(name, place):
        return "%s at line %d, column %d" % (name, *place)


class Unit:
    """A part of a source: a formula, a definition, an assignment, or what cannot stand outside of formulas."""

    def __init__(self, kind, start, end, text, tokens=()):
        self.kind = kind
        self.start = start
        self.end = end
        self.text = text  # What mathset is given for it.
        self.tokens = tokens  # Texts of tokens with their offsets.
        self.is_whole = True  # It ends where mathset ends it.
        self.definitions_before = 0
        self.fault = None  # A Place, in lines and columns of the document.

    def names(self):
        return {text for text, _ in self.tokens if text[0] == "\\"}

    def defined_name(self):
        """The name that a definition defines."""
        names = [text for text, _ in self.tokens[1:] if text[0] == "\\"]
        return names[0] if names and self.kind == "definition" else None

    def parameters(self):
        """How many arguments the macro takes that a definition defines."""
        return self.text.split("{")[0].count("#")


class Document:
    """Files one after another, taken as one source. Their texts are read where they are not given."""

    def __init__(self, files, texts=None):
        self.text = ""
        self.first_lines = []
        self.files = [os.fsencode(name).decode("latin-1") for name in files]
        for text in texts or map(read, files):
            if self.text and not self.text.endswith("\n"):
                self.text += "\n"
            self.first_lines.append(self.text.count("\n") + 1)
            self.text += text.decode("latin-1")
        self.line_starts = [0] + [found.end() for found in re.finditer("\n", self.text)]

    def file_starts(self):
        return [self.line_starts[line - 1] for line in self.first_lines]

    def line_column(self, offset):
        line = bisect.bisect_right(self.line_starts, offset)
        return line, offset - self.line_starts[line - 1] + 1

    def offset(self, line, column):
        return self.line_starts[min(line, len(self.line_starts)) - 1] + column - 1

    def shown(self, place):
        """A place as a line of the output."""
        at = bisect.bisect_right(self.first_lines, place.line) - 1
        before = self.first_lines[at] - 1
        text = place.with_opening(lambda line, column: (line - before, column)).text
        return "%s:%d:%d: %s" % (self.files[at], place.line - before, place.column, text)

    def line_in_file(self, line):
        return line - self.first_lines[bisect.bisect_right(self.first_lines, line) - 1] + 1

    def without(self, units):
        """The source with blanks in place of these units."""
        parts, at = [], 0
        for unit in units:
            if unit.start >= at:
                parts += [self.text[at : unit.start], blanks(self.text[unit.start : unit.end])]
                at = unit.end
        return "".join(parts) + self.text[at:]

    def only(self, units):
        """The source with blanks in place of all but these units."""
        parts, at = [], 0
        for unit in units:
            parts += [blanks(self.text[at : unit.start]), self.text[unit.start : unit.end]]
            at = unit.end
        return "".join(parts)


def read(name):
    if name == "-":
        return sys.stdin.buffer.read()
    with open(name, "rb") as file:
        return file.read()


def blanks(text):
    return re.sub(r"[^\n]", " ", text)


class Cutter:
    """Cuts a source where mathset does.

    A formula without its closing $ is cut where mathset does not cut: before an empty line, or before the next line
    that begins with a formula, or with a definition or another word that is outside of formulas.
    """

    def __init__(self, text):
        self.text = text
        self.tokens = [(found.group(), found.start()) for found in TOKEN.finditer(text)]
        self.at = 0
        self.units = []

    def token(self, at):
        return self.tokens[at][0] if at < len(self.tokens) else ""

    def offset(self, at):
        return self.tokens[at][1] if at < len(self.tokens) else len(self.text)

    def is_empty_line(self, at):
        return self.token(at).count("\n") > 1

    def is_blank(self, at):
        return self.token(at)[:1] in (" ", "\t", "\r", "\n", "%") and self.token(at) != "" and not self.is_bad(at)

    def is_bad(self, at):
        return self.token(at) != "" and BAD.fullmatch(self.token(at)) is not None

    def units_of_source(self):
        while self.at < len(self.tokens):
            token = self.token(self.at)
            if self.is_blank(self.at) or token == "\\eject":
                self.at += 1
            elif token == "$":
                self.formula()
            elif token == "\\def":
                self.definition()
            elif token in ("\\mathcode", "\\delcode"):
                self.assignment()
            elif self.is_end(self.at):
                self.rest()
            else:
                self.stray()
        count = 0
        for unit in self.units:
            unit.definitions_before = count
            count += unit.kind in ("definition", "assignment")
        return self.units

    def add(self, kind, end, is_whole=True):
        """Adds a unit of the tokens from here up to this one."""
        start, stop = self.offset(self.at), self.offset(end)
        unit = Unit(kind, start, stop, self.text[start:stop], self.tokens[self.at : end])
        unit.is_whole = is_whole
        self.units.append(unit)
        self.at = max(end, self.at + 1)
        return unit

    def formula(self):
        closer = "$$" if self.token(self.at + 1) == "$" else "$"
        first = self.at + len(closer)
        end = self.end_of_formula(first, closer)
        if end is not None:
            self.add("formula", end)
            return
        end = self.end_of_broken(first, closer)
        missing = self.is_empty_line(end)
        unit = self.add("formula", end, is_whole=False)
        if missing:
            unit.text += "\n\n" + closer

    def closes(self, at, closer):
        return self.token(at) == "$" and (closer == "$" or self.token(at + 1) == "$")

    def end_of_formula(self, at, closer):
        """The token after the closing dollars, or None where there are none before the formula is cut."""
        depth = 0
        while at < len(self.tokens) and depth >= 0 and not self.is_empty_line(at):
            if depth == 0 and self.begins_formula(at, closer):
                return None
            if depth == 0 and self.closes(at, closer):
                return at + len(closer)
            depth += (self.token(at) == "{") - (self.token(at) == "}")
            at += 1
        return None

    def end_of_broken(self, at, closer):
        """The token after the first dollars that could close it, in groups too, or the token before which it is cut."""
        while at < len(self.tokens) and not self.is_empty_line(at):
            if self.begins_formula(at, closer) or self.begins_line(at) and self.token(at) in OUTSIDE:
                return at
            if self.closes(at, closer):
                return at + len(closer)
            at += 1
        return at

    def begins_line(self, at):
        """Nothing but blanks is before this token on its line."""
        before = at - 1
        while before > 0 and self.token(before).strip(" \t") == "":
            before -= 1
        return "\n" in self.token(before)

    def begins_formula(self, at, closer):
        """These dollars at the beginning of a line begin a formula, and do not close the one that is open."""
        if self.token(at) != "$" or not self.begins_line(at):
            return False
        if not self.closes(at, closer):
            return True
        following, line = at + len(closer), self.line_from(at)
        if self.token(following) == "$":
            return line.count("$$") > 1 and not FORMULAS.fullmatch(line, len(closer))
        is_apart = self.is_blank(following) or self.token(following) in PUNCTUATION
        return self.is_text(self.past_blanks_of_line(following)) and (not is_apart or line.count("$") % 2 == 0)

    def line_from(self, at):
        end = self.text.find("\n", self.offset(at))
        return self.text[self.offset(at) : end if end >= 0 else len(self.text)]

    def past_blanks_of_line(self, at):
        while self.is_blank(at) and "\n" not in self.token(at):
            at += 1
        return at

    def is_text(self, at):
        """What cannot be outside of formulas begins here, on the line of the token before it."""
        return self.token(at) != "" and not self.is_blank(at) and self.token(at) not in ("$", *OUTSIDE)

    def definition(self):
        at = self.past_blanks(self.at + 1)
        if self.token(at)[:1] == "\\":
            at = self.past_blanks(at + 1)
        while self.token(at) not in ("{", "$", "\\def", "") and not self.is_empty_line(at):
            at += 1
        end = self.past_group(at) if self.token(at) == "{" else None
        if end is not None:
            self.add("definition", end)
        else:
            self.add("definition", self.line_end(at if self.token(at) == "{" else self.at), is_whole=False)

    def past_blanks(self, at):
        while self.is_blank(at) and not self.is_empty_line(at):
            at += 1
        return at

    def past_group(self, at):
        depth = 0
        while at < len(self.tokens):
            depth += (self.token(at) == "{") - (self.token(at) == "}")
            at += 1
            if depth == 0:
                return at
        return None

    def line_end(self, at):
        while at < len(self.tokens) and "\n" not in self.token(at):
            at += 1
        return at

    def assignment(self):
        found = ASSIGNMENT.match(self.text, self.offset(self.at))
        if found:
            end = self.at
            while end < len(self.tokens) and self.offset(end) < found.end():
                end += 1
            self.add("assignment", end)
        else:
            self.add("assignment", self.line_end(self.at), is_whole=False)

    def is_end(self, at):
        """The end of the source. What follows the \\end of an environment of LaTeX's is checked all the same."""
        return self.token(at) == "\\bye" or self.token(at) == "\\end" and self.token(at + 1) != "{"

    def stray(self):
        """What cannot stand outside of formulas, up to a formula, a definition, an empty line or a LaTeX display."""
        closer = {"\\[": "\\]", "\\(": "\\)"}.get(self.token(self.at))
        stops = (closer,) if closer else ("$", "\\def", "\\mathcode", "\\delcode", "\\[", "\\(", "\\begin")
        end = self.at + 1
        while end < len(self.tokens) and self.token(end) not in stops and not self.is_stop(end):
            end += 1
        if closer and self.token(end) == closer:
            end += 1
        self.add("stray", end)

    def is_stop(self, at):
        return self.is_end(at) or self.is_empty_line(at)

    def rest(self):
        """What follows the end of the source: bytes that cannot stand in it are rejected there too."""
        self.at += 1
        while self.at < len(self.tokens):
            if self.is_bad(self.at):
                self.add("stray", self.at + 1)
            else:
                self.at += 1
