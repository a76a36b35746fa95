"""What is set without a fault, but probably not as it is meant."""
import re

from checking.source import Place

FONTS = {
    "\\rm": "rm", "\\it": "it", "\\sl": "it", "\\bf": "bf", "\\tt": "rm", "\\cal": "cal", "\\mit": "it",
    "\\mathrm": "rm", "\\text": "text", "\\textrm": "text", "\\mbox": "text", "\\operatorname": "rm", "\\mathsf": "rm",
    "\\operatornamewithlimits": "rm", "\\tag": "rm", "\\textsl": "it",
    "\\textnormal": "text", "\\textup": "text", "\\textit": "it", "\\textbf": "bf", "\\textsf": "text",
    "\\texttt": "text",
    "\\mathit": "it", "\\mathtt": "rm", "\\mathbf": "bf", "\\boldsymbol": "bf", "\\bm": "bf",
    "\\mathcal": "cal", "\\mathbb": "cal", "\\Bbb": "cal", "\\mathscr": "cal", "\\mathfrak": "fraktur",
    "\\frak": "fraktur",
}
# Commands whose argument is text, in which authors expect blanks and hyphens.
TEXTS = (
    "\\text", "\\mbox", "\\textrm", "\\textnormal", "\\textup", "\\textit", "\\textsl", "\\textbf", "\\textsf",
    "\\texttt",
)
NAMED_OPERATORS = ("\\operatorname", "\\operatornamewithlimits")
# What to write in place of a command of LaTeX's with a star.
STARRED = {"\\operatorname": "\\operatornamewithlimits{..}", "\\tag": "\\eqno"}
DROPPED_BLANKS = "blanks are dropped: write \\; for each"
MINUS_SIGN = '- is set as a minus sign: write {\\mathchar"2D} for a hyphen'
SWITCHES = ("\\rm", "\\it", "\\sl", "\\bf", "\\tt", "\\cal", "\\mit")
FUNCTIONS = (
    "sin cos tan cot sec csc sinh cosh tanh coth arcsin arccos arctan log ln exp lim max min sup inf det dim ker deg "
    "gcd limsup liminf argmax argmin mod"
).split()
UNKNOWN_FUNCTIONS = ("limsup", "liminf", "argmax", "argmin", "mod")
SMALL_GREEK = (
    "alpha beta gamma delta epsilon zeta eta theta iota kappa lambda mu nu xi pi rho sigma tau upsilon phi chi psi "
    "omega varepsilon vartheta varpi varrho varsigma varphi"
).split()
PAIRS = {
    "<=": "\\le", ">=": "\\ge", "->": "\\to", "=>": "\\Rightarrow", "<<": "\\ll", ">>": "\\gg",
    "!=": "\\ne", "...": "\\ldots or \\cdots",
}
# These by their first characters.
SIGNS = {sign[0]: [other for other in PAIRS if other[0] == sign[0]] for sign in PAIRS}
# Commands with a number or a dimension, and what these look like.
NUMBERED = (
    "\\mskip", "\\mkern", "\\hskip", "\\kern", "\\mathchar", "\\delimiter", "\\radical", "\\mathaccent", "\\fam",
    "\\above",
)
LONGEST_NUMBER = 60
DIMENSION = r"[\s+-]*[0-9.,]+\s*[A-Za-z]{2}"
NUMBER = re.compile(
    r"%s(?:\s*(?:plus|minus)%s)*|[\s+-]*(?:\"[0-9A-F]+|'[0-7]+|[0-9]+)" % (DIMENSION, DIMENSION)
)
TABLES = ("\\matrix", "\\pmatrix", "\\eqalign", "\\eqalignno", "\\leqalignno", "\\displaylines")


def warnings_of(document, units):
    """The warnings of all formulas without a fault."""
    parameters = {unit.defined_name(): unit.parameters() for unit in units if unit.kind == "definition"}
    warnings, found = Warnings(document, parameters), []
    for unit in units:
        if unit.kind == "formula" and not unit.fault:
            found += warnings.of(unit)
    return found + list(without_dollar(document, units))


def without_dollar(document, units):
    """A formula without its $ ends at the $ of the next one, on a later line, and what follows there is outside."""
    last = 0
    for unit, following in zip(units, units[1:]):
        if unit.kind == "formula" and following.kind == "stray":
            place, end = document.line_column(unit.start), document.line_column(unit.end - 1)[0]
            if last < place[0] < end == document.line_column(following.start)[0]:
                text = "warning: this formula ends in line %d: is its closing %s missing?"
                yield Place(*place, text % (document.line_in_file(end), "$$" if unit.text.startswith("$$") else "$"))
            last = end


class Warnings:
    """Goes through the tokens of a formula. Blanks and comments are left out where nothing depends on them."""

    def __init__(self, document, parameters):
        self.document = document
        self.parameters = parameters  # How many arguments each macro of the source takes.
        self.tokens = []
        self.found = []

    def of(self, unit):
        self.found = []
        self.tokens = [token for token in unit.tokens if token[0][0] != "%"]
        self.visible = [at for at, (text, _) in enumerate(self.tokens) if not text.isspace()]
        self.check_brackets()
        self.check_scripts()
        self.check_signs()
        self.check_operators()
        self.check_tables()
        self.check_fonts()
        return [Place(*self.document.line_column(offset), "warning: " + text) for offset, text in self.found]

    def warn(self, at, text):
        warning = self.tokens[at][1], text
        if warning not in self.found:
            self.found.append(warning)

    def text(self, at):
        return self.tokens[at][0] if 0 <= at < len(self.tokens) else ""

    def seen(self, index):
        """A token by its number among those that are not blank."""
        return self.text(self.visible[index]) if 0 <= index < len(self.visible) else ""

    def group(self, at):
        """The token after the group that begins at this token, or after the token where none does."""
        depth = 0
        for end in range(at, len(self.tokens)):
            depth += (self.text(end) == "{") - (self.text(end) == "}")
            if depth <= 0:
                return end + 1
        return len(self.tokens)

    def inside(self, at):
        """What is in the group that begins at this token."""
        return "".join(text for text, _ in self.tokens[at + 1 : self.group(at) - 1])

    def check_brackets(self):
        """Optional arguments and stars of LaTeX's."""
        for index, at in enumerate(self.visible):
            name, following = self.text(at), self.seen(index + 1)
            if name == "\\sqrt" and following == "[":
                self.warn(at, "\\sqrt takes no [..]: write \\root n\\of{x}")
            elif name == "\\smash" and following == "[":
                self.warn(at, "\\smash takes no [..]")
            elif self.parameters.get(name) and following in ("[", "*"):
                advice = ": write " + STARRED[name] if following == "*" and name in STARRED else ""
                self.warn(at, "%s takes the %s as its argument%s" % (name, following, advice))

    def check_scripts(self):
        for index, at in enumerate(self.visible):
            sign, first = self.text(at), self.seen(index + 1)
            if sign in ("^", "_") and (first.isdigit() or first == "-") and self.seen(index + 2).isdigit():
                number = first
                while self.seen(index + 1 + len(number)).isdigit():
                    number += self.seen(index + 1 + len(number))
                self.warn(at, "only the %s is a script: write %s{%s}" % (first, sign, number))

    def check_signs(self):
        """Signs of several characters, and quotation marks."""
        at = 0
        while at < len(self.tokens):
            found = [sign for sign in SIGNS.get(self.text(at), ()) if self.is_sign(at, sign)]
            if found == ["!="] and not self.text(at - 1).isspace():
                # A factorial.
                found = []
            if found:
                self.warn(at, "%s is set as single characters: write %s" % (found[0], PAIRS[found[0]]))
                at += len(found[0]) - 1
            elif self.text(at) in NUMBERED:
                at = self.past_number(at) - 1
            elif self.text(at) == '"':
                self.warn(at, '" is set as a quotation mark: write \'\' for two primes')
            at += 1

    def is_sign(self, at, sign):
        return all(self.text(at + number) == character for number, character in enumerate(sign))

    def check_operators(self):
        """Names of operators in italic letters."""
        for index, at in enumerate(self.visible):
            if self.text(at) == "\\mathop" and self.seen(index + 1) == "{":
                inner = self.inside(self.visible[index + 1])
                if re.fullmatch("[A-Za-z]{2,}", inner):
                    self.warn(at, "the letters are set in italics: write \\mathop{\\rm %s}" % inner)

    def check_tables(self):
        for index, at in enumerate(self.visible):
            if self.text(at) in TABLES and self.seen(index + 1) == "{":
                start = self.visible[index + 1]
                self.check_rows(self.text(at), start + 1, self.group(start) - 1)

    def check_rows(self, table, start, end):
        """A line of a table without \\cr at its end, where the next line has cells too; rows that are too long."""
        cells, first_row, depth, line_end = 1, None, 0, None
        for at in range(start, end):
            text = self.text(at)
            depth += (text == "{") - (text == "}")
            if depth:
                continue
            if text in ("\\cr", "\\\\"):
                first_row = first_row or cells
                cells, line_end = 1, None
            elif "\n" in text and cells > 1 and not self.is_beside_cell(at):
                line_end = line_end or at
            elif text == "&":
                cells += 1
                if line_end:
                    self.warn(line_end, "no \\cr at the end of this line of %s" % table)
                    line_end = None
                elif table in ("\\matrix", "\\pmatrix") and first_row and cells == first_row + 1:
                    self.warn(at, "this row has more cells than the first: is a \\cr missing?")

    def is_beside_cell(self, at):
        """A line that ends with & or is followed by & goes on."""
        return self.text(at - 1) == "&" or self.text(self.next_visible(at)) == "&"

    def past_number(self, at):
        """The token after a command and its number or dimension."""
        after = at + 1
        if after < len(self.tokens):
            found = NUMBER.match("".join(text for text, _ in self.tokens[after : after + LONGEST_NUMBER]))
            end = self.tokens[after][1] + (found.end() if found else 0)
            while after < len(self.tokens) and self.tokens[after][1] < end:
                after += 1
        return after

    def check_fonts(self):
        self.walk(0, len(self.tokens), None)

    def walk(self, at, end, font):
        """Goes through a list, with the font in force."""
        while at < end:
            text = self.text(at)
            if text in SWITCHES:
                font = FONTS[text]
                self.check_switch(at, end)
            elif text in FONTS:
                start = self.next_visible(at + 1)
                if text in STARRED and self.text(start) == "*":
                    # What follows is meant to be the argument, and the star has its own warning.
                    start = self.next_visible(start + 1)
                stop = self.group(start)
                self.check_text(text, start + 1, stop - 1)
                self.walk(start, stop, FONTS[text])
                at = stop
                continue
            elif text == "{":
                stop = min(self.group(at), end)
                self.walk(at + 1, stop - 1, font)
                at = stop
                continue
            at = self.past_number(at) if text in NUMBERED else self.check_letter(at, end, font)

    def check_text(self, name, start, end):
        """The first blank and the first hyphen of a text. Blanks beside a command are not part of it."""
        if name in TEXTS:
            found = [at for at in range(start, end) if self.text(at).isspace() and self.is_beside_letters(at)]
            for at in found[:1]:
                self.warn(at, DROPPED_BLANKS)
        if name in TEXTS + NAMED_OPERATORS:
            found = [at for at in range(start, end) if self.text(at) == "-"]
            for at in found[:1]:
                self.warn(at, MINUS_SIGN)

    def is_beside_letters(self, at):
        """Neither side of this blank is a command, as it is in {\\rm if} and with \\; for a blank."""
        return self.text(at - 1)[:1] != "\\" and self.text(at + 1)[:1] != "\\"

    def next_visible(self, at):
        while at < len(self.tokens) and self.text(at).isspace():
            at += 1
        return at

    def check_switch(self, at, end):
        """In \\rm{d}x the x is set in roman too."""
        start = self.next_visible(at + 1)
        if self.text(start) != "{" or start >= end:
            return
        switch, inner = self.text(at), self.inside(start)
        rest = [text for text, _ in self.tokens[self.group(start) : end]]
        if any(text in SWITCHES for text in rest[:1]):
            return
        if any(re.fullmatch("[A-Za-z0-9]", text) for text in rest):
            self.warn(at, "%s also changes what follows the braces: write {%s %s}" % (switch, switch, inner))

    def check_letter(self, at, end, font):
        """Names of functions, words in roman, and letters that a font lacks, from this token. The token after them."""
        text = self.text(at)
        if font == "bf" and text[:1] == "\\" and text[1:] in SMALL_GREEK:
            self.warn(at, "small Greek letters do not change: %s is not bold" % text)
        if font == "cal" and re.fullmatch("[a-z0-9]", text):
            self.warn(at, "this alphabet has only capital letters: %s gives another symbol" % text)
        if not re.fullmatch("[A-Za-z]", text):
            return at + 1
        stop = at
        while stop < end and re.fullmatch("[A-Za-z]", self.text(stop)):
            stop += 1
        word = "".join(letter for letter, _ in self.tokens[at:stop])
        if font is None and word in FUNCTIONS:
            known = "\\mathop{\\rm %s}" % word if word in UNKNOWN_FUNCTIONS else "\\" + word
            self.warn(at, "%s is set in italics: write %s" % (word, known))
        following = self.text(stop + 1)
        if font == "rm" and stop + 1 < end and self.text(stop).isspace() and re.fullmatch("[A-Za-z]", following):
            self.warn(stop, DROPPED_BLANKS)
            while stop < end and re.fullmatch("[A-Za-z]|\\s+", self.text(stop)):
                stop += 1
        return stop
