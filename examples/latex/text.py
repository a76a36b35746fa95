"""Text inside of formulas, as \\text and \\mbox have it: letters of a font, blanks, accents and formulas."""

import re
import unicodedata

from . import italic, tokens
from .places import Refused
from .tokens import Token

# The blank between words in text, script and scriptscript size: its width and by how much it shrinks, in scaled points;
# and the extra space after the end of a sentence (cmr10, cmr7, cmr5 and their like).
ROMAN = ((218453, 72818, 72818), (176584, 56434, 56434), (154740, 45511, 45511))
BOLD = ((251220, 83740, 83740), (199156, 65172, 65172), (169298, 52791, 52791))
ITALIC = ((234471, 66991, 66991), (195881, 53886, 53886), (195881, 53886, 53886))
SANS = ((218453, 72818, 72818), (162477, 54159, 54159), (116055, 38685, 38685))
SMALL_CAPITALS = ((247578, 76458, 76458), (173304, 53520, 53520), (123789, 38229, 38229))
TYPEWRITER = ((344061, 0, 344061), (243715, 0, 243715), (243715, 0, 243715))
# A font of text: the command of mathset, its family, and its blanks.
FONTS = {
    "rm": ("\\rm", 0, ROMAN), "it": ("\\it", 4, ITALIC), "sl": ("\\sl", 5, ROMAN), "bf": ("\\bf", 6, BOLD),
    "tt": ("\\tt", 7, TYPEWRITER), "sf": ("\\fam11 ", 11, SANS), "sc": ("\\fam15 ", 15, SMALL_CAPITALS),
}  # fmt: skip
# The italic corrections of the last letters of words, which text leaves out, in the three sizes.
CORRECTIONS = {
    "rm": {"f": (50973, 36637, 28899), "V": (9101, 7053, 5689), "Y": (16383, 12698, 10240)},
    "bf": {"f": (71451, 55569, 42553), "V": (10468, 8147, 6599), "Y": (18841, 14664, 11878)},
    "sf": {"f": (45511, 33849, 24178), "V": (9101, 6769, 4835), "Y": (16383, 12186, 8704)},
}  # fmt: skip
LIKE_V = {"rm": "VWgvwy", "bf": "VWgvwy", "sf": "VWgrvwy"}

COMMANDS = {
    "textrm": "rm", "textup": None, "textnormal": "rm", "textmd": None, "text": None, "mbox": None, "hbox": None,
    "textit": "it", "emph": "it", "textsl": "sl", "textbf": "bf", "texttt": "tt", "textsf": "sf", "mathrm": "rm",
    "textsc": "sc", "mathit": "it", "mathbf": "bf", "mathsf": "sf", "mathtt": "tt", "ensuremath": "math",
    "uppercase": None, "MakeUppercase": None, "textsuperscript": None, "fbox": None, "underline": None,
    "textcolor": None,
}  # fmt: skip
SWITCHES = {
    "rm": "rm", "rmfamily": "rm", "it": "it", "itshape": "it", "em": "it", "sl": "sl", "slshape": "sl", "bf": "bf",
    "bfseries": "bf", "tt": "tt", "ttfamily": "tt", "sf": "sf", "sffamily": "sf", "normalfont": "rm", "upshape": "rm",
    "mdseries": "rm", "sc": "sc", "scshape": "sc",
}  # fmt: skip
SIZES = "small footnotesize scriptsize tiny large Large LARGE huge Huge".split()
IGNORED = """relax displaystyle textstyle scriptstyle normalsize strut centering raggedright noindent null protect
nonumber notag leavevmode boldmath unboldmath - par singlespacing selectfont ignorespaces unskip
allowbreak nobreak linebreak newline""".split()
SYMBOLS = {
    "%": 0x25, "&": 0x26, "#": 0x23, "$": 0x24, "ss": 0x19, "ae": 0x1A, "oe": 0x1B, "o": 0x1C, "AE": 0x1D, "OE": 0x1E,
    "O": 0x1F, "i": 0x10, "j": 0x11, "textendash": 0x7B, "textemdash": 0x7C, "lq": 0x60, "rq": 0x27, "colon": 0x3A,
    "textquoteright": 0x27, "textquoteleft": 0x60, "textquotedblleft": 0x5C, "textquotedblright": 0x22, "slash": 0x2F,
}  # fmt: skip
MATH_SYMBOLS = {
    "{": "0266", "}": "0267", "textbackslash": "026E", "textbar": "026A", "textless": "013C", "textgreater": "013E",
    "S": "0278", "P": "027B", "dag": "0279", "ddag": "027A", "textbullet": "020F", "textasteriskcentered": "0203",
    "textbraceleft": "0266", "textbraceright": "0267", "lbrace": "0266", "rbrace": "0267", "textperiodcentered": "0201",
    "textdegree": "020E", "texttimes": "0202", "textpm": "0206",
}  # fmt: skip
ACCENTS = {
    "'": "acute", "`": "grave", "^": "hat", '"': "ddot", "~": "tilde", "=": "bar", ".": "dot", "v": "check",
    "u": "breve",
    "r": "mathring", "H": "ddot", "c": None, "k": None, "d": None, "b": None, "t": None,
}  # fmt: skip
SPACES = {
    ",": "\\kern.16667em ", "thinspace": "\\kern.16667em ", "!": "\\kern-.16667em ", "quad": "\\hskip1em\\relax ",
    "qquad": "\\hskip2em\\relax ", ";": "\\kern.27778em ", ":": "\\kern.22222em ", ">": "\\kern.22222em ",
    "enspace": "\\kern.5em ", "enskip": "\\hskip.5em\\relax ", "negthinspace": "\\kern-.16667em ",
}  # fmt: skip
UNICODE = {
    "\u2013": "--", "\u2014": "---", "\u2018": "`", "\u2019": "'", "\u201c": "``", "\u201d": "''", "\u00a0": "~",
    "\u2026": None,
    "\u00df": "\\ss ", "\u00f8": "\\o ", "\u00d8": "\\O ", "\u00e6": "\\ae ", "\u00c6": "\\AE ", "\u0153": "\\oe ",
    "\u0152": "\\OE ",
    "\u2212": "-", "\u2010": "-", "\u0131": "\\i ", "\u0237": "\\j ",
}  # fmt: skip
DOUBLES = {"d": "\\u", "\u030b": "ddot"}
ACCENT_MARKS = {
    "\u0300": "`", "\u0301": "'", "\u0302": "^", "\u0303": "~", "\u0304": "=", "\u0306": "u", "\u0307": ".",
    "\u0308": '"',
    "\u030a": "r", "\u030b": "H", "\u030c": "v",
}  # fmt: skip
DOT_KERN = (109226, 84651, 68268)


def by_size(amounts, write, is_fixed):
    """What depends on the size: a choice, or what text size has where the size cannot change."""
    if is_fixed or len(set(amounts)) == 1:
        return write(amounts[0])
    return "\\mathchoice" + "".join("{%s}" % write(amounts[at]) for at in (0, 0, 1, 2))


class Text:
    """Writes the tokens of a text as a list of a formula."""

    def __init__(self, formula, font, is_fixed):
        self.formula = formula
        self.reader = formula.reader
        self.font = font
        self.is_fixed = is_fixed
        self.found = []
        self.factor = 1000
        self.last = ""

    def of(self, found, place):
        """The pieces of a text, in a group."""
        self.reader.put_back(Token("stop", "", place))
        self.reader.put_back_all(found)
        self.add(FONTS[self.font][0], place)
        self.add("{}", place)
        self.until_stop()
        self.correct(place)
        return [("{", place), *self.found, ("}", place)]

    def add(self, text, place):
        """Adds a piece."""
        self.found.append((text, place))

    def until_stop(self):
        """Takes tokens up to the end of the argument."""
        while True:
            token = self.reader.next_expanded()
            if token is None or token.kind == "stop":
                return
            self.take(token)

    def take(self, token):
        """Takes one token."""
        if token.kind in (tokens.LETTER, tokens.OTHER):
            self.character(token)
        elif token.kind == tokens.SPACE or token.text in ("~", " ") and token.kind in (tokens.ACTIVE, tokens.NAME):
            self.blank(token.place)
        elif token.kind == tokens.NAME:
            self.name(token)
        elif token.kind == tokens.BEGIN:
            self.group(self.reader.group(token), self.font)
        elif token.kind == tokens.MATH:
            self.formula_inside(token)
        elif token.kind in (tokens.UP, tokens.DOWN):
            raise Refused(token.place, f"{token.text} in text; write ${token.text}..$, or \\_ for a line")
        else:
            raise Refused(token.place, f"{token.text} in text")

    def group(self, found, font):
        """A group of the text, perhaps in another font."""
        outer = self.font
        if font != outer:
            self.correct(0)
            self.font = font
            self.add(FONTS[font][0], 0)
        self.reader.put_back(Token("stop", "", 0))
        self.reader.put_back_all(found)
        self.until_stop()
        if self.font != outer:
            if self.font in ("it", "sl"):
                self.last = ""
            self.correct(0)
            self.font = outer
            self.add(FONTS[outer][0], 0)

    def character(self, token):
        """A character of the font."""
        char = token.text
        if not char.isascii():
            self.unicode(token)
            return
        family = FONTS[self.font][1]
        if char.isalnum() and family < 8 or char.isalpha():
            self.add(char, token.place)
        elif char in "<>|" and self.font != "tt":
            self.add('\\mathchar"%s ' % {"<": "013C", ">": "013E", "|": "026A"}[char], token.place)
        else:
            self.add('\\mathchar"0%X%02X ' % (family, ord(char)), token.place)
        self.last = char
        self.space_factor(char)

    def space_factor(self, char):
        """How long the next blank is, in thousandths (The TeXbook, chapter 12)."""
        if char in ")'\"]":
            return
        factor = {".": 3000, "?": 3000, "!": 3000, ":": 2000, ";": 1500, ",": 1250}.get(char,
            999 if char.isupper() else 1000)
        self.factor = 1000 if self.factor < 1000 < factor else factor

    def unicode(self, token):
        """A character that is not of ASCII."""
        char = token.text
        if UNICODE.get(char):
            self.reader.put_back_all(tokens.tokens_of(UNICODE[char], token.place))
            return
        if char == "\u2026":
            self.dots(token.place)
            return
        parts = unicodedata.normalize("NFD", char)
        if len(parts) == 2 and parts[1] in ACCENT_MARKS:
            self.reader.put_back_all(tokens.tokens_of("\\%s{%s}" % (ACCENT_MARKS[parts[1]], parts[0]), token.place))
            return
        self.correct(token.place)
        place = token.place
        self.found += [("{", place), ("{}", place), *self.formula.unicode_character(token), ("}", place)]

    def name(self, token):
        """A command in a text."""
        name = token.text
        if name in COMMANDS:
            self.styled(token)
        elif name in SWITCHES:
            self.switch(token)
        elif name in ACCENTS:
            self.accent(token)
        elif name in SYMBOLS:
            self.add('\\mathchar"0%X%02X ' % (FONTS[self.font][1], SYMBOLS[name]), token.place)
            self.last, self.factor = "", 1000
        elif name in MATH_SYMBOLS:
            self.correct(token.place)
            self.add('\\mathchar"%s ' % MATH_SYMBOLS[name], token.place)
        elif name in SPACES:
            self.correct(token.place)
            self.add(SPACES[name], token.place)
        elif name in ("dots", "ldots", "textellipsis"):
            self.dots(token.place)
        elif name in ("(", "begin"):
            self.formula_inside(token)
        else:
            self.other(token)

    def other(self, token):
        """Commands that are of formulas too, and those that mean nothing here."""
        name = token.text
        if name in ("label", "index", "cite", "footnote", "eqref", "ref", "color", "vspace", "pagestyle", "fontsize"):
            self.reader.optional()
            self.reader.argument(token)
            if name in ("eqref", "ref", "cite"):
                self.formula.warn(token, f"{token.source()} is left out; write its text")
        elif name == "\\":
            self.blank(token.place)
        elif name == "/":
            self.add("\\kern0pt ", token.place)
            self.last = ""
        elif name in SIZES:
            self.formula.warn(token, "the size of the text is left out")
        elif name in IGNORED:
            return
        elif name in ("hspace", "hskip", "kern", "raisebox", "raise", "phantom", "hphantom", "vphantom", "rule", "_",
        "char"):
            self.correct(token.place)
            self.found += self.formula.command(token)
        elif self.formula.is_of_formulas(token):
            self.correct(token.place)
            self.found += self.formula.braced(self.formula.item(token), token.place)
        else:
            self.formula.unknown(token)

    def styled(self, token):
        """A command with a text in a font."""
        name = token.text
        if name == "textcolor":
            self.reader.optional()
            self.reader.argument(token)
        inner = self.reader.argument(token)
        if name == "ensuremath":
            self.correct(token.place)
            self.found += self.formula.sub_formula(inner, token.place, True)
            return
        if name in ("textsuperscript", "underline", "fbox"):
            self.correct(token.place)
            command = {"textsuperscript": "^", "underline": "\\underline", "fbox": "\\fbox"}[name]
            if name == "textsuperscript":
                self.add("{}", token.place)
            self.add(command, token.place)
            self.found += Text(self.formula, self.font, self.is_fixed).of(inner, token.place)
            return
        if name in ("uppercase", "MakeUppercase"):
            inner = [part._replace(text=part.text.upper()) if part.kind == tokens.LETTER else part for part in inner]
        self.group(inner, COMMANDS[name] or self.font)
        self.factor = 1000 if name == "mbox" else self.factor

    def switch(self, token):
        """A change of the font up to the end of the group."""
        font = SWITCHES[token.text]
        self.correct(token.place)
        self.font = font
        self.add(FONTS[font][0], token.place)

    def accent(self, token):
        """An accent over a letter."""
        command = ACCENTS[token.text]
        if command is None:
            raise Refused(token.place, f"the accent {token.source()} cannot be had", token.length())
        letter = [part for part in self.reader.argument(token) if part.kind != tokens.SPACE]
        char = letter[0].text if letter else ""
        self.correct(token.place)
        inner = {"i": '{\\mathchar"0%X10 }', "j": '{\\mathchar"0%X11 }'}.get(char)
        if inner:
            self.add("\\%s%s" % (command, inner % FONTS[self.font][1]), token.place)
        elif len(letter) == 1 and char.isalpha() and char.isascii():
            self.add("\\%s{%s}" % (command, char), token.place)
        else:
            raise Refused(token.place, f"the accent {token.source()} stands over one letter", token.length())
        self.factor = 1000

    def dots(self, place):
        """Three dots of text."""
        self.correct(place)
        kern = by_size(DOT_KERN, lambda amount: f"\\kern{amount}sp ", self.is_fixed)
        self.add(('\\mathchar"0%X2E ' % FONTS[self.font][1] + kern) * 3, place)

    def blank(self, place):
        """A blank between words."""
        self.correct(place)
        if self.found and self.found[-1][0].startswith("\\hskip") and self.found[-1][1] == place:
            return
        factor = self.factor

        def write(amounts):
            width, shrink, extra = amounts
            return "\\hskip%dsp minus%dsp " % (width + (extra if factor >= 2000 else 0), shrink * 1000 // factor)

        sizes = FONTS[self.font][2]
        self.add(by_size(sizes, write, self.is_fixed), place)

    def correct(self, place):
        """Takes back the italic correction of the letter before, which text does not have."""
        table = CORRECTIONS.get(self.font) or italic.CORRECTIONS.get(self.font)
        if table and self.last:
            key = "V" if self.last in LIKE_V.get(self.font, "") else self.last
            if key in table:
                self.add(by_size(table[key], lambda amount: f"\\kern-{amount}sp ", self.is_fixed), place)
        self.last = ""

    def formula_inside(self, token):
        """A formula inside of the text."""
        self.correct(token.place)
        if token.kind == tokens.MATH:
            inner = self.up_to(token, lambda part: part.kind == tokens.MATH)
        elif token.text == "(":
            inner = self.up_to(token, lambda part: part.is_name(")"))
        else:
            self.found += self.formula.braced(self.formula.item(token), token.place)
            return
        self.found += self.formula.sub_formula(inner, token.place, self.is_fixed)
        self.factor = 1000

    def up_to(self, opening, is_end):
        """The tokens up to the end of a formula."""
        found, depth = [], 0
        while True:
            token = self.reader.next()
            if token is None or token.kind == "stop":
                raise Refused(opening.place, "the formula that begins here in the text does not end")
            depth += (token.kind == tokens.BEGIN) - (token.kind == tokens.END)
            if depth == 0 and is_end(token):
                return found
            found.append(token)


def words_of(found):
    """The letters of an argument that is a word, as the name of a class."""
    return re.sub(r"\s+", " ", "".join(token.text for token in found)).strip()
