"""The formulas of a text: where each begins and ends, and what is left out (LaTeX: A Document Preparation System)."""

import re

from . import environments, tokens
from .places import Refused
from .tokens import Token

PLAIN = re.compile(r"[^\\${}%~^]+")
VERBATIM = """verbatim verbatim* Verbatim lstlisting comment minted filecontents filecontents* tikzcd alltt listing code
LTXexample example""".split()
# Commands of texts with the arguments that are no formulas: o is one in brackets, m one in braces.
SKIPPED = {
    "label": "m", "ref": "m", "eqref": "m", "cite": "oom", "citep": "oom", "citet": "oom", "url": "m", "href": "m",
    "path": "m",
    "includegraphics": "om", "documentclass": "om", "bibliography": "m",
    "bibliographystyle": "m", "pagestyle": "m", "index": "m", "hypersetup": "m", "usetikzlibrary": "m",
    "pgfplotsset": "m",
    "lstset": "m", "hyphenation": "m", "vspace": "m", "hspace": "m", "setlength": "mm", "addtolength": "mm",
    "setcounter": "mm",
    "addtocounter": "mm", "newcounter": "mo", "newlength": "m", "color": "om", "definecolor": "mmm", "pageref": "m",
    "numberwithin": "mm", "DeclareFontFamily": "mmm", "DeclareSymbolFont": "mmmmm", "fontfamily": "m",
    "inputencoding": "m",
    "lstinputlisting": "om", "newsavebox": "m", "newfont": "mm", "DeclareUnicodeCharacter": "mm", "catcode": "",
}  # fmt: skip
WITH_MARKS = ("verb", "lstinline", "mintinline")
INLINE, DISPLAY = "inline", "display"


class Found:
    """A formula as it was found: its kind, its first token, its environment and its tokens."""

    def __init__(self, kind, opening, name, inner):
        self.kind = kind
        self.opening = opening
        self.name = name
        self.inner = inner

    def last_place(self):
        """The place of the last token before the mark that ends the formula."""
        inner = self.inner
        if self.name is not None:
            inner = inner[: max((at for at, part in enumerate(inner) if part.is_name("end")), default=0)]
        return max([self.opening.place] + [token.place for token in inner])


class Document:
    """Gives the formulas of a text, in order."""

    def __init__(self, reader, report):
        self.reader = reader
        self.report = report
        self.depth = 0

    def formulas(self):
        """Each formula. What cannot be read in the text between them is passed over."""
        while True:
            try:
                token = self.next()
                if token is None:
                    return
                found = self.at(token)
            except Refused as refused:
                if refused.fault.text.startswith(("the formula", "\\begin")):
                    self.report(refused.fault)
                continue
            if found is STOP:
                return
            if found is not None:
                yield found

    def next(self):
        """The next token that matters in text."""
        reader = self.reader
        if not reader.waiting and reader.lexers:
            lexer = reader.lexers[-1]
            plain = PLAIN.match(lexer.text, lexer.at)
            if plain:
                lexer.at = plain.end()
        return reader.next_expanded()

    def at(self, token):
        """The formula that a token begins, or nothing."""
        if token.kind == tokens.MATH:
            return self.between_dollars(token)
        if token.kind == tokens.BEGIN:
            self.reader.meanings.open()
        elif token.kind == tokens.END:
            self.reader.meanings.close()
        elif token.kind == tokens.NAME:
            return self.command(token)
        return None

    def command(self, token):
        """A command of the text."""
        name = token.text
        if name == "(":
            return Found(INLINE, token, None, self.collect(token, lambda part: part.is_name(")")))
        if name == "[":
            return Found(DISPLAY, token, None, self.collect(token, lambda part: part.is_name("]")))
        if name == "begin":
            return self.begin(token)
        if name == "ensuremath":
            return Found(INLINE, token, None, self.reader.argument(token))
        if name in WITH_MARKS:
            self.verbatim_word(token)
        elif name in ("input", "include"):
            self.reader.input(token, self.reader.text_of(self.reader.argument(token)).replace(" ", ""))
        elif name in ("usepackage", "RequirePackage"):
            self.packages(token)
        elif name in ("bye", "endinput") and not self.reader.waiting and self.reader.lexers:
            self.reader.lexers.pop()
        elif name == "end":
            return self.end(token)
        elif name in SKIPPED:
            self.skip_arguments(token, SKIPPED[name])
        return None

    def packages(self, token):
        """Reads the packages that are files beside the text, as those of the author are."""
        self.reader.optional()
        for name in self.reader.text_of(self.reader.argument(token)).split(","):
            self.reader.input(token, name.strip() + ".sty")

    def skip_arguments(self, token, pattern):
        """Skips the arguments of a command."""
        self.reader.star()
        for letter in pattern:
            if letter == "o":
                self.reader.optional()
            else:
                self.reader.argument(token)

    def verbatim_word(self, token):
        """Skips what is between the marks of \\verb."""
        if self.reader.waiting or not self.reader.lexers:
            return
        lexer = self.reader.lexers[-1]
        found = re.compile(r"\*?(?:\[[^]]*\])?(?:\{\w+\})?(\S)").match(lexer.text, lexer.at)
        if found:
            lexer.at = found.end()
            lexer.raw_until("}" if found[1] == "{" else found[1])

    def begin(self, token):
        """An environment of the text: a formula, or one in which nothing is read, or any other."""
        name = "".join(part.text for part in self.reader.argument(token))
        if name in VERBATIM:
            if self.reader.lexers:
                self.reader.lexers[-1].raw_until("\\end{%s}" % name)
            return None
        if not environments.is_display(name) or name in ("subequations", "linenomath"):
            self.reader.meanings.open()
            if name in ("array", "tabular", "tabularx", "tabular*"):
                self.skip_table_head(token, name)
            return None
        inner = self.collect_environment(token, name)
        if name == "math":
            end = max(at for at, part in enumerate(inner) if part.is_name("end"))
            return Found(INLINE, token, None, inner[:end])
        return Found(DISPLAY, token, name, inner)

    def skip_table_head(self, token, name):
        """Skips the arguments of a table."""
        self.reader.optional()
        if name in ("tabularx", "tabular*"):
            self.reader.argument(token)
        self.reader.argument(token)

    def end(self, token):
        """The end of an environment, and of the document."""
        if self.reader.peek() is None or self.reader.peek().kind != tokens.BEGIN:
            return STOP
        name = "".join(part.text for part in self.reader.argument(token))
        self.reader.meanings.close()
        return STOP if name == "document" else None

    def between_dollars(self, token):
        """A formula between dollars."""
        following = self.reader.next()
        if following is None or following.kind != tokens.MATH:
            self.reader.put_back(following)
            inner = self.collect(token, lambda part: part.kind == tokens.MATH)
            return Found(INLINE, token, None, [*inner, Token(tokens.MATH, "$", token.place)])
        inner = self.collect(token, self.is_double)
        return Found(DISPLAY, token, None, [*inner, Token(tokens.MATH, "$", token.place)])

    def is_double(self, part):
        """Whether a dollar and the next token are two dollars, which are taken."""
        if part.kind != tokens.MATH:
            return False
        following = self.reader.next()
        if following is not None and following.kind == tokens.MATH:
            return True
        self.reader.put_back(following)
        return False

    def collect(self, opening, is_end):
        """The tokens up to the end of a formula, outside of groups."""
        found, depth = [], 0
        while True:
            token = self.next_of_formula(opening)
            if depth == 0 and is_end(token):
                return found
            depth += (token.kind == tokens.BEGIN) - (token.kind == tokens.END)
            if depth < 0:
                self.reader.put_back(token)
                raise Refused(opening.place, "the formula that begins here does not end before the group round it",
                    opening.length())
            found.append(token)

    def next_of_formula(self, opening):
        """The next token of a formula; a macro that may end it is expanded."""
        while True:
            token = self.reader.next()
            if token is None or token.is_name("par"):
                raise Refused(opening.place, "the formula that begins here does not end in its paragraph",
                    opening.length())
            if token.kind != tokens.NAME:
                return token
            meaning = self.reader.meanings.get(token.text)
            if meaning is None or not may_end(meaning):
                return token
            self.reader.expand(token, meaning)

    def collect_environment(self, opening, name):
        """The tokens up to the \\end of an environment, with it."""
        found, depth = [], 0
        while True:
            token = self.next_in_environment(opening, name)
            found.append(token)
            if not token.is_name("begin", "end"):
                continue
            following = self.reader.peek()
            if following is None or following.kind != tokens.BEGIN:
                continue
            inner = self.reader.argument(token)
            word = "".join(part.text for part in inner)
            if depth == 0 and token.text == "end" and word in self.reader.meanings.environments and word != name:
                found.pop()
                self.reader.expand(token, self.reader.meanings.environments[word][1])
                continue
            found += [following, *inner, Token(tokens.END, "}", following.place)]
            depth += (1 if token.text == "begin" else -1) if word == name or word in self.reader.meanings.environments else 0
            if depth < 0:
                return found

    def next_in_environment(self, opening, name):
        """The next token; an empty line is none there."""
        while True:
            token = self.reader.next()
            if token is None:
                raise Refused(opening.place, f"\\begin{{{name}}} without its \\end", opening.length())
            if token.is_name("par"):
                continue
            meaning = self.reader.meanings.get(token.text) if token.kind == tokens.NAME else None
            if meaning is None or not may_end(meaning):
                return token
            self.reader.expand(token, meaning)


STOP = Found(None, None, None, [])


def may_end(meaning):
    """Whether a macro may end a formula: its body has a mark that ends one, and none before it that begins one."""
    for part in getattr(meaning, "body", ()):
        if part.is_name("begin", "[", "(") or part.kind == tokens.BEGIN:
            return False
        if part.is_name("end", "]", ")") or part.kind == tokens.MATH:
            return True
    return False
