"""A formula of LaTeX's as one of mathset's."""

from . import commands, environments, tokens, unicode
from .places import Fault, Refused
from .text import Text
from .tokens import Token, tokens_of

STOP = "stop"
DEEPEST = 140


class Formula:
    """Reads the tokens of a formula and writes pieces: texts for mathset, each with the place that it comes from."""

    def __init__(self, reader, names, report):
        self.reader = reader
        self.names = names
        self.report = report
        self.is_display = False
        self.tag = None
        self.depth = 0
        self.numbering = None
        self.last_name = None

    # Faults

    def warn(self, token, text):
        """Reports what is left out or set in another way."""
        self.report(Fault(token.place, token.length(), text, True))

    def unknown(self, token):
        """Reports a name that nobody defines."""
        text = f"{token.source()} is not known" + commands.advice(token.text)
        self.report(Fault(token.place, token.length(), text))

    # Lists

    def list(self, is_end=None):
        """The pieces up to a token that ends the list, which stays, or up to the end."""
        found = []
        self.depth += 1
        if self.depth > DEEPEST:
            token = self.reader.peek()
            raise Refused(token.place if token else 0, "too many groups are open here")
        while True:
            token = self.reader.next_expanded()
            if token is None:
                break
            if token.kind == STOP or is_end is not None and is_end(token):
                self.reader.put_back(token)
                break
            if token.kind != tokens.SPACE:
                found += self.item(token)
        self.depth -= 1
        return found

    def item(self, token):
        """The pieces of an item."""
        kind = token.kind
        if kind in (tokens.LETTER, tokens.OTHER):
            return self.character(token)
        if kind == tokens.NAME:
            return self.command(token)
        if kind == tokens.BEGIN:
            return self.group(token)
        if kind in (tokens.UP, tokens.DOWN):
            return [(token.text, token.place), *self.field(token)]
        if kind == tokens.ACTIVE:
            return commands.blank(self, token)
        return self.misplaced(token)

    def misplaced(self, token):
        """A token that cannot be where it is."""
        if token.kind == tokens.TAB:
            raise Refused(token.place, "& outside of an environment with columns, or inside of a group")
        if token.kind == tokens.END:
            raise Refused(token.place, "} without {")
        if token.kind == tokens.MATH:
            raise Refused(token.place, "$ inside of a formula")
        raise Refused(token.place, f"{token.text} cannot be in a formula")

    def character(self, token):
        """A character."""
        if token.text.isascii():
            return [(token.text, token.place)]
        return self.unicode_character(token)

    def unicode_character(self, token):
        """A character that is not of ASCII, by its name."""
        written = unicode.written(token.text)
        if written is None:
            code = f"{token.text} (U+{ord(token.text):04X})"
            raise Refused(token.place, f"the character {code} cannot be had; write a command for it")
        if written.startswith("\\sqrt"):
            # The field of the root follows it.
            self.reader.put_back_all(tokens_of(written, token.place))
            return self.item(self.reader.next())
        return self.sub_list(tokens_of(written, token.place), token.place)

    def group(self, opening):
        """A group."""
        self.reader.meanings.open()
        inner = self.list(lambda token: token.kind == tokens.END)
        closing = self.reader.next()
        self.reader.meanings.close()
        if closing is None or closing.kind != tokens.END:
            raise Refused(opening.place, "the group that begins here does not end")
        return [("{", opening.place), *inner, ("}", closing.place)]

    def field(self, command):
        """What a script or an argument is: a group, or one item in braces where it is several tokens."""
        token = self.reader.next_expanded()
        while token is not None and token.kind == tokens.SPACE:
            token = self.reader.next_expanded()
        if token is None or token.kind in (tokens.END, STOP, tokens.TAB, tokens.MATH):
            self.reader.put_back(token)
            what = "a superscript" if command.text == "^" else "a subscript" if command.text == "_" else "an argument"
            raise Refused(command.place, f"{what} is missing after {command.source()}", command.length())
        if token.kind in (tokens.UP, tokens.DOWN):
            raise Refused(token.place, f"{token.text} directly after {command.source()}; put it in braces")
        found = self.item(token)
        return self.braced(found, token.place)

    def braced(self, found, place):
        """Pieces as one field."""
        if len(found) == 1 and self.is_one_token(found[0][0]) or is_group(found):
            return found
        return [("{", place), *found, ("}", place)]

    def is_one_token(self, text):
        """Whether a piece is a character or a name without arguments."""
        if len(text) == 1:
            return text not in "'^_"
        return text[0] == "\\" and self.names.arguments.get(text[1:].strip(), 1) == 0

    def argument(self, command):
        """The pieces of an argument, without braces, read as a list of its own."""
        return self.sub_list(self.reader.argument(command), command.place)

    def sub_list(self, found, place):
        """The pieces of tokens that are a list by themselves."""
        self.reader.put_back(Token(STOP, "", place))
        self.reader.put_back_all(found)
        self.reader.meanings.open()
        pieces = self.list()
        self.reader.meanings.close()
        token = self.reader.next()
        if token is None or token.kind != STOP:
            raise Refused(place, "an argument does not end where it should")
        return pieces

    def in_braces(self, command):
        """An argument in braces."""
        return [("{", command.place), *self.argument(command), ("}", command.place)]

    def sub_formula(self, found, place, has_text_size):
        """A formula inside of a text, in which no family is in force."""
        style = [("\\textstyle", place)] if has_text_size else []
        style.append(("\\fam16 ", place))
        return [("{", place), *style, *self.sub_list(found, place), ("}", place)]

    def text(self, found, place, font="rm", is_fixed=False):
        """The pieces of a text."""
        return Text(self, font, is_fixed).of(found, place)

    # Commands

    def is_of_formulas(self, token):
        """Whether a name is one of formulas."""
        return token.text in commands.COMMANDS or token.text in self.names

    def command(self, token):
        """A control sequence."""
        name = token.text
        handler = commands.COMMANDS.get(name)
        if handler is not None:
            return handler(self, token)
        count = self.names.arguments.get(name)
        if count is None:
            self.unknown(token)
            return []
        found = [("\\" + name, token.place)]
        for _ in range(count):
            found += self.field(token)
        return found

    # Whole formulas

    def inline(self, opening):
        """A formula in the text."""
        body = self.list(lambda token: token.kind == tokens.MATH)
        self.finish()
        return [("$", opening.place), *(body or [("{}", opening.place)]), ("$", opening.place)]

    def display(self, opening, name=None):
        """A display; the name is that of its environment."""
        self.is_display = True
        if name is None:
            body = self.list(lambda token: token.kind == tokens.MATH)
        else:
            body = environments.display(self, opening, name)
        self.finish()
        return [("$$", opening.place), *body, *self.number(), ("$$", opening.place)]

    def number(self):
        """The number at the side."""
        return [] if self.tag is None else self.tag

    def finish(self):
        """Refuses what is left."""
        token = self.reader.next()
        if token is not None and token.kind not in (tokens.MATH, STOP):
            self.misplaced(token)


def is_group(found):
    """Whether pieces are exactly one group."""
    if len(found) < 2 or found[0][0] != "{" or found[-1][0] != "}":
        return False
    depth = 0
    for text, _ in found[:-1]:
        if text == "{":
            depth += 1
        elif text == "}":
            depth -= 1
            if depth == 0:
                return False
    return True


def joined(found):
    """The text of pieces, with the offset of each in it and the place that it comes from."""
    parts, marks, at, is_word = [], [], 0, False
    for text, place in found:
        if is_word and text[:1].isalpha():
            parts.append(" ")
            at += 1
        marks.append((at, place))
        parts.append(text)
        at += len(text)
        if text:
            is_word = text[0] == "\\" and len(text) > 1 and text[-1].isalpha() and ends_in_word(text)
    return "".join(parts), marks


def ends_in_word(text):
    """Whether a text ends in a control word."""
    return text[text.rfind("\\") + 1 :].isalpha()
