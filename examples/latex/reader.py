"""Tokens with the author's macros expanded (The TeXbook, chapter 20; LaTeX's \\newcommand and its like)."""

import pathlib
from typing import NamedTuple

from . import tokens
from .places import Refused
from .tokens import Lexer, Token

# A formula, or a document outside of formulas, has at most so many expansions.
MOST_EXPANSIONS = 50_000
PARAGRAPH = 20_000


class Macro(NamedTuple):
    """A macro: what is before, between and behind its parameters, a default of the first, and its body."""

    parts: tuple
    default: object
    body: tuple
    place: int

    def count(self):
        """How many parameters it has."""
        return len(self.parts) - 1


class Alias(NamedTuple):
    """What \\let gives a name: the meaning of a token that is no macro."""

    token: Token


class Pair(NamedTuple):
    """What \\DeclarePairedDelimiter gives a name."""

    left: tuple
    right: tuple


class Meanings:
    """What names mean, with the ends of groups."""

    def __init__(self):
        self.names = {}
        self.environments = {}
        self.saved = []

    def get(self, name):
        """The meaning of a name, if the author gave it one."""
        return self.names.get(name)

    def define(self, name, meaning, is_global=False):
        """Gives a name a meaning up to the end of the group."""
        if self.saved and not is_global:
            self.saved[-1].append((self.names, name, self.names.get(name)))
        self.names[name] = meaning

    def define_environment(self, name, parts):
        """Gives an environment what begins and ends it."""
        if self.saved:
            self.saved[-1].append((self.environments, name, self.environments.get(name)))
        self.environments[name] = parts

    def open(self):
        """Begins a group."""
        self.saved.append([])

    def close(self):
        """Ends a group."""
        for table, name, meaning in reversed(self.saved.pop() if self.saved else []):
            if meaning is None:
                table.pop(name, None)
            else:
                table[name] = meaning


class Reader:
    """Gives tokens, from lists that were put back and then from the text."""

    def __init__(self, meanings, texts):
        self.meanings = meanings
        self.texts = texts
        self.lexers = []
        self.waiting = []
        self.expansions = 0

    # Tokens as they are written

    def next(self):
        """The next token without expansion, or None at the end."""
        if self.waiting:
            return self.waiting.pop()
        while self.lexers:
            token = self.lexers[-1].next()
            if token is not None:
                return token
            self.lexers.pop()
        return None

    def put_back(self, token):
        """Puts back a token, to be read next."""
        if token is not None:
            self.waiting.append(token)

    def put_back_all(self, found):
        """Puts back tokens, to be read next in their order."""
        self.waiting.extend(reversed(found))

    def peek(self):
        """The next token, which stays."""
        token = self.next()
        self.put_back(token)
        return token

    def peek_past_spaces(self):
        """The next token that is no space; the spaces before it are lost."""
        self.skip_spaces()
        return self.peek()

    def skip_spaces(self):
        """Skips spaces."""
        token = self.next()
        while token is not None and token.kind == tokens.SPACE:
            token = self.next()
        self.put_back(token)

    # Arguments

    def group(self, opening):
        """What is up to the end of a group whose beginning has been read."""
        found, depth = [], 1
        while True:
            token = self.next()
            if token is None:
                raise Refused(opening.place, "the group that begins here does not end")
            depth += (token.kind == tokens.BEGIN) - (token.kind == tokens.END)
            if depth == 0:
                return found
            found.append(token)

    def argument(self, command):
        """An argument without delimiters: a token, or what is in a group."""
        self.skip_spaces()
        token = self.next()
        if token is None or token.kind == tokens.END:
            self.put_back(token)
            raise Refused(command.place, f"an argument of {command.source()} is missing", command.length())
        return self.group(token) if token.kind == tokens.BEGIN else [token]

    def optional(self):
        """The argument in brackets, or None where there is none."""
        spaces = []
        token = self.next()
        while token is not None and token.kind == tokens.SPACE:
            spaces.append(token)
            token = self.next()
        if token is None or not token.is_character("["):
            self.put_back(token)
            self.put_back_all(spaces)
            return None
        return self.until_bracket(token)

    def optional_at_once(self):
        """The argument in brackets that follows directly; None where there is none."""
        token = self.next()
        if token is not None and token.is_character("["):
            return self.until_bracket(token)
        self.put_back(token)
        return None

    def until_bracket(self, opening):
        """What is up to the ] that is outside of groups."""
        found, depth = [], 0
        while True:
            token = self.next()
            if token is None or depth < 0:
                raise Refused(opening.place, "the ] for this [ is missing")
            depth += (token.kind == tokens.BEGIN) - (token.kind == tokens.END)
            if depth == 0 and token.is_character("]"):
                return found
            found.append(token)

    def star(self):
        """Whether a * follows, which is taken."""
        token = self.peek_past_spaces()
        if token is not None and token.is_character("*"):
            self.next()
            return True
        return False

    def text_of(self, found):
        """Tokens as they are written."""
        return "".join(token.source() + (" " if token.kind == tokens.NAME else "") for token in found).strip()

    def name_argument(self, command):
        """The control sequence that a definition is for, also in braces."""
        found = [token for token in self.argument(command) if token.kind != tokens.SPACE]
        if len(found) != 1 or found[0].kind not in (tokens.NAME, tokens.ACTIVE):
            raise Refused(command.place, f"{command.source()} takes a name to define", command.length())
        return found[0].text

    # Expansion

    def next_expanded(self):
        """The next token that is no macro of the author's; definitions are carried out."""
        while True:
            token = self.next()
            if token is None or token.kind not in (tokens.NAME, tokens.ACTIVE):
                return token
            meaning = self.meanings.get(token.text)
            if meaning is None:
                if token.kind == tokens.NAME and (self.carry_out(token) or self.own_environment(token)):
                    continue
                return token
            if isinstance(meaning, Alias):
                return meaning.token._replace(place=token.place)
            self.expand(token, meaning)

    def carry_out(self, token):
        """Carries out a definition or a conditional; whether the token is one."""
        from . import definitions

        command = definitions.COMMANDS.get(token.text)
        if command is None:
            return False
        command(self, token)
        return True

    def own_environment(self, token):
        """Puts what begins or ends an environment of the author's in place of \\begin or \\end; whether it is one."""
        if token.text not in ("begin", "end") or not self.meanings.environments:
            return False
        following = self.peek()
        if following is None or following.kind != tokens.BEGIN:
            return False
        found = self.argument(token)
        parts = self.meanings.environments.get("".join(part.text for part in found))
        if parts is None:
            place = following.place
            self.put_back_all([following, *found, Token(tokens.END, "}", place)])
            return False
        self.expand(token, parts[0] if token.text == "begin" else parts[1])
        return True

    def expand(self, token, meaning):
        """Puts the body of a macro in its place."""
        self.expansions += 1
        if self.expansions > MOST_EXPANSIONS:
            raise Refused(token.place, f"{token.source()} has too many expansions; it may call itself", token.length())
        if isinstance(meaning, Pair):
            self.put_back_all(self.paired(token, meaning))
            return
        arguments = self.arguments(token, meaning)
        place, found = token.place, []
        body = iter(meaning.body)
        for part in body:
            if part.kind != tokens.PARAMETER:
                found.append(part._replace(place=place))
                continue
            digit = next(body, None)
            if digit is not None and digit.kind == tokens.PARAMETER:
                found.append(digit._replace(place=place))
            elif digit is not None and digit.text.isdigit() and 0 < int(digit.text) <= len(arguments):
                found.extend(arguments[int(digit.text) - 1])
        self.put_back_all(found)

    def paired(self, token, meaning):
        """The delimiters round an argument; a star makes them grow, a size in brackets is put before them."""
        has_star = self.star()
        size = None if has_star else self.optional()
        inner = self.argument(token)
        left, right = list(meaning.left), list(meaning.right)
        if has_star:
            left, right = [Token(tokens.NAME, "left", 0), *left], [Token(tokens.NAME, "right", 0), *right]
        elif size:
            left, right = [size[0]._replace(text=size[0].text + "l"),
                *left], [size[0]._replace(text=size[0].text + "r"), *right]
        found = [part._replace(place=token.place) for part in left]
        return found + inner + [part._replace(place=token.place) for part in right]

    def arguments(self, token, meaning):
        """The arguments of a macro, one for each of its parameters."""
        self.match(token, meaning.parts[0])
        found = []
        for number, behind in enumerate(meaning.parts[1:]):
            if number == 0 and meaning.default is not None:
                given = self.optional()
                found.append(list(meaning.default) if given is None else given)
            elif behind:
                found.append(self.delimited(token, behind))
            else:
                found.append(self.argument(token))
        return found

    def match(self, macro, wanted):
        """Takes the tokens that must follow the name of a macro."""
        for part in wanted:
            token = self.next()
            if token is None or (token.kind, token.text) != (part.kind, part.text):
                self.put_back(token)
                raise Refused(macro.place, f"the use of {macro.source()} does not match its definition", macro.length())

    def delimited(self, macro, behind):
        """An argument up to the tokens that end it."""
        found, depth = [], 0
        ends = [(part.kind, part.text) for part in behind]
        while True:
            token = self.next()
            if token is None or depth < 0 or len(found) > PARAGRAPH:
                raise Refused(macro.place, f"the use of {macro.source()} does not match its definition", macro.length())
            depth += (token.kind == tokens.BEGIN) - (token.kind == tokens.END)
            found.append(token)
            last = found[-len(ends) :]
            if depth == 0 and [(part.kind, part.text) for part in last] == ends:
                return without_braces(found[: -len(ends)])

    # Files

    def open_text(self, text, name, start):
        """Reads a text next."""
        self.lexers.append(Lexer(text, start, name))

    def input(self, token, name):
        """Reads a file beside the others, if it is there."""
        if not self.lexers:
            return
        folder = pathlib.Path(self.lexers[0].name or ".").parent
        for path in (folder / name, folder / (name + ".tex")):
            if path.is_file() and len(self.lexers) < 20:
                text = decoded(path.read_bytes())
                self.open_text(text, str(path), self.texts.add(text, str(path)))
                return


def without_braces(found):
    """An argument without the braces round it, where these are one group."""
    if len(found) < 2 or found[0].kind != tokens.BEGIN or found[-1].kind != tokens.END:
        return found
    depth = 0
    for token in found[:-1]:
        depth += (token.kind == tokens.BEGIN) - (token.kind == tokens.END)
        if depth == 0:
            return found
    return found[1:-1]


def decoded(content):
    """The text of a file: UTF-8, or else Latin-1."""
    content = content.removeprefix(b"\xef\xbb\xbf")
    try:
        return content.decode("utf-8")
    except UnicodeDecodeError:
        return content.decode("latin-1")
