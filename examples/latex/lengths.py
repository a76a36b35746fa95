"""Arguments that are read as they are written: words, lengths and numbers."""

import re

from . import tokens
from .places import Refused
from .tokens import Token

LENGTH = re.compile(
    r"\s*([+-]?)\s*(\d*[.,]?\d*)\s*(pt|mm|cm|in|em|ex|mu|pc|bp|sp|dd|cc)\s*"
    r"(?:plus\s*[-\d.]*\s*(?:[a-z]+)\s*)?(?:minus\s*[-\d.]*\s*(?:[a-z]+)\s*)?$"
)
UNITS = ("pt", "mm", "cm", "in", "em", "ex", "mu", "pc", "bp", "sp", "dd", "cc")
LENGTHS = {
    "arraycolsep": "5pt", "tabcolsep": "6pt", "thinmuskip": "3mu", "medmuskip": "4mu", "thickmuskip": "5mu",
    "jot": "3pt", "baselineskip": "12pt", "fboxsep": "3pt", "fboxrule": ".4pt", "parindent": "15pt", "p@": "1pt",
    "z@": "0pt", "z@skip": "0pt",
}  # fmt: skip


def word(formula, command):
    """An argument as it is written, with macros expanded."""
    found = formula.reader.argument(command)
    return written(formula, found, command)


def written(formula, found, command):
    """Tokens as text, with macros expanded."""
    formula.reader.put_back(Token("stop", "", command.place))
    formula.reader.put_back_all(found)
    text, token = "", formula.reader.next_expanded()
    while token is not None and token.kind != "stop":
        text += LENGTHS.get(token.text, token.source()) if token.kind == tokens.NAME else token.text
        token = formula.reader.next_expanded()
    return text


def length(formula, text, command):
    """A length as mathset reads it."""
    found = LENGTH.match(text)
    if not found or not re.search(r"\d", found[2]):
        text = text.strip()
        raise Refused(command.place, f"the length {text} cannot be had; write a number and a unit", command.length())
    return found[1] + found[2] + found[3]


def dimension(formula, command):
    """A dimension of TeX's that follows."""
    text, token = "", formula.reader.next_expanded()
    while token is not None:
        if token.kind == tokens.NAME and token.text in LENGTHS:
            text = text.strip() or "1"
            return scaled(text, LENGTHS[token.text], command)
        if token.kind == tokens.SPACE and text.strip()[-2:] not in UNITS:
            text += " "
        elif token.kind in (tokens.LETTER, tokens.OTHER) and (token.text in "+-.,0123456789=" or token.text.isalpha()):
            text += "" if token.text == "=" else token.text
            text = re.sub(r"true$", "", text)
        else:
            break
        if text.strip()[-2:] in UNITS and re.search(r"\d", text):
            return length(formula, text, command)
        token = formula.reader.next_expanded()
    formula.reader.put_back(token)
    raise Refused(command.place, f"the length after {command.source()} cannot be had; write a number and a unit",
        command.length())


def scaled(factor, amount, command):
    """A multiple of a length of LaTeX's."""
    found = re.match(r"([\d.]+)(\w+)", amount)
    try:
        sign = -1 if factor.strip().startswith("-") and len(factor.strip()) == 1 else float(factor)
    except ValueError as error:
        raise Refused(command.place, f"the length after {command.source()} cannot be had", command.length()) from error
    return f"{sign * float(found[1]):g}{found[2]}"


def skip_stretch(formula):
    """Skips plus and minus after a glue."""
    for key in ("plus", "minus"):
        formula.reader.skip_spaces()
        taken = []
        for letter in key:
            token = formula.reader.next()
            taken.append(token)
            if token is None or not token.is_character(letter):
                break
        else:
            dimension(formula, taken[0])
            continue
        formula.reader.put_back_all([part for part in taken if part is not None])


def number(formula, command):
    """A number that follows, as text that ends with a space."""
    token = formula.reader.peek_past_spaces()
    text, digits = "", "0123456789"
    if token is not None and token.is_character("="):
        formula.reader.next()
        token = formula.reader.peek_past_spaces()
    if token is not None and token.is_character('"', "'"):
        digits = "0123456789ABCDEF" if token.text == '"' else "01234567"
        text = formula.reader.next().text
    elif token is not None and token.is_character("`"):
        formula.reader.next()
        character = formula.reader.next()
        return "%d " % ord((character.text if character else "")[:1] or " ")
    token = formula.reader.next_expanded()
    while token is not None and token.kind in (tokens.LETTER, tokens.OTHER) and token.text in digits:
        text += token.text
        token = formula.reader.next_expanded()
    if token is not None and token.kind != tokens.SPACE and not token.is_name("relax"):
        formula.reader.put_back(token)
    if text in ("", '"', "'"):
        raise Refused(command.place, f"the number after {command.source()} is missing", command.length())
    return text + " "
