"""Dots, by the token behind them, as amsmath chooses (amsmath.sty, \\mdots@@ and \\extra@)."""

from . import tokens
from .tokens import Token
from .unicode import NAMES

# What amsmath puts a thin space before.
RIGHT = ["rbrack", "}", "rbrace", "rangle", "rceil", "rfloor", "rgroup", "rmoustache", "right", "bigr", "biggr",
    "Bigr", "Biggr"]
BINARY_DOTS = """coprod bigvee bigwedge biguplus bigcap bigcup prod sum bigotimes bigoplus bigodot bigsqcup implies impliedby
longrightarrow Longrightarrow longleftarrow Longleftarrow longleftrightarrow Longleftrightarrow mapsto longmapsto
hookrightarrow hookleftarrow iff doteq And not ne neq mathbin mathrel""".split()
INTEGRALS = "int oint iint iiint iiiint idotsint".split()


def behind(formula):
    """The token behind dots, without expansion; a macro of the author's by what begins its body."""
    token = formula.reader.peek()
    if token is None or token.kind != tokens.NAME:
        return token
    meaning = formula.reader.meanings.get(token.text)
    body = getattr(meaning, "body", None)
    if body:
        first = body[0]
        return first if first.is_name("mathbin", "mathrel", "not", *BINARY_DOTS, *INTEGRALS) else Token("macro", "", 0)
    return getattr(meaning, "token", token)


def is_before_right(token):
    """Whether amsmath puts a thin space before this token."""
    return token is not None and (
        token.is_character(")", "]") or token.is_name(*RIGHT) or token.kind == tokens.MATH
    )


def dots(formula, token):
    """\\dots, by the token behind it."""
    name = token.text
    next_token = behind(formula)
    if name in ("dots",):
        name = kind_of_dots(formula, next_token)
    sign = "\\ldots" if name in ("dotso", "dotsc", "other") else "\\cdots"
    if name == "binary":
        return [("\\cdots", token.place)]
    if name == "dotsi":
        return [("\\!", token.place), ("\\cdots", token.place)]
    has_space = is_before_right(next_token)
    if next_token is not None and name != "other":
        has_space |= next_token.is_character(";", ".") or next_token.is_character(",") and name != "dotsc"
    return [(sign, token.place)] + ([("\\,", token.place)] if has_space else [])


def kind_of_dots(formula, token):
    """Which dots \\dots is before a token."""
    if token is None:
        return "other"
    if token.is_character(","):
        return "dotsc"
    if token.is_character("+", "=", "<", ">", "-", "*", ":"):
        return "binary"
    if token.kind == tokens.NAME:
        if token.text in INTEGRALS:
            return "dotsi"
        if token.text in BINARY_DOTS or formula.names.classes.get(token.text) in ("Bin", "Rel"):
            return "binary"
    if not (token.text or " ").isascii():
        return "binary" if class_of_character(formula, token.text) in ("Bin", "Rel") else "other"
    return "other"


def class_of_character(formula, char):
    """The class of a character of Unicode."""
    return formula.names.classes.get(NAMES.get(char, ""))
