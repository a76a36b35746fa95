"""Boxes inside of formulas: texts in text size, frames, rules, and what is raised, lowered or laps over."""

import re

from . import tokens
from .lengths import dimension, length, word, written
from .places import Refused
from .tokens import Token

# How far \\moved can raise and lower, in points.
HIGHEST, LOWEST = 60, -60


def box(formula, token):
    """\\mbox and its like: always in text size."""
    found = formula.reader.argument(token)
    inner = formula.text(found, token.place, "rm", True)
    return [("{", token.place), ("\\textstyle", token.place), *inner[1:]]


def make_box(formula, token):
    """\\makebox and \\framebox, whose widths are left out."""
    while formula.reader.optional() is not None:
        pass
    return box(formula, token)


def framed(formula, token):
    """\\boxed and \\fbox."""
    if token.text not in formula.names:
        formula.warn(token, "the frame is left out")
        if token.text == "fbox":
            return box(formula, token)
        return [("{", token.place), ("\\displaystyle", token.place), *formula.argument(token), ("}", token.place)]
    if token.text == "fbox":
        return [("\\fbox", token.place), *box(formula, token)]
    return [("\\boxed", token.place), *formula.in_braces(token)]


def lap(formula, token):
    """\\mathllap, \\llap and their like."""
    name = token.text.removeprefix("math")
    if token.text in formula.names or name in formula.names:
        known = token.text if token.text in formula.names else name
        inner = formula.in_braces(token) if token.text.startswith("math") else box(formula, token)
        return [("\\" + known, token.place), *inner]
    formula.warn(token, f"what is in {token.source()} takes room here")
    return formula.in_braces(token) if token.text.startswith("math") else box(formula, token)


def centred(formula, token):
    """\\vcenter with boxes of text."""
    place, rows = token.place, []
    found = formula.reader.argument(token)
    formula.reader.put_back(Token("stop", "", place))
    formula.reader.put_back_all(found)
    part = formula.reader.next_expanded()
    while part is not None and part.kind != "stop":
        if part.is_name("hbox", "mbox"):
            inner = formula.text(formula.reader.argument(part), part.place, "rm", True)
            rows += [("\\hbox{$", place), *inner, ("$}", place)]
        elif part.kind != tokens.SPACE:
            raise Refused(part.place, f"{part.source()} in \\vcenter; only \\hbox can be there", part.length())
        part = formula.reader.next_expanded()
    return [("\\vcenter{", place), *rows, ("}", place)]


def raise_box(formula, token):
    """\\raise, \\lower and \\raisebox: set on the line where the names have no command."""
    if token.text == "raisebox":
        amount = length(formula, word(formula, token), token)
        formula.reader.optional()
        formula.reader.optional()
    else:
        amount = dimension(formula, token)
        following = formula.reader.peek_past_spaces()
        if following is not None and following.is_name("hbox", "mbox", "copy"):
            formula.reader.next()
    inner = box(formula, token)
    up = in_points(amount) * (-1 if token.text == "lower" else 1)
    if "moved" not in formula.names or not LOWEST <= up <= HIGHEST:
        formula.warn(token, f"what {token.source()} moves is set on the line")
        return inner
    above, below = (round(65536 * thickness) for thickness in thicknesses(up))
    return [("\\moved{%d}{%d}" % (above, below), token.place), *inner]


def thicknesses(up):
    """The thicknesses by which \\moved raises, in points.

    It puts the middle one of three rows, 12pt apart, at the axis. By a rule of thickness t the first row is 1.5t + 2.5
    high and the last 1.5t - 2.5 deep. A row whose height or depth towards the middle one is more than 12pt is 1pt from it.
    """
    if up <= -4.75:
        return (14.5 - 2 * (up - 2.5)) / 3, 4
    if up <= -4.25:
        return 9.7, (2 * (up - 2.5) + 20.6) / 1.5
    if up < 0:
        return 4 - up / 0.75, 4
    if up <= 1.75:
        return 4, 4 + up / 0.75
    below = max(6.4, (2 * (up - 2.5) + 19.5) / 3)
    return (3 * below - 11 - 2 * (up - 2.5) - 2.5) / 1.5, below


def in_points(amount):
    """A length as points."""
    units = {"pt": 1, "mm": 2.84528, "cm": 28.4528, "in": 72.27, "em": 10.00002, "ex": 4.30554, "pc": 12, "bp": 1.00375,
             "sp": 1 / 65536, "dd": 1.07, "cc": 12.84, "mu": 0.55556}  # fmt: skip
    found = re.match(r"([-+]?)([\d.,]+)(\w\w)", amount)
    value = float(found[2].replace(",", ".").strip() or 0) if found and found[2] not in (".", ",") else 0
    return -value * units[found[3]] if found and found[1] == "-" else value * units[found[3]] if found else 0


def rule(formula, token):
    """\\rule, by the rule of a fraction of nothing, which \\moved puts where it belongs."""
    lift = formula.reader.optional()
    up = in_points(length(formula, written(formula, lift, token), token)) if lift else 0
    width, height = (length(formula, word(formula, token), token) for _ in range(2))
    if in_points(width) <= 0 or in_points(height) <= 0:
        return []
    # The rule of a fraction is in the middle of the axis, which is 2.5pt high.
    up -= 2.5 - in_points(height) / 2
    if "moved" not in formula.names or not LOWEST <= up <= HIGHEST:
        raise Refused(token.place, "\\rule of this size cannot be had", token.length())
    above, below = (round(65536 * thickness) for thickness in thicknesses(up))
    fraction = "{{\\hskip%s\\relax \\above%s }}" % (width, height)
    return [("\\kern-1.2pt \\moved{%d}{%d}%s\\kern-1.2pt " % (above, below, fraction), token.place)]
