"""What a request asks for and what is answered, in JSON, whatever carries it."""

import json
import typing

from .formula import Fault, Formula

UNITS = ("ex", "pt")
# A text may be 4,000 characters and far more bytes, and so may a number.
WORDS = {"formulas", "definitions", "latex", "unit", "html"}


class Refused(Exception):
    """A request that is not answered, with HTTP's status and a text."""

    def __init__(self, status, text):
        super().__init__(text)
        self.status, self.text = status, text


class Request(typing.NamedTuple):
    """Formulas, the definitions before them, whether they are LaTeX, and the form of the pictures."""

    formulas: list
    definitions: str
    latex: bool
    form: str


def request_of(body, limits):
    """The request in a body, or Refused."""
    try:
        value = json.loads(body)
    except (ValueError, RecursionError):
        raise Refused(400, "the body is not JSON") from None
    if not isinstance(value, dict) or not isinstance(value.get("formulas"), list):
        raise Refused(400, 'the body must be {"formulas": [..]}')
    unknown = sorted(value.keys() - WORDS)
    if unknown:
        raise Refused(400, f"a request has no {unknown[0][:40]!r}, only " + ", ".join(sorted(WORDS)))
    if not 1 <= len(value["formulas"]) <= limits.formulas:
        raise Refused(413, f"a request has 1 to {limits.formulas} formulas")
    definitions = of_type(value, "definitions", str, "")
    if len(definitions) > limits.definitions_characters:
        raise Refused(413, f"definitions can have at most {limits.definitions_characters} characters")
    unit = of_type(value, "unit", str, "ex")
    if unit not in UNITS:
        raise Refused(400, 'unit is "ex" or "pt"')
    form = "html" if of_type(value, "html", bool, False) else unit
    formulas = [formula_of(each) for each in value["formulas"]]
    return Request(formulas, definitions, of_type(value, "latex", bool, False), form)


def of_type(value, name, kind, default):
    """A member of an object, which has the type or is not there."""
    found = value.get(name, default)
    if not isinstance(found, kind):
        raise Refused(400, f"{name} must be " + {str: "a text", bool: "true or false"}[kind])
    return found


def formula_of(item):
    """The formula in a member of the list."""
    if isinstance(item, str):
        return Formula(item)
    if not isinstance(item, dict) or not isinstance(item.get("source"), str):
        raise Refused(400, 'a formula is a text or {"source": "..", "display": true or false}')
    return Formula(item["source"], of_type(item, "display", bool, False))


def answer_of(result, form):
    """A result as it is answered."""
    if isinstance(result, Fault):
        return {"fault": result.as_json()}
    return {"html" if form == "html" else "svg": result.svg(form), **result.measures()}


def text_of(value):
    """An answer as bytes."""
    return json.dumps(value, separators=(",", ":")).encode()
