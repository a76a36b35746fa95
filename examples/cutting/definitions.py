"""The definitions and assignments of a source that are outside of formulas, and where it may be cut beside them."""
import re

WORD = re.compile(rb"\\(?:def|mathcode|delcode|bye|end)(?![A-Za-z])")
NEVER_DEFINED = (b"\\eject", b"\\def", b"\\mathcode", b"\\delcode")
# What matters outside of numbers: comments, control sequences, dollars and braces.
TOKEN = re.compile(rb"%[^\n]*|\\[A-Za-z]+|\\[^A-Za-z]|[${}]")
TWO_DOLLARS = re.compile(rb"\$(?:%[^\n]*\n[ \t]*)*\$")
# A definition up to its body.
HEAD = re.compile(rb"\\def(?:[ \t\r\n]|%[^\n]*\n)*(\\(?:[A-Za-z]+|[^A-Za-z]))(?:[ \t\r\n]|%[^\n]*\n|#[1-9])*\{")
AMOUNT = rb"(?:`(?:\\[A-Za-z]|\\[^A-Za-z]|[^\s\\])|\"[0-9A-F]+|'[0-7]+|[0-9]+)"
# The number at its end must not go on behind it, nor behind a comment in the next line.
ASSIGNMENT = re.compile(rb"\\(?:math|del)code[ \t+-]*" + AMOUNT + rb"[ \t]*=?[ \t+-]*" + AMOUNT + rb"(?![0-9A-F%])")


class NotCut(Exception):
    """What follows is not cut."""


def definitions_up_to(source, first, end):
    """Takes the definitions of the part from `first` to `end`, which is moved behind a body that goes on there.

    The answer is where the part ends, or None where it is not cut from the rest. `end` may be None too.
    """
    text, at = source.text, first
    try:
        for found in WORD.finditer(text, first):
            start = found.start()
            if end is not None and start >= end:
                break
            if start >= at:
                at = past_others(text, max(at, page_before(source, at, start)), start)
            if start == at:
                at = past_definition(text, start)
                source.definitions.append((start, at))
            # An \eject in a body or in a formula ends no page.
            if end is not None and at > end:
                end = source.end_of_page(at)
    except NotCut:
        return None
    return end


def page_before(source, lowest, start):
    """Where the page begins in which this byte is, as far as it is known: it is outside of formulas."""
    text, at = source.text, start
    while at > lowest:
        at = text.rfind(b"\\eject", lowest, at)
        if at < 0:
            break
        line, behind = text.rfind(b"\n", 0, at) + 1, text.find(b"\n", at)
        if behind < start and source.is_end_of_page(line, at, behind):
            return behind + 1
    return lowest


def past_others(text, at, start):
    """This byte, at which a word begins, or the byte behind the formula or the comment in which it is."""
    while at < start:
        found = TOKEN.search(text, at)
        if found[0] == b"$":
            at = past_formula(text, found.start())
        else:
            at = min(found.end(), start) if found.start() == start else found.end()
    return at


def past_formula(text, start):
    """The byte behind the formula that begins here."""
    is_display = TWO_DOLLARS.match(text, start)
    depth = 0
    for found in TOKEN.finditer(text, is_display.end() if is_display else start + 1):
        depth += (found[0] == b"{") - (found[0] == b"}")
        if found[0] == b"$" and depth == 0:
            end = TWO_DOLLARS.match(text, found.start()) if is_display else found
            if not end:
                break
            return end.end()
    raise NotCut


def past_definition(text, start):
    """The byte behind a definition or an assignment. The end of a document is neither."""
    found = ASSIGNMENT.match(text, start)
    if found:
        return found.end()
    head = HEAD.match(text, start)
    if not head or head[1] in NEVER_DEFINED:
        raise NotCut
    depth = 1
    for found in TOKEN.finditer(text, head.end()):
        depth += (found[0] == b"{") - (found[0] == b"}")
        if depth == 0:
            return found.end()
    raise NotCut
