"""The commands of LaTeX's that need reading: those with optional arguments, texts, lengths, dots and their like."""

import re

from . import bold as bold_symbols
from . import environments, tokens
from .boxes import box, centred, framed, lap, make_box, raise_box, rule
from .dots import dots
from .lengths import dimension, length, number, skip_stretch, word
from .places import Refused
from .text import ROMAN
from .tokens import Token, tokens_of


def advice(name):
    """What to write instead of a name."""
    text = INSTEAD.get(name)
    return f"; {text}" if text else "; define it by \\newcommand, or write what it stands for"


INSTEAD = {
    "includegraphics": "a picture is no formula",
    "xymatrix": "diagrams cannot be had; write a matrix",
    "SI": "write the number and the unit in \\mathrm",
    "si": "write the unit in \\mathrm",
    "qty": "write the number and the unit in \\mathrm",
    "ce": "write the formula in \\mathrm",
    "cancel": "a DVI file has no slanted lines; write what is left",
    "bcancel": "a DVI file has no slanted lines; write what is left",
    "xcancel": "a DVI file has no slanted lines; write what is left",
    "rotatebox": "nothing can be turned; write what is in it",
    "scalebox": "nothing can be scaled; write what is in it",
    "parbox": "write lines of \\text in an array",
    "halign": "write an array",
    "dd": "write \\mathrm d, or define it by \\newcommand",
    "vb": "write \\mathbf, or define it by \\newcommand",
}


# Spaces and texts

def blank(formula, token):
    """\\ and ~: a blank of the text font."""
    width, shrink, _ = ROMAN[0]
    return [(f"\\hskip{width}sp minus{shrink}sp ", token.place)]


def hspace(formula, token):
    """\\hspace and \\hspace*."""
    formula.reader.star()
    text = word(formula, token)
    if "\\fill" in text or "\\stretch" in text:
        formula.warn(token, "a space that grows is left out")
        return []
    return [("\\hskip" + length(formula, text, token) + "\\relax ", token.place)]


def mspace(formula, token):
    """\\mspace."""
    return [("\\mskip" + length(formula, word(formula, token), token) + "\\relax ", token.place)]


def glue(formula, token):
    """\\hskip and \\mskip."""
    amount = dimension(formula, token)
    skip_stretch(formula)
    return [("\\" + token.text + amount + "\\relax ", token.place)]


def kern(formula, token):
    """\\kern and \\mkern."""
    amount = dimension(formula, token)
    name = "mkern" if amount.endswith("mu") else "kern"
    return [(f"\\{name}{amount} ", token.place)]


def text(formula, token):
    """\\text and its like: in the size of the formula."""
    from .text import COMMANDS as FONTS

    return formula.text(formula.reader.argument(token), token.place, FONTS.get(token.text) or "rm")


def operator_name(formula, token):
    """\\operatorname and \\operatorname*, in whose names - and * are characters of text."""
    has_limits = formula.reader.star() or token.text == "operatornamewithlimits"
    found = formula.reader.argument(token)
    characters = {"-": "702D", "*": "702A", "'": "7027", ".": "702E", "/": "702F", ":": "703A"}
    formula.reader.put_back(Token("stop", "", token.place))
    formula.reader.put_back_all(found)
    inner = []
    while True:
        part = formula.reader.next_expanded()
        if part is None or part.kind == "stop":
            break
        if part.kind == tokens.OTHER and part.text in characters:
            inner.append(('\\mathchar"%s ' % characters[part.text], part.place))
        elif part.kind != tokens.SPACE:
            inner += formula.item(part)
    name = "operatornamewithlimits" if has_limits else "operatorname"
    return [("\\" + name, token.place), ("{", token.place), *inner, ("}", token.place)]


# Roots, fractions, scripts

def root(formula, token):
    """\\sqrt with a degree."""
    degree = formula.reader.optional()
    if degree is None:
        return [("\\sqrt", token.place), *formula.field(token)]
    moves, degree = moved_degree(formula, degree, token)
    place = token.place
    inner = formula.sub_list(degree, place)
    found = [("\\root", place), ("{", place), *inner, ("}", place), ("\\of", place), *formula.in_braces(token)]
    left = moves.get("leftroot", 0)
    if not left:
        return found
    # The mu of text style is 10.00002pt / 18; the degree is in the smallest size.
    points = left * 0.55556
    return [(f"\\mkern{-left}mu ", place), *found[:2], *inner, (f"\\kern{points:g}pt ", place),
        *found[2 + len(inner) + 0 :]]


def moved_degree(formula, degree, token):
    """What \\leftroot and \\uproot say, and the degree without them."""
    moves, rest, at = {}, [], 0
    while at < len(degree):
        part = degree[at]
        at += 1
        if not part.is_name("leftroot", "uproot"):
            rest.append(part)
            continue
        digits = ""
        if at < len(degree) and degree[at].kind == tokens.BEGIN:
            while at < len(degree) and degree[at].kind != tokens.END:
                at += 1
                if at < len(degree) and degree[at].kind == tokens.OTHER:
                    digits += degree[at].text
            at += 1
        else:
            digits = degree[at].text if at < len(degree) else ""
            at += 1
        if not re.fullmatch(r"-?\d+", digits):
            raise Refused(part.place, f"{part.source()} takes a number", part.length())
        moves[part.text] = int(digits)
    if moves.get("uproot"):
        formula.warn(token, "\\uproot is left out")
    return moves, rest


def root_of(formula, token):
    """Plain TeX's \\root..\\of."""
    inner = formula.list(lambda part: part.is_name("of"))
    if formula.reader.next() is None:
        raise Refused(token.place, "\\root without \\of", token.length())
    return [("\\root", token.place), ("{", token.place), *inner, ("}", token.place), ("\\of", token.place),
        *formula.field(token)]


def genfrac(formula, token):
    """\\genfrac."""
    left, right = (delimiter_pieces(formula, token, formula.reader.argument(token)) for _ in range(2))
    thickness = word(formula, token).strip()
    style = word(formula, token).strip()
    place = token.place
    styles = {"0": "\\displaystyle", "1": "\\textstyle", "2": "\\scriptstyle", "3": "\\scriptscriptstyle"}
    has_delimiters = left[0][0] != "." or right[0][0] != "."
    amount = "" if not thickness else length(formula, thickness, token)
    is_zero = amount and not re.search("[1-9]", amount)
    if is_zero:
        command = "\\atopwithdelims" if has_delimiters else "\\atop"
    elif amount:
        command = "\\abovewithdelims" if has_delimiters else "\\above"
    else:
        command = "\\overwithdelims" if has_delimiters else "\\over"
    bar = [(command, place)] + (left + right if has_delimiters else [])
    if amount and not is_zero:
        bar.append((amount + " ", place))
    begin = [("{", place)] + ([(styles[style], place)] if style in styles else [])
    return begin + [("{", place), *formula.in_braces(token), *bar, *formula.in_braces(token), ("}", place),
        ("}", place)]


def cfrac(formula, token):
    """\\cfrac, whose [l] and [r] are left out."""
    if formula.reader.optional():
        formula.warn(token, "the numerator is put in the middle")
    return [("\\cfrac", token.place), *formula.in_braces(token), *formula.in_braces(token)]


def substack(formula, token):
    """\\substack: lines in script style, in the middle of their height as \\vcenter puts them."""
    rows = environments.split_rows(formula.reader.argument(token))
    place = token.place
    lines = [[("\\scriptstyle", place), *formula.sub_list(row, place)] for row in rows]
    return environments.stacked(lines, place)


def integral(formula, token):
    """\\iint and its like, whose limits are those of all signs."""
    following = formula.reader.peek_past_spaces()
    sign = [("\\" + token.text, token.place)]
    if following is not None and following.is_name("limits"):
        before = "\\mkern-7mu \\mathchoice{\\mkern-2mu }{}{}{}\\mathop"
        inside = "\\mkern7mu \\mathchoice{\\mkern2mu }{}{}{}"
        return [(before, token.place), ("{", token.place), (inside, token.place), *sign, ("}", token.place)]
    return sign


def over_class(formula, token):
    """\\overset and \\underset, whose class is that of the symbol."""
    script = formula.in_braces(token)
    base = formula.in_braces(token)
    place = token.place
    kind = class_of(formula, base)
    wrapped = {"Bin": "\\mathbin", "Rel": "\\mathrel"}.get(kind, "")
    mark = "^" if token.text == "overset" else "_"
    inner = [("\\mathop", place), ("{", place), ("\\kern0pt ", place), *base[1:-1], ("}", place),
        ("\\limits" + mark, place), *script]
    return [(wrapped, place), ("{", place), *inner, ("}", place)] if wrapped else [("{", place), *inner, ("}", place)]


def over_under(formula, token):
    """\\overunderset."""
    above, below, base = (formula.in_braces(token) for _ in range(3))
    place = token.place
    wrapped = {"Bin": "\\mathbin", "Rel": "\\mathrel"}.get(class_of(formula, base), "")
    inner = [("\\mathop", place), ("{", place), ("\\kern0pt ", place), *base[1:-1], ("}", place)]
    return [(wrapped, place), ("{", place), *inner, ("\\limits^", place), *above, ("_", place), *below, ("}", place)]


def class_of(formula, found):
    """The class of what is in braces, where it is one symbol."""
    texts = [text for text, _ in found if text not in ("{", "}", "\\displaystyle")]
    if len(texts) == 1:
        text = texts[0]
        if text in ("=", "<", ">", ":"):
            return "Rel"
        if text in ("+", "-", "*"):
            return "Bin"
        return formula.names.classes.get(text[1:]) if text[0] == "\\" else None
    return {"\\mathrel": "Rel", "\\mathbin": "Bin", "\\not": "Rel"}.get(texts[0] if texts else "")


def extensible(formula, token):
    """\\xrightarrow and its like, with a text below."""
    below = formula.reader.optional()
    above = formula.in_braces(token)
    name, place = token.text, token.place
    if below is None and name in formula.names:
        return [("\\" + name, place), *above]
    arrow = ARROWS.get(name, "\\longrightarrow")
    found = [("\\mathrel{\\mathop{", place), (arrow, place), ("}\\limits", place), ("^", place), *above]
    if below:
        found += [("_", place), ("{", place), *formula.sub_list(below, place), ("}", place)]
    return [*found, ("}", place)]


ARROWS = {
    "xrightarrow": "\\longrightarrow", "xleftarrow": "\\longleftarrow", "xleftrightarrow": "\\longleftrightarrow",
    "xRightarrow": "\\Longrightarrow", "xLeftarrow": "\\Longleftarrow", "xLeftrightarrow": "\\Longleftrightarrow",
    "xmapsto": "\\longmapsto", "xhookrightarrow": "\\hookrightarrow", "xhookleftarrow": "\\hookleftarrow",
    "xlongequal": "\\Relbar\\joinrel\\Relbar",
}  # fmt: skip


def smash(formula, token):
    """\\smash, of whose [t] and [b] the names have a command if it can be had."""
    side = "".join(part.text for part in formula.reader.optional() or ())
    if side in ("t", "b") and "smash" + side in formula.names:
        return [("\\smash" + side, token.place), *formula.in_braces(token)]
    return [("\\smash", token.place), *formula.field(token)]


def sideset(formula, token):
    """\\sideset, whose left scripts belong to an empty atom before the operator."""
    left, right = formula.argument(token), formula.argument(token)
    base = formula.field(token)
    place = token.place
    scripts = formula.list(lambda part: part.kind not in (tokens.UP, tokens.DOWN,
        tokens.SPACE) and not part.is_character("'"))
    strut = [("\\vphantom", place), ("{\\displaystyle", place), *base, ("}", place)]
    front = [("{", place), *strut, ("}", place), *left] if left else []
    core = [*base, ("\\nolimits", place), *right]
    return [("\\mathop{", place), *front, *core, ("}", place), ("\\limits", place), *scripts]


# Delimiters

def delimiter_pieces(formula, command, found=None):
    """The pieces of a delimiter."""
    if found is not None:
        found = [part for part in found if part.kind != tokens.SPACE]
        if not found:
            return [(".", command.place)]
        formula.reader.put_back_all(found)
    token = formula.reader.next_expanded()
    while token is not None and (token.kind == tokens.SPACE or token.is_name("relax")):
        token = formula.reader.next_expanded()
    if token is not None and token.kind == tokens.BEGIN:
        inner = formula.reader.group(token)
        return delimiter_pieces(formula, command, inner)
    if token is not None and token.kind == tokens.OTHER and token.text in "()[]<>/|.":
        return [(token.text, token.place)]
    if token is not None and token.kind == tokens.OTHER and not token.text.isascii():
        return formula.unicode_character(token)
    if token is None or token.kind != tokens.NAME:
        formula.reader.put_back(token)
        raise Refused(command.place, f"a delimiter is missing after {command.source()}", command.length())
    if token.text in COMMANDS and token.text != "lvert":
        text = f"{token.source()} is no delimiter; one is missing after {command.source()}"
        raise Refused(token.place, text, token.length())
    if token.text not in formula.names:
        formula.unknown(token)
        return [(".", token.place)]
    return [("\\" + token.text, token.place)]


def left(formula, token):
    """\\left..\\middle..\\right."""
    found = [("\\left", token.place), *delimiter_pieces(formula, token)]
    formula.reader.meanings.open()
    while True:
        found += formula.list(lambda part: part.is_name("right", "middle") or part.kind in (tokens.END, tokens.TAB,
            tokens.MATH))
        closing = formula.reader.next()
        if closing is None or closing.kind != tokens.NAME:
            raise Refused(token.place, "\\left without \\right", token.length())
        found += [("\\" + closing.text, closing.place), *delimiter_pieces(formula, closing)]
        if closing.text == "right":
            formula.reader.meanings.close()
            return found


def stray_right(formula, token):
    """A \\right or \\middle without \\left."""
    raise Refused(token.place, f"{token.source()} without \\left", token.length())


def big(formula, token):
    """\\big and its like."""
    return [("\\" + token.text, token.place), *delimiter_pieces(formula, token)]


# The rest

def numbered(formula, token):
    """A command with a number."""
    return [("\\" + token.text + number(formula, token), token.place)]


def accent_number(formula, token):
    """A command with a number and a field."""
    return [("\\" + token.text + number(formula, token), token.place), *formula.field(token)]


def char(formula, token):
    """\\char: the character of the roman font."""
    text = number(formula, token).strip()
    code = int(text[1:], 16) if text[0] == '"' else int(text[1:], 8) if text[0] == "'" else int(text)
    if 48 <= code <= 57 or chr(code).isalpha() and code < 128:
        return [(chr(code), token.place)]
    return [('\\mathchar"70%02X ' % (code & 255), token.place)]


def nothing(formula, token):
    """A command without effect on a formula."""
    return []


def drop_argument(formula, token):
    """A command whose argument is nothing of a formula."""
    formula.reader.star()
    formula.reader.optional()
    formula.reader.argument(token)
    return []


def drop_warned(formula, token):
    """The same with a warning."""
    found = drop_argument(formula, token)
    formula.warn(token, f"{token.source()} is left out")
    return found


def color(formula, token):
    """\\color: a DVI file has no colours."""
    formula.reader.optional()
    formula.reader.argument(token)
    formula.warn(token, "the colour is left out")
    return []


def colored(formula, token):
    """\\textcolor and \\colorbox: what is in them without its colour."""
    found = color(formula, token)
    return found + formula.in_braces(token)


def inner_formula(formula, token):
    """\\ensuremath: what is in it."""
    return formula.argument(token)


def tag(formula, token):
    """\\tag and \\tag*."""
    star = formula.reader.star()
    inner = formula.reader.argument(token)
    if not star:
        place = token.place
        correction = Token(tokens.NAME, "/", place)
        inner = [Token(tokens.OTHER, "(", place), *inner, correction, Token(tokens.OTHER, ")", place)]
    written_tag = formula.text(inner, token.place, "rm", True)
    if not formula.is_display:
        raise Refused(token.place, "\\tag outside of a display", token.length())
    formula.tag = [("\\eqno", token.place), *written_tag]
    return []


def equation_number(formula, token):
    """\\eqno and \\leqno: the rest is the number."""
    rest = formula.list(lambda part: part.kind == tokens.MATH)
    formula.tag = [("\\" + token.text, token.place), *rest]
    return []


def begin_group(formula, token):
    """\\bgroup and \\begingroup."""
    ends = {"bgroup": "egroup", "begingroup": "endgroup"}
    inner = formula.list(lambda part: part.is_name(ends[token.text]) or part.kind == tokens.END)
    if formula.reader.next() is None:
        raise Refused(token.place, "the group that begins here does not end", token.length())
    return [("{", token.place), *inner, ("}", token.place)]


def choice(formula, token):
    """\\mathchoice."""
    return [("\\mathchoice", token.place), *(piece for _ in range(4) for piece in formula.in_braces(token))]


def palette(formula, token):
    """\\mathpalette: a command with the style and an argument."""
    command = formula.reader.argument(token)
    inner = formula.reader.argument(token)
    found = [("\\mathchoice", token.place)]
    for style in ("displaystyle", "textstyle", "scriptstyle", "scriptscriptstyle"):
        opening, closing = Token(tokens.BEGIN, "{", token.place), Token(tokens.END, "}", token.place)
        part = [*command, Token(tokens.NAME, style, token.place), opening, *inner, closing]
        found += [("{", token.place), *formula.sub_list(part, token.place), ("}", token.place)]
    return found


def buildrel(formula, token):
    """Plain TeX's \\buildrel..\\over."""
    above = formula.list(lambda part: part.is_name("over"))
    if formula.reader.next() is None:
        raise Refused(token.place, "\\buildrel without \\over", token.length())
    place = token.place
    return [("\\mathrel{\\mathop{\\kern0pt ", place), *formula.field(token), ("}\\limits^{", place), *above,
        ("}}", place)]


def begin(formula, token):
    """\\begin: an environment inside of a formula."""
    return environments.inside(formula, token)


def stray_end(formula, token):
    """\\end without \\begin."""
    raise Refused(token.place, "\\end without \\begin", token.length())


def new_row(formula, token):
    """A \\\\ outside of rows, which breaks no line in a formula of LaTeX's either."""
    if token.text in ("cr", "tabularnewline"):
        raise Refused(token.place, f"{token.source()} outside of an environment with rows", token.length())
    formula.reader.star()
    formula.reader.optional()
    formula.warn(token, f"{token.source()} outside of an environment with rows is left out; write aligned or gathered")
    return []


def plain_table(formula, token):
    """Plain TeX's \\matrix, \\pmatrix, \\cases, \\eqalign and \\displaylines."""
    return environments.plain_table(formula, token)


def bare_relation(formula, token):
    """\\not before a character."""
    return [("\\not", token.place)]


def bold(formula, token):
    """\\boldsymbol makes a box of its argument, \\bm makes its symbols bold; both keep the class of one symbol."""
    place = token.place
    inner = formula.argument(token)
    found = bold_symbols.bold(inner)
    if token.text == "bm":
        return found if len(found) == 1 else [("{", place), *found, ("}", place)]
    wrapped = {"Bin": "\\mathbin", "Rel": "\\mathrel"}.get(class_of(formula, inner))
    begin = [(wrapped, place)] if wrapped else []
    return [*begin, ("{", place), ("\\kern0pt ", place), *found, ("}", place)]


def math_font(formula, token):
    """\\mathrm and its like."""
    return [("\\" + token.text, token.place), *formula.in_braces(token)]


def skew(formula, token):
    """\\skew."""
    following = formula.reader.peek_past_spaces()
    is_group = following is not None and following.kind == tokens.BEGIN
    amount = word(formula, token).strip() if is_group else number(formula, token).strip()
    if not re.fullmatch(r"-?\d+", amount):
        raise Refused(token.place, "\\skew takes a number", token.length())
    return [("\\skew{" + amount + "}", token.place), *formula.in_braces(token), *formula.in_braces(token)]


def to_name(name):
    """A command that is another one."""

    def renamed(formula, token):
        formula.reader.put_back_all(tokens_of(name, token.place))
        following = formula.reader.next_expanded()
        return formula.item(following)

    return renamed


def first_of_two(formula, token):
    """\\texorpdfstring: its first argument."""
    found = formula.argument(token)
    formula.reader.argument(token)
    return found


def raised_text(formula, token):
    """\\textsuperscript and \\textsubscript."""
    mark = "^" if token.text == "textsuperscript" else "_"
    return [("{}", token.place), (mark, token.place), *text(formula, token)]


def shove(formula, token):
    """\\shoveleft and \\shoveright: the line is put in the middle as the others."""
    return formula.argument(token)


COMMANDS = {
    " ": blank, "nobreakspace": blank, "space": blank, "\t": blank, "\n": blank, "hspace": hspace, "mspace": mspace,
    "hskip": glue,
    "mskip": glue, "kern": kern, "mkern": kern, "text": text, "textrm": text, "textup": text, "textnormal": text,
    "textit": text, "textsl": text, "textbf": text, "texttt": text, "textsf": text, "emph": text, "textsc": text,
    "textmd": text,
    "mbox": box, "hbox": box, "makebox": make_box, "framebox": make_box, "boxed": framed, "fbox": framed,
    "operatorname": operator_name, "operatornamewithlimits": operator_name,
    "dots": dots, "dotso": dots, "dotsc": dots, "dotsb": dots, "dotsm": dots, "dotsi": dots, "cdots": dots,
    "sqrt": root, "root": root_of, "genfrac": genfrac, "cfrac": cfrac, "substack": substack, "overset": over_class,
    "underset": over_class, "overunderset": over_under, "smash": smash, "sideset": sideset, "left": left,
    "right": stray_right,
    "middle": stray_right, "mathchar": numbered, "delimiter": numbered, "fam": numbered, "radical": accent_number,
    "mathaccent": accent_number, "char": char, "symbol": char, "label": drop_argument, "index": drop_argument,
    "nonumber": nothing, "notag": nothing, "protect": nothing, "displaylimits": lambda f,
    t: [("\\displaylimits", t.place)],
    "footnote": drop_warned, "footnotemark": nothing, "cite": drop_warned, "ref": drop_warned, "eqref": drop_warned,
    "marginpar": drop_warned, "color": color, "textcolor": colored, "colorbox": colored, "ensuremath": inner_formula,
    "tag": tag, "eqno": equation_number, "leqno": equation_number, "bgroup": begin_group, "begingroup": begin_group,
    "mathchoice": choice, "mathpalette": palette, "buildrel": buildrel, "begin": begin, "end": stray_end, "\\": new_row,
    "cr": new_row, "newline": new_row, "tabularnewline": new_row, "matrix": plain_table, "pmatrix": plain_table,
    "cases": plain_table, "eqalign": plain_table, "eqalignno": plain_table, "leqalignno": plain_table,
    "displaylines": plain_table, "bordermatrix": plain_table, "bm": bold, "boldsymbol": bold, "pmb": bold,
    "skew": skew, "hfill": nothing, "hfil": nothing, "hss": nothing, "vspace": drop_argument, "smallskip": nothing,
    "medskip": nothing, "bigskip": nothing, "par": nothing, "noindent": nothing, "allowbreak": nothing,
    "nobreak": nothing,
    "small": nothing, "footnotesize": nothing, "scriptsize": nothing, "tiny": nothing, "normalsize": nothing,
    "large": nothing,
    "Large": nothing, "LARGE": nothing, "huge": nothing, "Huge": nothing, "boldmath": nothing, "unboldmath": nothing,
    "normalfont": nothing, "displaybreak": lambda f, t: f.reader.optional() and [] or [], "penalty": lambda f,
    t: number(f, t) and [],
    "limits": lambda f, t: [("\\limits", t.place)], "nolimits": lambda f, t: [("\\nolimits", t.place)],
    "mathllap": lap, "mathrlap": lap, "mathclap": lap, "llap": lap, "rlap": lap, "raise": raise_box, "lower": raise_box,
    "raisebox": raise_box, "rule": rule, "shoveleft": shove, "shoveright": shove, "centering": nothing,
    "strut": lambda f, t: [("\\strut", t.place)],
    "qedhere": nothing, "xspace": nothing, "allowdisplaybreaks": lambda f, t: f.reader.optional() and [] or [],
    "texorpdfstring": first_of_two, "textsuperscript": raised_text, "textsubscript": raised_text, "vcenter": centred,
    "em": lambda f, t: [("\\it", t.place)], "nolinebreak": nothing, "linebreak": nothing, "nopagebreak": nothing,
    "-": nothing, "/": nothing, "lvert": lambda f, t: [("\\lvert", t.place)], "m@th": nothing, "mathsurround": nothing,
    "above": lambda f, t: [("\\above" + dimension(f, t) + " ", t.place)],
    "overwithdelims": lambda f, t: [("\\overwithdelims", t.place), *delimiter_pieces(f, t), *delimiter_pieces(f, t)],
    "atopwithdelims": lambda f, t: [("\\atopwithdelims", t.place), *delimiter_pieces(f, t), *delimiter_pieces(f, t)],
    "abovewithdelims": lambda f, t: [
        ("\\abovewithdelims", t.place), *delimiter_pieces(f, t), *delimiter_pieces(f, t),
        (dimension(f, t) + " ", t.place),
    ],
    "iint": integral, "iiint": integral, "iiiint": integral, "idotsint": integral,
    "thinspace": lambda f, t: [("\\,", t.place)], "negthinspace": lambda f, t: [("\\!", t.place)],
    "medspace": lambda f, t: [("\\>", t.place)], "thickspace": lambda f, t: [("\\;", t.place)],
}  # fmt: skip
COMMANDS.update(dict.fromkeys(ARROWS, extensible))
COMMANDS.update(dict.fromkeys([size + side for size in ("big", "Big", "bigg", "Bigg") for side in ("", "l", "m",
"r")], big))
for _name in ("Hat", "Check", "Tilde", "Acute", "Grave", "Dot", "Ddot", "Breve", "Bar", "Vec"):
    COMMANDS[_name] = to_name("\\" + _name.lower())
for _name in ("mathrm", "mathit", "mathbf", "mathtt", "mathsf", "mathcal", "mathbb", "mathfrak", "mathscr",
    "mathnormal"):
    COMMANDS[_name] = math_font
