"""Environments with rows and columns, by mathset's \\matrix, \\eqalign, \\displaylines, \\eqalignno and \\vcenter."""

import re
from dataclasses import dataclass, field

from . import tokens
from .places import Refused
from .tokens import Token

ROW_ENDS = ("\\", "cr", "crcr", "tabularnewline", "end")
# The delimiters of matrices, and the space inside of them that takes back that of \matrix.
MATRICES = {
    "matrix": ("", ""), "pmatrix": ("(", ")"), "bmatrix": ("[", "]"), "Bmatrix": ("\\{", "\\}"), "vmatrix": ("|", "|"),
    "Vmatrix": ("\\|", "\\|"), "dmatrix": ("", ""),
}  # fmt: skip
CASES = {"cases": ("\\{", "."), "dcases": ("\\{", "."), "rcases": (".", "\\}"), "drcases": (".", "\\}")}
ALIGNED = ("aligned", "split", "alignedat", "align", "alignat", "flalign", "eqnarray", "xalignat", "xxalignat",
    "IEEEeqnarray")
GATHERED = ("gathered", "gather", "multline", "multlined", "lgathered", "rgathered")
SINGLE = ("equation", "displaymath", "math", "dmath", "subequations", "empheq", "linenomath")
WITH_COUNT = ("alignedat", "alignat", "xalignat", "xxalignat", "IEEEeqnarray")
DISPLAYS = ALIGNED[3:] + ("gather", "multline") + SINGLE
# Plain TeX's \\nulldelimiterspace, 1.2pt in scaled points, which is on both sides of a fraction.
NULL_DELIMITER = 78643
# Plain TeX's \\quad, 1em of cmr10, is 1sp more than twice LaTeX's \\arraycolsep.
TO_LATEX = ("\\kern-1sp ", 0)


@dataclass
class Row:
    """A row: its cells, the space below it in points, and its number."""

    cells: list = field(default_factory=list)
    gap: float = 0
    tag: list = None

    def is_empty(self):
        """Whether nothing is in it."""
        return not any(self.cells) and self.tag is None


def base_name(name):
    """The name of an environment without its star."""
    return name.removesuffix("*")


def is_display(name):
    """Whether an environment is a display by itself."""
    return base_name(name) in DISPLAYS


# Reading


def environment_name(formula, command):
    """The name in braces after \\begin and \\end."""
    return "".join(part.text for part in formula.reader.argument(command)).strip()


def read_rows(formula, opening, name):
    """The rows up to \\end."""
    rows, row, outer = [], Row(), formula.tag
    formula.tag = None
    while True:
        formula.reader.meanings.open()
        row.cells.append(read_cell(formula, row))
        formula.reader.meanings.close()
        token = formula.reader.next_expanded()
        if token is None or token.kind not in (tokens.TAB, tokens.NAME):
            raise Refused(opening.place, f"\\begin{{{name}}} without its \\end", opening.length())
        if token.kind == tokens.TAB:
            continue
        row.tag, formula.tag = formula.tag, None
        rows.append(row)
        if token.text == "end":
            found = environment_name(formula, token)
            if found != name:
                raise Refused(token.place, f"\\end{{{found}}} where \\end{{{name}}} is missing", token.length())
            break
        row.gap = read_gap(formula)
        row = Row()
    formula.tag = outer
    if rows[-1].is_empty():
        rows.pop()
    return rows


def is_cell_end(token):
    """Whether a token ends a cell."""
    return token.kind in (tokens.TAB, tokens.END, "stop", tokens.MATH) or token.is_name(*ROW_ENDS)


def read_cell(formula, row):
    """A cell; lines across the table and texts between its rows are left out."""
    while True:
        token = formula.reader.next_expanded()
        if token is None:
            return []
        if token.kind == tokens.SPACE:
            continue
        if token.is_name("hline", "toprule", "midrule", "bottomrule"):
            formula.warn(token, "a line across the table is left out")
        elif token.is_name("cline", "cmidrule", "noalign", "intertext", "shortintertext", "vspace", "rowcolor"):
            formula.reader.optional()
            formula.reader.argument(token)
            if token.text in ("intertext", "shortintertext"):
                formula.warn(token, "the text between the rows is left out; write two displays with it between them")
        elif token.is_name("multicolumn"):
            return many_columns(formula, token, row)
        elif token.is_name("hdotsfor"):
            return dots_for(formula, token, row)
        else:
            formula.reader.put_back(token)
            return formula.list(is_cell_end)


def many_columns(formula, token, row):
    """\\multicolumn: what is in it, in the first of its columns."""
    count = "".join(part.text for part in formula.reader.argument(token)).strip()
    formula.reader.argument(token)
    inner = formula.in_braces(token)
    rest = formula.list(is_cell_end)
    if count.isdigit() and int(count) > 1:
        formula.warn(token, "what is across columns is put in the first of them")
        row.cells += [inner + rest] + [[] for _ in range(int(count) - 2)]
        return []
    return inner + rest


def dots_for(formula, token, row):
    """\\hdotsfor: dots in each of its columns."""
    formula.reader.optional()
    count = "".join(part.text for part in formula.reader.argument(token)).strip()
    formula.list(is_cell_end)
    row.cells += [[("\\ldots", token.place)] for _ in range(int(count) - 1 if count.isdigit() else 0)]
    return [("\\ldots", token.place)]


def read_gap(formula):
    """The space after a row, in points."""
    formula.reader.star()
    found = formula.reader.optional_at_once()
    text = "".join(token.source() for token in found or ())
    amount = re.match(r"\s*(-?[\d.]+)\s*(pt|ex|em|mm|cm|in|bp|pc)", text)
    units = {"pt": 1, "ex": 4.3, "em": 10, "mm": 2.845, "cm": 28.45, "in": 72.27, "bp": 1.004, "pc": 12}
    if amount and re.fullmatch(r"-?\d*\.?\d+|-?\d+\.", amount[1]):
        return float(amount[1]) * units[amount[2]]
    named = re.search(r"\\(jot|smallskipamount|medskipamount|bigskipamount|baselineskip)", text)
    return {"jot": 3, "smallskipamount": 3, "medskipamount": 6, "bigskipamount": 12}.get(named[1], 12) if named else 0


def split_rows(found):
    """The token lists between \\\\ outside of groups."""
    rows, depth = [[]], 0
    for token in found:
        depth += (token.kind == tokens.BEGIN) - (token.kind == tokens.END)
        if depth == 0 and token.is_name("\\", "cr"):
            rows.append([])
        else:
            rows[-1].append(token)
    return [row for row in rows if any(token.kind != tokens.SPACE for token in row)] or [[]]


# Writing


def strut(row, place):
    """A piece that makes a row deeper by the space below it, in steps of 2pt."""
    steps = round((row.gap + 1.1) / 2) if row.gap >= 1 else 0
    if not steps:
        return []
    return [("\\vphantom{" + "\\underline{" * min(steps, 30) + "\\mathstrut" + "}" * min(steps, 30) + "}", place)]


def with_struts(rows, place):
    """Rows whose first cells have their struts."""
    for row in rows:
        if row.gap >= 1:
            row.cells = row.cells or [[]]
            row.cells[0] = row.cells[0] + strut(row, place)
    return rows


def lines(rows, place):
    """The rows of a table of mathset, with & and \\cr."""
    found = []
    for cells in rows:
        for number, cell in enumerate(cells):
            found += ([("&", place)] if number else []) + (cell or [])
        found.append(("\\cr", place))
    return found


def table(word, rows, place):
    """A table, with no space round it. The columns of \\matrix are 10pt apart as LaTeX's, and its rows have a strut."""
    if word == "matrix":
        rows = [[[("\\mathstrut", place), *cells[0]]] + [[TO_LATEX,
            *cell] for cell in cells[1:]] if cells else [] for cells in rows]
    return [("\\!", place), ("\\" + word, place), ("{", place), *lines(rows, place), ("}", place), ("\\!", place)]


def rectangular(rows):
    """The rows with as many cells each."""
    count = max((len(row.cells) for row in rows), default=0)
    return [row.cells + [[]] * (count - len(row.cells)) for row in rows]


def styled(cells, style, place):
    """A cell in a style."""
    return [(style, place), *cells] if style else cells


def level(cell, others, style, place):
    """A cell that is as high and as deep as the others of its row."""
    phantoms = [piece for other in others if needs_phantom(other) for piece in styled(other, style, place)]
    if not phantoms:
        return styled(cell, style, place)
    return [*styled(cell, style, place), ("\\vphantom", place), ("{", place), *phantoms, ("}", place)]


def needs_phantom(cell):
    """Whether a cell may be higher or deeper than a line."""
    return any(len(text) > 1 and text[0] == "\\" or text in "^_()[]/|" for text, _ in cell)


def split_columns(rows, groups, style, place):
    """Groups of columns as tables side by side: for each group the cells of all rows, levelled."""
    found = []
    for first, count in groups:
        part = []
        for cells in rows:
            own = cells[first : first + count]
            others = cells[:first] + cells[first + count :]
            part.append([level(own[0] if own else [], others, style, place),
            *(styled(cell, style, place) for cell in own[1:])])
        found.append(part)
    return found


def delimited(left, inner, right, place):
    """What is between delimiters, where there are any."""
    if not left:
        return [("{", place), *inner, ("}", place)]
    return [("\\left", place), (left, place), *inner, ("\\right", place), (right, place)]


# Inside of formulas


def inside(formula, token):
    """An environment inside of a formula."""
    name = environment_name(formula, token)
    base = base_name(name)
    if base in MATRICES:
        return matrix(formula, token, name)
    if base == "smallmatrix" or base[1:] == "smallmatrix" or name == "subarray":
        return small(formula, token, name)
    if base in ("array", "tabular"):
        return array(formula, token, name)
    if base in CASES:
        return cases(formula, token, name)
    if base in ALIGNED:
        return aligned(formula, token, name)
    if base in GATHERED:
        return gathered(formula, token, name)
    if base in SINGLE or base in ("center", "small", "minipage", "varwidth"):
        return single(formula, token, name)
    text = f"the environment {name} cannot be had; write array, aligned or a matrix"
    raise Refused(token.place, text, token.length())


def single(formula, token, name):
    """An environment that has no effect on its formula."""
    rows = read_rows(formula, token, name)
    if len(rows) > 1 or rows and len(rows[0].cells) > 1:
        return write_aligned(formula, rows, token.place, "\\hskip10pt\\relax ")
    return rows[0].cells[0] if rows else []


def matrix(formula, token, name):
    """matrix and its kin; a starred one has the place of its columns in brackets."""
    formula.reader.optional()
    place = token.place
    rows = with_struts(read_rows(formula, token, name), place)
    left, right = MATRICES[base_name(name)]
    return delimited(left, table("matrix", rectangular(rows), place), right, place)


def small(formula, token, name):
    """smallmatrix and subarray: columns of lines in script style."""
    place = token.place
    if name == "subarray":
        formula.reader.argument(token)
    else:
        formula.reader.optional()
    rows = rectangular(read_rows(formula, token, name))
    found = []
    for number in range(len(rows[0]) if rows else 0):
        column = [level(cells[number], cells[:number] + cells[number + 1 :], "\\scriptstyle", place) for cells in rows]
        found += ([("\\;", place)] if number else []) + stacked(column, place)
    left, right = MATRICES.get(name[0] + "matrix", ("", ""))
    return delimited(left, [("\\,", place), *found, ("\\,", place)] if name != "subarray" else found, right, place)


def stacked(column, place):
    """Lines one below another, in the middle; what is left and right of a fraction is taken back."""
    found = []
    space = ("\\kern-%dsp " % NULL_DELIMITER, place)
    for line in reversed(column):
        cell = [("{", place), *line, ("}", place)]
        fraction = [("{", place), *cell, ("\\atop", place), *found, ("}", place)]
        found = [("{", place), space, *fraction, space, ("}", place)] if found else cell
    begin, end = ("\\vcenter{\\hbox{$\\scriptstyle", place), ("$}}", place)
    return [("{", place), begin, *found, end, ("}", place)]


def cases(formula, token, name):
    """cases and its like: two columns, both at the left."""
    place = token.place
    rows = read_rows(formula, token, name)
    left, right = CASES[base_name(name)]
    style = "\\displaystyle" if "d" in name[:2] and name[0] == "d" else ""
    return delimited(left, left_columns(rows, style, place, "4.46667pt", "\\quad"), right, place)


def left_columns(rows, style, place, thickness, between):
    """Columns at the left, whose rows are as high and deep as a strut at least."""
    with_struts(rows, place)
    whole = rectangular(rows)
    count = len(whole[0]) if whole else 0
    found = []
    for number, part in enumerate(split_columns(whole, [(at, 1) for at in range(count)], style, place)):
        found += ([(between, place)] if number else []) + [("\\vcenter", place), ("{", place)]
        for row in part:
            height = ("\\vphantom{\\textstyle{\\above%s}}" % thickness, place)
            found += [("\\hbox{$", place), height, *row[0], ("$}", place)]
        found.append(("}", place))
    return found


def array(formula, token, name):
    """array: its columns as the argument says; lines between columns are left out."""
    place = token.place
    if name in ("tabular*",):
        formula.reader.argument(token)
    formula.reader.optional()
    aligns, ends = columns(formula, formula.reader.argument(token), token)
    rows = read_rows(formula, token, name)
    if not rows:
        return [("{", place), ("}", place)]
    whole = rectangular(with_struts(rows, place))
    count = len(whole[0])
    aligns = (aligns + "c" * count)[:count]
    outer = [[("\\hskip5pt\\relax ", place)] if end else [] for end in ends]
    if set(aligns) <= {"c"}:
        inner = table("matrix", whole, place)
    elif set(aligns) <= {"l"}:
        inner = left_columns([Row(cells) for cells in whole], "", place, "4pt", "\\hskip10pt\\relax ")
    elif "c" not in aligns:
        inner = eqalign_columns(whole, aligns, place)
    else:
        inner = table("matrix", [[pad(cell, whole, at, aligns, place) for at,
            cell in enumerate(row)] for row in whole], place)
    return [("{", place), *outer[0], *inner, *outer[1], ("}", place)]


def columns(formula, found, token):
    """The letters of the columns, and whether there is space at both ends."""
    text = "".join(part.source() for part in found)
    text = re.sub(r"\*\{?(\d+)\}?\{([^{}]*)\}", lambda many: many[2] * min(99, int(many[1])), text)
    if "|" in text:
        formula.warn(token, "lines between the columns are left out")
    ends = (not text.lstrip().startswith("@"), not re.search(r"@\{[^{}]*\}\s*$", text))
    text = re.sub(r"[@!<>]\{(?:[^{}]|\{[^{}]*\})*\}", "", text)
    text = re.sub(r"[pmb]\{[^{}]*\}", "l", text)
    return "".join(letter for letter in text if letter in "lcr"), ends


def pad(cell, whole, at, aligns, place):
    """A cell of a column at a side, made as wide as the others where all are numbers."""
    if aligns[at] == "c":
        return cell
    texts = ["".join(text for text, _ in row[at]) for row in whole]
    if not all(re.fullmatch(r"-?[\d.]*", text) for text in texts):
        return cell
    digits = max(len(text.lstrip("-")) for text in texts)
    has_sign = any(text.startswith("-") for text in texts)
    text = "".join(part for part, _ in cell)
    missing = "0" * (digits - len(text.lstrip("-")))
    sign = "{-}" if has_sign and not text.startswith("-") else ""
    phantom = [("\\hphantom{" + sign + missing + "}", place)] if sign or missing else []
    return phantom + cell if aligns[at] == "r" else cell + phantom


def eqalign_columns(whole, aligns, place):
    """Columns at the right and at the left, each by \\eqalign."""
    found = []
    for at, part in enumerate(split_columns(whole, [(at, 1) for at in range(len(aligns))], "\\textstyle", place)):
        rows = part if aligns[at] == "r" else [[[], cell[0]] for cell in part]
        found += ([("\\hskip10pt\\relax ", place)] if at else []) + table("eqalign", rows, place)
    return found


def aligned(formula, token, name):
    """aligned, split and their like."""
    formula.reader.optional()
    if base_name(name) in WITH_COUNT:
        formula.reader.argument(token)
    rows = read_rows(formula, token, name)
    between = "" if base_name(name) == "alignedat" else "\\hskip10pt\\relax "
    found = write_aligned(formula, relations(rows, name, token.place), token.place, between)
    return [("{", token.place), ("\\,", token.place), *found, ("}", token.place)]


def relations(rows, name, place):
    """The rows of eqnarray with two columns for its three."""
    if base_name(name) not in ("eqnarray", "IEEEeqnarray"):
        return rows
    for row in rows:
        if len(row.cells) > 2:
            middle = [("\\;", place), ("{", place), *row.cells[1], ("}", place), ("\\;", place)]
            row.cells = [row.cells[0], middle + row.cells[2], *row.cells[3:]]
    return rows


def write_aligned(formula, rows, place, between):
    """Pairs of columns, each pair by \\eqalign."""
    whole = rectangular(with_struts(rows, place))
    count = len(whole[0]) if whole else 0
    if count <= 2:
        return table("eqalign", whole, place)
    found = []
    for number, part in enumerate(split_columns(whole, [(at, 2) for at in range(0, count, 2)], "", place)):
        found += ([(between, place)] if number and between else []) + table("eqalign", part, place)
    return found


def gathered(formula, token, name):
    """gathered and its like: lines in the middle, in display style."""
    formula.reader.optional()
    place = token.place
    rows = with_struts(read_rows(formula, token, name), place)
    # A strut that puts baselines 15pt apart.
    height = ("\\vphantom{\\textstyle{\\above4.66667pt}}", place)
    cells = [[[("\\displaystyle", place), height, *sum(row.cells, [])]] for row in rows]
    return [("{", place), *table("matrix", cells, place), ("}", place)]


# Displays


def display(formula, opening, name):
    """A display that is an environment."""
    base, place = base_name(name), opening.place
    formula.reader.optional_at_once()
    if base in WITH_COUNT:
        formula.reader.argument(opening)
    rows = read_rows(formula, opening, name)
    if base in SINGLE and (len(rows) < 2 and (not rows or len(rows[0].cells) < 2)):
        formula.tag = rows[0].tag if rows else None
        return rows[0].cells[0] if rows else []
    with_struts(rows, place)
    if base in ("gather", "multline"):
        return display_lines(formula, rows, place)
    return display_aligned(formula, relations(rows, name, place), place)


def number_cell(tag):
    """The number of a row, without its \\eqno."""
    return tag[1:] if tag else []


def display_lines(formula, rows, place):
    """Lines, each in the middle."""
    cells = [sum(row.cells, []) for row in rows]
    if len(rows) == 1:
        formula.tag = rows[0].tag
        return cells[0]
    if any(row.tag for row in rows):
        whole = [[[], cell, number_cell(row.tag)] for cell, row in zip(cells, rows)]
        return [("\\eqalignno", place), ("{", place), *lines(whole, place), ("}", place)]
    return [("\\displaylines", place), ("{", place), *lines([[cell] for cell in cells], place), ("}", place)]


def display_aligned(formula, rows, place):
    """Aligned rows as a display."""
    whole = rectangular(rows)
    count = len(whole[0]) if whole else 0
    tags = [row.tag for row in rows]
    if not any(tags):
        found = write_aligned(formula, [Row(cells) for cells in whole], place, "\\qquad")
        return [("\\,", place), *found]
    if count <= 2:
        numbered = [(cells + [[], []])[:2] + [number_cell(tag)] for cells, tag in zip(whole, tags)]
        return [("\\eqalignno", place), ("{", place), *lines(numbered, place), ("}", place)]
    width = count + count % 2
    numbered = [cells + [[]] * (width - count) + [[], number_cell(tag)] for cells, tag in zip(whole, tags)]
    return write_aligned(formula, [Row(cells) for cells in numbered], place, "\\qquad")


# Plain TeX's


def plain_table(formula, token):
    """\\matrix{..}, \\cases{..} and their like of plain TeX."""
    opening = formula.reader.peek_past_spaces()
    if opening is None or opening.kind != tokens.BEGIN:
        raise Refused(token.place, f"a group is missing after {token.source()}", token.length())
    formula.reader.next()
    inner = formula.reader.group(opening)
    place = token.place
    closing = [Token(tokens.NAME, "end", place), Token(tokens.BEGIN, "{", place), Token(tokens.OTHER, "*", place)]
    formula.reader.put_back_all([*inner, *closing, Token(tokens.END, "}", place)])
    rows = with_struts(read_rows(formula, token, "*"), place)
    if token.text == "cases":
        return delimited("\\{", [("\\,", place), *left_columns(rows, "", place, "4.46667pt", "\\quad")], ".", place)
    word = "pmatrix" if token.text == "bordermatrix" else token.text
    if word in ("eqalignno", "leqalignno", "displaylines") and not formula.is_display:
        word = "eqalign"
    return [("\\" + word, place), ("{", place), *lines([row.cells for row in rows], place), ("}", place)]
