"""The picture of a formula, from the places that the program gives."""

from . import svg

# TeX's points and the ex of cmr10 in scaled points.
POINT = 65536 * 72.27 / 72
EX = svg.EX * svg.UNIT
FORMS = {"ex": svg.in_text, "pt": svg.as_file, "html": svg.on_baseline}


class Picture:
    """A formula that is set. Its width, height and depth are those of TeX's box, in scaled points."""

    def __init__(self, formula, fonts, places, origin, box):
        self.formula = formula
        self.width, self.height, self.depth = box
        self.shapes = svg.shapes(fonts, places, origin)

    def svg(self, form="ex"):
        """The picture for a line of text ("ex"), as a file ("pt"), or with a strut round it for HTML ("html")."""
        return FORMS[form]((self.width, self.height, self.depth), self.formula.source, self.shapes)

    def size(self):
        """About how many bytes the picture has."""
        return len(self.shapes) + 2 * len(self.formula.source) + 300

    def measures(self):
        """The width, the height and the depth in points of CSS and in ex."""
        names = ("width", "height", "depth")
        values = (self.width, self.height, self.depth)
        found = {f"{name}_pt": round(value / POINT, 4) for name, value in zip(names, values)}
        found.update((f"{name}_ex", round(value / EX, 4)) for name, value in zip(names, values))
        return found


def pages_of(listing):
    """The places of each page: glyphs as (font, code, h, v), rules as (None, h, v, height, width)."""
    pages, page = [], []
    for line in listing.decode("ascii").split("\n"):
        words = line.split(" ")
        if words[0] == "g":
            page.append((int(words[1]), int(words[2]), int(words[3]), int(words[4])))
        elif words[0] == "r":
            page.append((None, int(words[1]), int(words[2]), int(words[3]), int(words[4])))
        elif words[0] == "page":
            page = []
            pages.append(page)
    return pages


def between_periods(formula, fonts, places):
    """The picture of `\\smash.\\underline{..}\\smash.`; None where the places are not those of such a page."""
    if len(places) < 2 or len(places[0]) != 4 or len(places[-1]) != 4 or places[0][:2] != places[-1][:2]:
        return None
    font, code, before, baseline = places[0]
    left = before + round(fonts[font].extents(code)[0])
    width = places[-1][2] - left
    body = places[1:-1]
    if width <= 0:
        # There is no line above a formula without a width.
        return Picture(formula, fonts, body, (left, baseline), (width, max(0, baseline), 0))
    if not body or len(body[-1]) != 5 or abs(body[-1][4] - width) > 2:
        return None
    _, left, lower, thickness, width = body[-1]
    # The line is three times its thickness below the formula.
    depth = lower - 4 * thickness - baseline
    return Picture(formula, fonts, body[:-1], (left, baseline), (width, baseline, depth))


def by_extents(formula, fonts, places, line):
    """The picture of a page that has no measures: a display is as wide as the line, and centred as \\vcenter does."""
    boxes = [extents(fonts, place) for place in places] or [(0, 0, 0, 0)]
    left, right = min(box[0] for box in boxes), max(box[1] for box in boxes)
    top, bottom = min(box[2] for box in boxes), max(box[3] for box in boxes)
    if formula.display:
        left, right = min(0, left), max(line, right)
        # The axis of cmsy10 is 2.5pt above the baseline.
        baseline = (top + bottom) // 2 + 163840
    else:
        baseline = places[0][3] if places and len(places[0]) == 4 else bottom
    return Picture(formula, fonts, places, (left, baseline), (right - left, baseline - top, bottom - baseline))


def extents(fonts, place):
    """The left, right, upper and lower edge of a place."""
    if len(place) == 4:
        font, code, h, v = place
        width, height, depth = map(round, fonts[font].extents(code))
        return h, h + width, v - height, v + depth
    _, h, v, height, width = place
    return h, h + width, v - height, v
