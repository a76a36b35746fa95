"""SVG pictures of places: glyphs as paths, rules as rectangles, without ids, which pictures in one page would share."""

# A unit of a picture is a thousandth of 10pt, so that the outlines of a font at 10pt need no scale.
UNIT = 655.36
# TeX's point in points of CSS and SVG; the x-height of cmr10 in units.
POINT = 72 / 72.27
EX = 430.555
# Ink can go beyond the box of a formula. Pictures in a text show it by overflow, files have 1pt more on each side.
MARGIN = 100
# The height in ex of a picture that is on the baseline as a whole. Chromium does not paint one of 0.01 at some sizes.
FLAT = 1.0

ESCAPES = {ord("&"): "&amp;", ord("<"): "&lt;", ord(">"): "&gt;", ord('"'): "&quot;", ord("'"): "&#39;"}
# What XML 1.0 does not allow, not even as a reference.
ESCAPES.update({code: "\ufffd" for code in [*range(9), 11, 12, *range(14, 32), 0xFFFE, 0xFFFF, *range(0xD800, 0xE000)]})


def escaped(text):
    """A text as it is written in elements and attributes."""
    return text.translate(ESCAPES)


def shapes(fonts, places, origin):
    """The elements of places: rectangles, and a path for each size of the fonts. `origin` is (0, 0) of the picture."""
    left, baseline = origin
    paths, rectangles = {}, []
    for place in places:
        if len(place) == 4:
            number, code, h, v = place
            font = fonts[number]
            unit = font.size / 1000
            part = f"M{(h - left) / unit:.1f} {(v - baseline) / unit:.1f}{font.outline(code)}"
            paths.setdefault(font.size, []).append(part)
        else:
            rectangles.append(rectangle(place, left, baseline))
    return "".join(map(path, paths, paths.values())) + "".join(rectangles)


def path(size, parts):
    """The path of the glyphs of one size."""
    scale = size / 655360
    turned = "" if scale == 1 else f' transform="scale({scale:.6g})"'
    return f'<path{turned} d="{"".join(parts)}"/>'


def rectangle(place, left, baseline):
    """The rectangle of a rule, which has its lower left corner, its height and its width."""
    _, h, v, height, width = place
    x, y = (h - left) / UNIT, (v - height - baseline) / UNIT
    return f'<rect x="{x:.2f}" y="{y:.2f}" width="{width / UNIT:.2f}" height="{height / UNIT:.2f}"/>'


def element(attributes, title, inside):
    """The element svg, with the source of the formula for those who do not see it."""
    safe = escaped(title)
    return (
        f'<svg xmlns="http://www.w3.org/2000/svg" {attributes} role="img" aria-label="{safe}" fill="currentColor">'
        f"<title>{safe}</title>{inside}</svg>"
    )


def units(box):
    """The width, height and depth of a box as a picture has them."""
    return (max(0, part) / UNIT for part in box)


def view(left, top, width, height):
    """The part of the picture that is shown, which has to have a size."""
    return f'viewBox="{left:.2f} {top + 0.0:.2f} {max(1, width):.2f} {max(1, height):.2f}"'


def in_text(box, title, inside):
    """A picture for a line of text: its unit is the ex of the font there."""
    width, height, depth = units(box)
    tall = height + depth
    return element(
        f'width="{width / EX:.4f}ex" height="{tall / EX:.4f}ex" {view(0, -height, width, tall)} overflow="visible" '
        f'style="vertical-align:{0 - depth / EX:.4f}ex"',
        title,
        inside,
    )


def on_baseline(box, title, inside):
    """HTML for a line of text: a strut, and a picture which is on the baseline as a whole.

    Browsers put a picture on a whole pixel. All these have one height, so they are moved by the same part of a pixel.
    """
    width, height, depth = units(box)
    flat = FLAT * EX
    strut = (
        f'<span style="display:inline-block;width:0;height:{(height + depth) / EX:.4f}ex;'
        f'vertical-align:{0 - depth / EX:.4f}ex"></span>'
    )
    # The scale is that of the width.
    picture = element(
        f'width="{width / EX:.4f}ex" height="{FLAT:g}ex" {view(0, -flat, width, flat)} '
        'preserveAspectRatio="xMinYMax slice" overflow="visible" style="vertical-align:baseline"',
        title,
        inside,
    )
    return f'<span style="white-space:nowrap">{strut}{picture}</span>'


def as_file(box, title, inside):
    """A picture as a file: its unit is the point, and it has a margin."""
    width, height, depth = units(box)
    across, down = width + 2 * MARGIN, height + depth + 2 * MARGIN
    return element(
        f'width="{across / 100 * POINT:.4f}pt" height="{down / 100 * POINT:.4f}pt" '
        f"{view(-MARGIN, -height - MARGIN, across, down)}",
        title,
        inside,
    )
