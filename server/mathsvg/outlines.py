"""The outlines of a Type 1 font, as the text of SVG paths."""

import threading

import freetype

FLAGS = freetype.FT_LOAD_NO_SCALE | freetype.FT_LOAD_NO_HINTING
UNITS = 1000


class NoOutlines(Exception):
    """A font or a character has no outlines that can be drawn, as a text with what to do."""


class Path:
    """The text of a path with y downward, of which each command is relative. Contours are closed."""

    def __init__(self):
        self.parts = []
        self.at = self.start = (0, 0)
        self.is_open = False

    def to(self, command, *points):
        """Adds a command; its points count from where the path is."""
        x, y = self.at
        numbers = [number for point in points for number in (point.x - x, y - point.y)]
        text = " ".join(map(str, numbers)).replace(" -", "-")
        self.parts.append(command + text)
        self.at = (points[-1].x, points[-1].y)

    def move_to(self, point, _):
        """Begins a contour."""
        self.close()
        self.to("m", point)
        self.is_open = True
        self.start = self.at

    def line_to(self, point, _):
        """Adds a line."""
        x, y = self.at
        if point.y == y:
            self.parts.append(f"h{point.x - x}")
            self.at = (point.x, y)
        elif point.x == x:
            self.parts.append(f"v{y - point.y}")
            self.at = (x, point.y)
        else:
            self.to("l", point)

    def quadratic_to(self, *_):
        """Type 1 fonts have cubic curves alone."""
        raise NoOutlines("an outline with a quadratic curve")

    def cubic_to(self, first, second, point, _):
        """Adds a curve."""
        self.to("c", first, second, point)

    def close(self):
        """Ends a contour. The next one begins where this one began."""
        if self.is_open:
            self.parts.append("z")
            self.at = self.start
        self.is_open = False


class Outlines:
    """The outlines of a .pfb file by the codes of its own encoding, each read when it is first asked for."""

    def __init__(self, path):
        self.path = path
        try:
            self.face = freetype.Face(path)
            self.face.select_charmap(freetype.FT_ENCODING_ADOBE_CUSTOM)
        except freetype.FT_Exception as error:
            raise NoOutlines(f"{path} cannot be read as a Type 1 font with an encoding of its own: {error}") from error
        if self.face.units_per_EM != UNITS:
            raise NoOutlines(f"{path} has {self.face.units_per_EM} units, and not {UNITS}")
        self.found = {}
        # A face has one glyph at a time.
        self.lock = threading.Lock()

    def __getitem__(self, code):
        """The text of the path, to be put after a move to the reference point of the glyph."""
        text = self.found.get(code)
        if text is None:
            with self.lock:
                text = self.found[code] = self.read(code)
        return text

    def read(self, code):
        """The text of the path, from the file."""
        index = self.face.get_char_index(code)
        if not index:
            raise NoOutlines(f"{self.path} has no outline of character {code}")
        self.face.load_glyph(index, FLAGS)
        path = Path()
        self.face.glyph.outline.decompose(
            None, move_to=path.move_to, line_to=path.line_to, conic_to=path.quadratic_to, cubic_to=path.cubic_to
        )
        path.close()
        return "".join(path.parts)
