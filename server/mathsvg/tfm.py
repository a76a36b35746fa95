"""The extents of the characters of a TFM file (tex.web, part 30)."""

import struct


class Metrics:
    """The checksum is not read; sizes are in scaled points, extents in parts of the size."""

    def __init__(self, data):
        words = struct.unpack(">12H", data[:24])
        header, self.first, last, widths, heights, depths = words[1:7]
        self.design_size = struct.unpack(">i", data[28:32])[0] / 16
        at = 24 + 4 * header
        self.characters = data[at : at + 4 * (last - self.first + 1)]
        at += len(self.characters)
        numbers = struct.unpack(f">{widths + heights + depths}i", data[at : at + 4 * (widths + heights + depths)])
        parts = [number / (1 << 20) for number in numbers]
        self.widths, self.heights = parts[:widths], parts[widths : widths + heights]
        self.depths = parts[widths + heights :]

    def has(self, code):
        """Whether the font has a character."""
        at = 4 * (code - self.first)
        return 0 <= at < len(self.characters) and self.characters[at] > 0

    def extents(self, code):
        """The width, the height and the depth of a character of the font."""
        at = 4 * (code - self.first)
        width, both = self.characters[at], self.characters[at + 1]
        return self.widths[width], self.heights[both >> 4], self.depths[both & 15]
