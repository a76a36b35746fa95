"""A source that is cut into parts, from its beginning on."""

MOST_PARTS = 16
PAGES = 4000
BYTES = 1000000
MOST_BYTES = 56000000
TOO_MANY = "the source takes more than 16 parts"


class Stop(Exception):
    """What ends the script with status 2, as a text."""


class Source:
    """The bytes of a source, which may be a map of its file, and the definitions of the parts that are cut."""

    def __init__(self, text):
        self.text = text
        self.definitions = []  # The first byte of each, and the byte behind it.
        self.counted = 0, 0, 0  # Two bytes, and the lines that end between them.

    def parts(self, jobs):
        """The first byte of each part, and the byte behind it. It is cut when it is asked for."""
        size = len(self.text)
        if size > MOST_BYTES:
            raise Stop(TOO_MANY)
        wanted = min(MOST_PARTS, -(-max(1, -(-size // BYTES)) // jobs) * jobs)
        first, made = 0, 0
        while first is not None:
            share = self.share(first, (size - first) // max(1, wanted - made))
            made += 1
            if made == MOST_PARTS and share < size:
                raise Stop(TOO_MANY)
            last = self.cut(first, share) if share < size else None
            yield first, size if last is None else last
            first = last

    def share(self, first, count):
        """The byte behind the share of a part that begins here: it has so many bytes, or fewer with 4,000 pages."""
        pages = self.text[first : first + count].count(b"\\eject")
        while pages > PAGES:
            count = count * PAGES // pages
            pages = self.text[first : first + count].count(b"\\eject")
        return first + count

    def cut(self, first, share):
        """The end of the part that begins here and has this share at least, or None where the rest is not cut."""
        end = self.end_of_page(share)
        piece = self.text[first:end]
        if any(word in piece for word in (b"\\def", b"code", b"\\bye", b"\\end")):
            # Most sources have definitions in front alone, if any.
            from cutting.definitions import definitions_up_to

            end = definitions_up_to(self, first, end)
        return end

    def end_of_page(self, at):
        """The byte behind the first line from here on that is \eject alone, or None where there is no byte."""
        while True:
            at = self.text.find(b"\\eject", at)
            if at < 0:
                return None
            line, behind = self.text.rfind(b"\n", 0, at) + 1, self.text.find(b"\n", at)
            if behind < 0 or behind + 1 == len(self.text):
                return None
            if self.is_end_of_page(line, at, behind):
                return behind + 1
            at += 1

    def is_end_of_page(self, line, at, behind):
        """This \eject is alone on its line, but for blanks and a comment."""
        rest = self.text[at + len(b"\\eject") : behind].strip(b" \t")
        return self.text[line:at].strip(b" \t") == b"" and (rest in (b"", b"\r") or rest[:1] == b"%")

    def in_front(self, cut):
        """The definitions before a cut, in their lines and columns. An empty line ends them, other lines have a %."""
        pieces, at = [], 0
        for start, end in self.definitions:
            if start >= cut:
                break
            line = max(at, self.text.rfind(b"\n", 0, start) + 1)
            pieces += [self.empty_lines(at, line), b" " * (start - line), self.text[start:end]]
            at = end
        pieces.append(self.empty_lines(at, cut))
        # The last line is that of the \eject.
        return b"".join(pieces)[: -len(b"%\n")] + b"\n" if cut else b""

    def empty_lines(self, at, line):
        """Lines in place of those from here, which may be within a line, up to the beginning of another one."""
        first, last, counted = self.counted
        if at != first or line < last:
            last, counted = at, 0
        count = counted + self.text[last:line].count(b"\n")
        self.counted = at, line, count
        is_within = count > 0 and at > 0 and self.text[at - 1] != 10
        return b"\n" * is_within + b"%\n" * (count - is_within)
