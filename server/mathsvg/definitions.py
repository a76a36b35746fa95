"""Files of definitions, of which a source has only those that it needs."""

import re

NAME = re.compile(rb"\\(?:[A-Za-z]+|.)", re.DOTALL)
DEFINITION = re.compile(rb"\\def\s*(\\(?:[A-Za-z]+|.))[^{}]*", re.DOTALL)
PIECE = re.compile(rb"\\(?:[A-Za-z]+|.)|%[^\n]*\n?|[{}]", re.DOTALL)


class Definitions:
    """The definitions of a file. Other things in it, which are assignments, are always needed."""

    def __init__(self, text=b""):
        self.texts, self.needs, self.closures = {}, {}, {}
        others, last = [], 0
        for start, end, name in definitions_in(text):
            others.append(text[last:start])
            last = end
            self.texts[name] = text[start:end] + b"\n"
            self.needs[name] = set(NAME.findall(text[start:end])) - {name}
        self.order = {name: number for number, name in enumerate(self.texts)}
        rest = PIECE.sub(without_comment, b"".join([*others, text[last:]])).strip()
        self.always = rest + b"\n" if rest else b""

    def closure(self, name):
        """The defined names that a defined name needs, itself among them."""
        found = self.closures.get(name)
        if found is None:
            found, names = set(), [name]
            while names:
                needed = names.pop()
                if needed in self.texts and needed not in found:
                    found.add(needed)
                    names.extend(self.needs[needed])
            self.closures[name] = found
        return found

    def needed(self, texts):
        """The definitions that texts need, in the order of the file."""
        names = set()
        for text in texts:
            names.update(NAME.findall(text))
        found = set()
        for name in names & self.texts.keys():
            found |= self.closure(name)
        return self.always + b"".join(self.texts[name] for name in sorted(found, key=self.order.get))


def definitions_in(text):
    """Where each definition of a text begins and ends, and its name."""
    at = 0
    while piece := PIECE.search(text, at):
        at = piece.end()
        if piece[0] == b"\\def":
            found = DEFINITION.match(text, piece.start())
            if found:
                at = end_of_group(text, found.end())
                yield piece.start(), at, found[1]


def end_of_group(text, at):
    """The offset behind the group that begins at `at`, or the end of the text."""
    depth = 0
    for piece in PIECE.finditer(text, at):
        depth += {b"{": 1, b"}": -1}.get(piece[0], 0)
        if depth <= 0:
            return piece.end()
    return len(text)


def without_comment(piece):
    """Nothing for a comment, and the piece itself for another one."""
    return b"" if piece[0][:1] == b"%" else piece[0]
