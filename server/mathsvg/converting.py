"""A program of its own, which the server starts: it turns formulas in LaTeX into what mathset takes.

It reads requests from standard input, a line of JSON each, and writes a line for the definitions and one for each
formula. It is a process by itself because a few macros can take any time and any memory.

Its words are the folder of the package `latex` and the path of the file of names.
"""

import json
import re
import sys

sys.dont_write_bytecode = True
ENVIRONMENT = re.compile(r"\s*\\begin\s*\{([A-Za-z]+\*?)\}")


class Converter:
    """The package `latex` with a file of names."""

    def __init__(self, folder, names):
        sys.path.insert(0, folder)
        import latex
        from latex import document, environments, places, reader, tokens

        self.latex, self.document, self.environments = latex, document, environments
        self.refused, self.texts, self.tokens, self.reader = places.Refused, places.Texts, tokens, reader
        self.names = latex.names_of(names)

    def new_reader(self, meanings, texts, text):
        """A reader of a text. No file is read, whatever the text asks for."""
        reader = self.latex.new_reader(meanings, texts, self.names)
        reader.input = self.no_input
        reader.open_text(text, "", texts.add(text, ""))
        return reader

    def no_input(self, token, _):
        """What \\input does here."""
        raise self.refused(token.place, "no file can be read here", token.length())

    def definitions(self, text):
        """The meanings of names, and the fault of the definitions, as an offset, a length and a text; or None."""
        meanings = self.reader.Meanings()
        reader = self.new_reader(meanings, self.texts(), text)
        outside = self.document.Document(reader, lambda fault: None)
        try:
            while (token := reader.next_expanded()) is not None:
                outside.at(token)
        except self.refused as refused:
            fault = refused.fault
            return meanings, (min(len(text), fault.place), fault.length, fault.text)
        except RecursionError:
            return meanings, (0, 1, "the definitions are nested too deeply")
        return meanings, None

    def copied(self, meanings):
        """The meanings for one formula, which can define names for itself alone."""
        copy = self.reader.Meanings()
        copy.names.update(meanings.names)
        copy.environments.update(meanings.environments)
        return copy

    def formula(self, source, is_display, meanings):
        """What comes of a formula: its text or its fault; and the places that pieces of the text come from."""
        texts = self.texts()
        reader = self.new_reader(self.copied(meanings), texts, source)
        try:
            found = self.found(reader, source, is_display)
            converted = self.latex.one(found, reader, self.names)
        except self.refused as refused:
            return {"fault": placed(refused.fault, source)}, []
        except RecursionError:
            return {"fault": (0, len(source), "the formula is nested too deeply")}, []
        if converted.source is None:
            fault = next(fault for fault in converted.faults if not fault.is_warning)
            return {"fault": placed(fault, source)}, []
        marks = 2 if found.kind == self.document.DISPLAY else 1
        inner = converted.source[marks:-marks]
        places = [(offset - marks, place) for offset, place in converted.marks if 0 <= offset - marks <= len(inner)]
        return {"text": inner}, places

    def found(self, reader, source, is_display):
        """The formula in a source, which is without marks; or it is an environment that is a display."""
        environment = ENVIRONMENT.match(source)
        if environment and self.environments.is_display(environment[1]):
            if not is_display:
                raise self.refused(0, f"{environment[1]} is a display", environment.end())
            return self.environment(reader)
        return self.between_marks(reader, is_display)

    def environment(self, reader):
        """The formula of an environment, which is all that there is."""
        outside = self.document.Document(reader, lambda fault: None)
        reader.skip_spaces()
        found = outside.at(reader.next_expanded())
        reader.skip_spaces()
        rest = reader.next()
        if rest is not None:
            raise self.refused(rest.place, "nothing can follow the environment", rest.length())
        return found

    def between_marks(self, reader, is_display):
        """All tokens of a reader, as if they were between dollars."""
        kinds, inner, opened = self.tokens, [], []
        while (token := reader.next()) is not None:
            if token.kind == kinds.BEGIN:
                opened.append(token)
            elif token.kind == kinds.END and not opened:
                raise self.refused(token.place, "this } has no matching {")
            elif token.kind == kinds.END:
                opened.pop()
            elif token.kind == kinds.MATH and not opened:
                raise self.refused(token.place, "a formula is given without the $ round it")
            inner.append(token)
        if opened:
            raise self.refused(opened[0].place, "this { has no matching }")
        kind = self.document.DISPLAY if is_display else self.document.INLINE
        end = kinds.Token(kinds.MATH, "$", len(reader.texts.texts[0]))
        return self.document.Found(kind, kinds.Token(kinds.MATH, "$", 0), None, [*inner, end])


def placed(fault, source):
    """A fault as an offset, a length and a text."""
    place = min(len(source), max(0, fault.place))
    is_at_end = place == len(source) and fault.text.startswith("$")
    text = "at the end a \\left or an environment is still open" if is_at_end else fault.text
    return place, min(fault.length, len(source) - place), text


def main():
    """Answers requests."""
    converter = Converter(*sys.argv[1:3])
    write("ready")
    for line in sys.stdin.buffer:
        request = json.loads(line)
        meanings, fault = converter.definitions(request["definitions"])
        write({"fault": fault})
        if fault is None:
            for source, is_display in request["formulas"]:
                write(*converter.formula(source, is_display, meanings))


def write(*values):
    """Writes a line, with tabs between values, so that the reader need not read all of them."""
    sys.stdout.write("\t".join(json.dumps(value, separators=(",", ":")) for value in values) + "\n")
    sys.stdout.flush()


if __name__ == "__main__":
    try:
        main()
    except (KeyboardInterrupt, BrokenPipeError, MemoryError):
        sys.exit(1)
