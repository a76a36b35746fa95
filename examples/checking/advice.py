"""What mends faults: the definitions of more-names.tex and the families of cm-ams.fonts, beside the scripts.

python3 -m checking.advice LIST    prints it for what mathset said of a source, which is standard input
"""
import pathlib
import re
import sys

from checking.source import Cutter

HERE = pathlib.Path(__file__).resolve().parent.parent
NAMES = HERE / "more-names.tex"
FONTS = HERE / "cm-ams.fonts"


def definitions_of(path):
    """The definition of each name of a file."""
    units = Cutter(path.read_bytes().decode("latin-1")).units_of_source() if path.is_file() else []
    return {unit.defined_name(): unit for unit in units if unit.kind == "definition"}


def mending(name, known, defined):
    """The definitions that a name needs, those first that it uses itself."""
    if name not in known or name in defined:
        return []
    defined = defined | {name}
    found = []
    for other in sorted(known[name].names() - {name, "\\def"}):
        found += [text for text in mending(other, known, defined) if text not in found]
    return found + [known[name].text]


def families_of(text):
    """The families above 7 that a definition names."""
    found = {int(number) for number in re.findall(r"\\fam(\d+)", text)}
    found |= {int(digit, 16) for digit in re.findall(r'\\mathchar"[0-7]([89A-F])', text)}
    found |= {int(digit, 16) for digit in re.findall(r'\\delimiter"[0-7]([89A-F])', text)}
    return sorted(number for number in found if number > 7)


def listed_families(path):
    with open(path, "rb") as file:
        return {int(number) for number in re.findall(rb"^family (\d+) ", file.read(), re.M)}


def advice(texts, fonts, option=""):
    """What mends several of these texts of faults at once, for a list of fonts. OPTION stands before another list."""
    text = "\n".join(texts)
    known = definitions_of(NAMES)
    named = sorted(set(re.findall(r"(\\\S+) is (?:not defined|a name of plain TeX)", text)) & set(known))
    if named:
        yield "-p %s defines %s" % (NAMES, named[0] if len(named) == 1 else "%d of these names" % len(named))
    wanted = {int(number) for number in re.findall(r"has no font at this size: family (\d+) ", text)}
    for name in named:
        wanted.update(families_of(" ".join(mending(name, known, set()))))
    found = sorted(wanted & listed_families(FONTS) - listed_families(fonts)) if FONTS.is_file() else []
    if found:
        yield "%s%s has %s" % (option, FONTS, " and ".join("family %d" % number for number in found))


def main():
    # The lines of the source that are shown below a fault have no fault's text.
    said = [line for line in sys.stdin.buffer.read().decode("latin-1").split("\n") if not re.match(r" *\d* \| ", line)]
    for text in advice(said, sys.argv[1], "-l "):
        print(text)


if __name__ == "__main__":
    main()
