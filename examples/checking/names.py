"""Names that are not known, and what examples/more-names.tex has for them."""
import collections

from checking.advice import NAMES, definitions_of, families_of, listed_families, mending


def counts(check, program):
    """Lines of the names that are not known, most uses first."""
    uses = collections.Counter()
    for unit in check.units:
        if unit.kind in ("formula", "definition"):
            own = (unit.defined_name(), "\\def") if unit.kind == "definition" else ()
            uses.update(text for text, _ in unit.tokens if text[0] == "\\" and text != "\\" and text not in own)
    defined = {unit.defined_name() for unit in check.definitions}
    asked = [name for name in uses if name not in defined]
    answers = program.answers((name, "$%s $\n" % name) for name in asked)
    unknown = sorted((-uses[name], name) for name in asked if answers[name].is_unknown_name())
    known = definitions_of(NAMES)
    width = max([len(name) for _, name in unknown], default=0)
    families = listed_families(program.fonts)
    lines = []
    for count, name in unknown:
        text = " ".join(mending(name, known, defined))
        missing = [number for number in families_of(text) if number not in families]
        note = "  % " + " and ".join("family %d" % number for number in missing) + " of cm-ams.fonts" if missing else ""
        lines.append(("%6d  %-*s  %s" % (-count, width, name, text + note)).rstrip())
    return lines
