"""The names that mathset takes: those of its tables (docs/FORMATS.md) and those of a file of definitions."""

import functools
import pathlib
import re

EXAMPLES = pathlib.Path(__file__).resolve().parent.parent

OPERATORS = """coprod bigvee bigwedge biguplus bigcap bigcup intop prod sum bigotimes bigoplus bigodot ointop
bigsqcup smallint int oint lim max min sup inf det Pr gcd log lg ln sin arcsin sinh cos arccos cosh
tan arctan tanh cot coth sec csc arg ker dim hom exp deg""".split()
BINARY = """triangleleft triangleright bigtriangleup bigtriangledown wedge land vee lor cap cup ddagger dagger
sqcap sqcup uplus amalg diamond bullet wr div odot oslash otimes ominus oplus mp pm circ bigcirc
setminus cdot ast times star""".split()
RELATIONS = """propto sqsubseteq sqsupseteq parallel mid dashv vdash nearrow searrow nwarrow swarrow Leftrightarrow
Leftarrow Rightarrow leq le geq ge succ prec approx succeq preceq supset subset supseteq subseteq in
ni owns gg ll not leftrightarrow leftarrow gets rightarrow to mapstochar sim simeq perp equiv asymp
smile frown leftharpoonup leftharpoondown rightharpoonup rightharpoondown ne neq mapsto""".split()
ORDINARY = """alpha beta gamma delta epsilon zeta eta theta iota kappa lambda mu nu xi pi rho sigma tau upsilon
phi chi psi omega varepsilon vartheta varpi varrho varsigma varphi aleph imath jmath ell wp Re Im
partial infty prime emptyset nabla top bot triangle forall exists neg lnot flat natural sharp
clubsuit diamondsuit heartsuit spadesuit ldotp cdotp colon Gamma Delta Theta Lambda Xi Pi Sigma
Upsilon Phi Psi Omega""".split()
DELIMITERS = """| Vert vert uparrow downarrow updownarrow Uparrow Downarrow Updownarrow backslash rangle langle
rbrace } lbrace { rceil lceil rfloor lfloor""".split()
ACCENTS = "acute grave ddot tilde bar breve check hat vec dot widetilde widehat".split()
SWITCHES = "rm mit cal it sl bf tt displaystyle textstyle scriptstyle scriptscriptstyle".split()
FIELDS = """mathord mathop mathbin mathrel mathopen mathclose mathpunct mathinner overline underline phantom
hphantom vphantom smash sqrt""".split()
OTHERS = """relax mathstrut ldots cdots choose brack brace quad qquad over atop overwithdelims atopwithdelims
limits nolimits displaylimits nonscript , > ; !""".split()
BIG = [size + side for size in ("big", "Big", "bigg", "Bigg") for side in ("", "l", "m", "r")]
BIN_CHARACTERS = "+-*"
REL_CHARACTERS = "=<>:"

# What begins the body of a name that is a relation.
RELATION_BODIES = tuple("\\mathrel \\not \\lhook \\leftarrow \\Leftarrow \\relbar \\Relbar \\mapstochar".split())

DEFINITION = re.compile(r"\\def\\([A-Za-z]+|.)((?:#\d)*)\{(.*)\}")


class Names:
    """What is known of names: how many arguments each takes, and the class of some."""

    def __init__(self, text):
        self.arguments = dict.fromkeys(OPERATORS + BINARY + RELATIONS + ORDINARY + DELIMITERS + SWITCHES + OTHERS, 0)
        self.arguments.update(dict.fromkeys(ACCENTS + FIELDS, 1))
        self.classes = dict.fromkeys(OPERATORS, "Op")
        self.classes.update(dict.fromkeys(BINARY, "Bin"))
        self.classes.update(dict.fromkeys(RELATIONS, "Rel"))
        for line in text.splitlines():
            self.add(line)

    def add(self, line):
        """Takes the definitions that begin lines."""
        found = DEFINITION.match(line)
        if not found:
            return
        name, parameters, body = found.groups()
        is_accent = body.startswith("\\mathaccent") and body.count(" ") == 1
        self.arguments[name] = max(parameters.count("#"), int(is_accent))
        self.classes.pop(name, None)
        code = re.match(r'\\mathchar"([0-7])[0-9A-F]{3} ?$', body)
        if code:
            self.classes[name] = {"1": "Op", "2": "Bin", "3": "Rel"}.get(code[1], "Ord")
        elif body.startswith(RELATION_BODIES):
            self.classes[name] = "Rel"
        elif body.startswith("\\mathbin"):
            self.classes[name] = "Bin"
        elif body[1:] in self.classes:
            self.classes[name] = self.classes[body[1:]]

    def __contains__(self, name):
        return name in self.arguments


def path_of_names():
    """The file of definitions that converted formulas come after."""
    path = EXAMPLES / "latex-names.tex"
    return path if path.exists() else EXAMPLES / "more-names.tex"


@functools.lru_cache(maxsize=4)
def names_of(path=None):
    """The names of mathset and of a file of definitions, by default latex-names.tex."""
    return Names(pathlib.Path(path or path_of_names()).read_text(encoding="latin-1"))
