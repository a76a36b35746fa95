"""Bold symbols, as LaTeX's bold math version has them: by the families of latex.fonts for bold letters and symbols."""

from .text import FONTS

# The math codes of plain TeX's names (The TeXbook, Appendix B): class, family and character.
CODES = """
alpha 010B beta 010C gamma 010D delta 010E epsilon 010F zeta 0110 eta 0111 theta 0112 iota 0113 kappa 0114 lambda 0115
mu 0116 nu 0117 xi 0118 pi 0119 rho 011A sigma 011B tau 011C upsilon 011D phi 011E chi 011F psi 0120 omega 0121
varepsilon 0122 vartheta 0123 varpi 0124 varrho 0125 varsigma 0126 varphi 0127 Gamma 7000 Delta 7001 Theta 7002 Lambda
7003 Xi 7004 Pi 7005 Sigma 7006 Upsilon 7007 Phi 7008 Psi 7009 Omega 700A aleph 0240 imath 017B jmath 017C ell 0160 wp
017D Re 023C Im 023D partial 0140 infty 0231 prime 0230 emptyset 023B nabla 0272 top 023E bot 023F triangle 0234
forall 0238 exists 0239 neg 023A lnot 023A flat 015B natural 015C sharp 015D clubsuit 027C diamondsuit 027D heartsuit
027E spadesuit 027F coprod 1360 bigvee 1357 bigwedge 1356 biguplus 1355 bigcap 1354 bigcup 1353 intop 1352 prod 1351
sum 1350 bigotimes 134E bigoplus 134C bigodot 134A ointop 1348 bigsqcup 1346 smallint 1273 triangleleft 212F
triangleright 212E bigtriangleup 2234 bigtriangledown 2235 wedge 225E land 225E vee 225F lor 225F cap 225C cup 225B
ddagger 227A dagger 2279 sqcap 2275 sqcup 2274 uplus 225D amalg 2271 diamond 2205 bullet 220F wr 226F div 2204 odot
220C oslash 220B otimes 220A ominus 2209 oplus 2208 mp 2207 pm 2206 circ 220E bigcirc 220D setminus 226E cdot 2201 ast
2203 times 2202 star 213F propto 322F sqsubseteq 3276 sqsupseteq 3277 parallel 326B mid 326A dashv 3261 vdash 3260
nearrow 3225 searrow 3226 nwarrow 322D swarrow 322E Leftrightarrow 322C Leftarrow 3228 Rightarrow 3229 leq 3214 le
3214 geq 3215 ge 3215 succ 321F prec 321E approx 3219 succeq 3217 preceq 3216 supset 321B subset 321A supseteq 3213
subseteq 3212 in 3232 ni 3233 owns 3233 gg 321D ll 321C not 3236 leftrightarrow 3224 leftarrow 3220 gets 3220
rightarrow 3221 to 3221 mapstochar 3237 sim 3218 simeq 3227 perp 323F equiv 3211 asymp 3210 smile 315E frown 315F
leftharpoonup 3128 leftharpoondown 3129 rightharpoonup 312A rightharpoondown 312B ldotp 613A cdotp 6201 colon 603A
""".split()
CODES = {name: int(code, 16) for name, code in zip(CODES[::2], CODES[1::2])}
CHARACTERS = {
    "!": 0x5021, "(": 0x4028, ")": 0x5029, "*": 0x2203, "+": 0x202B, ",": 0x613B, "-": 0x2200, ".": 0x013A, "/": 0x013D,
    ":": 0x303A, ";": 0x603B, "<": 0x313C, "=": 0x303D, ">": 0x313E, "?": 0x503F, "[": 0x405B, "]": 0x505D, "|": 0x026A,
}  # fmt: skip
ACCENTS = {
    "acute": 0x13, "grave": 0x12, "ddot": 0x7F, "tilde": 0x7E, "bar": 0x16, "breve": 0x15, "check": 0x14, "hat": 0x5E,
    "dot": 0x5F, "mathring": 0x17,
}  # fmt: skip
# The bold family for each that has one: roman, letters and symbols.
BOLD = {0: 6, 1: 13, 2: 14}
BEFORE_DELIMITERS = ("\\left", "\\right", "\\middle", "\\big", "\\Big", "\\bigg", "\\Bigg")
SWITCHES = {command.strip() for command, _, _ in FONTS.values()} | {"\\textstyle", "\\fam16"}


def code_of(text):
    """The math code of a piece, or None where it has none."""
    if len(text) == 1 and text.isalpha():
        return 0x0100 + ord(text)
    if len(text) == 1 and text.isdigit():
        return ord(text)
    if text[:1] == "\\":
        return CODES.get(text[1:])
    return CHARACTERS.get(text)


def bold_piece(text):
    """A piece in bold; one that has no bold form stays."""
    code = code_of(text)
    if code is None:
        accent = ACCENTS.get(text[1:]) if text[:1] == "\\" else None
        return text if accent is None else '\\mathaccent"06%02X ' % accent
    kind, family, character = code >> 12, code >> 8 & 15, code & 255
    if family not in BOLD:
        return text
    return '\\mathchar"%X%X%02X ' % (0 if kind == 7 else kind, BOLD[family], character)


def bold(found):
    """Pieces in bold. Texts and delimiters that grow stay as they are."""
    result, skipped = [], 0
    for at, (text, place) in enumerate(found):
        before = found[at - 1][0] if at else ""
        if skipped:
            skipped += (text == "{") - (text == "}")
        elif text == "{" and at + 1 < len(found) and found[at + 1][0].strip() in SWITCHES:
            skipped = 1
        elif not before.startswith(BEFORE_DELIMITERS):
            text = bold_piece(text)
        result.append((text, place))
    return result
