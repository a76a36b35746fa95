"""Characters of Unicode that LaTeX's unicode-math names, as names and characters of TeX's."""

import unicodedata

# A character and the name that it is written by.
NAMED = """
§ S ¬ neg ± pm ¶ P · cdot × times ÷ div ı imath ȷ jmath ‖ Vert † dagger ‡ ddagger • bullet … dots ′ prime ‵ backprime
ℏ hbar ℑ Im ℓ ell ℘ wp ℜ Re ℧ mho Ⅎ Finv ℵ aleph ℶ beth ℷ gimel ℸ daleth ⅁ Game ← leftarrow ↑ uparrow → rightarrow ↓
downarrow ↔ leftrightarrow ↕ updownarrow ↖ nwarrow ↗ nearrow ↘ searrow ↙ swarrow ↚ nleftarrow ↛ nrightarrow ↞
twoheadleftarrow ↠ twoheadrightarrow ↢ leftarrowtail ↣ rightarrowtail ↦ mapsto ↩ hookleftarrow ↪ hookrightarrow ↫
looparrowleft ↬ looparrowright ↭ leftrightsquigarrow ↮ nleftrightarrow ↰ Lsh ↱ Rsh ↶ curvearrowleft ↷ curvearrowright
↺ circlearrowleft ↻ circlearrowright ↼ leftharpoonup ↽ leftharpoondown ↾ upharpoonright ↿ upharpoonleft ⇀
rightharpoonup ⇁ rightharpoondown ⇂ downharpoonright ⇃ downharpoonleft ⇄ rightleftarrows ⇆ leftrightarrows ⇇
leftleftarrows ⇈ upuparrows ⇉ rightrightarrows ⇊ downdownarrows ⇋ leftrightharpoons ⇌ rightleftharpoons ⇍ nLeftarrow ⇎
nLeftrightarrow ⇏ nRightarrow ⇐ Leftarrow ⇑ Uparrow ⇒ Rightarrow ⇓ Downarrow ⇔ Leftrightarrow ⇕ Updownarrow ⇚
Lleftarrow ⇛ Rrightarrow ⇝ rightsquigarrow ∀ forall ∁ complement ∂ partial ∃ exists ∄ nexists ∅ emptyset ∆ Delta ∇
nabla ∈ in ∉ notin ∋ ni ∏ prod ∐ coprod ∑ sum ∓ mp ∔ dotplus ∖ setminus ∗ ast ∘ circ ∙ bullet √ sqrt ∝ propto ∞ infty
∠ angle ∡ measuredangle ∢ sphericalangle ∣ mid ∤ nmid ∥ parallel ∦ nparallel ∧ wedge ∨ vee ∩ cap ∪ cup ∫ int ∬ iint ∭
iiint ∮ oint ∴ therefore ∵ because ∼ sim ∽ backsim ≀ wr ≁ nsim ≂ eqsim ≃ simeq ≅ cong ≇ ncong ≈ approx ≊ approxeq ≍
asymp ≎ Bumpeq ≏ bumpeq ≐ doteq ≑ Doteq ≒ fallingdotseq ≓ risingdotseq ≖ eqcirc ≗ circeq ≜ triangleq ≠ ne ≡ equiv ≤
leq ≥ geq ≦ leqq ≧ geqq ≨ lneqq ≩ gneqq ≪ ll ≫ gg ≬ between ≮ nless ≯ ngtr ≰ nleq ≱ ngeq ≲ lesssim ≳ gtrsim ≶ lessgtr
≷ gtrless ≺ prec ≻ succ ≼ preccurlyeq ≽ succcurlyeq ≾ precsim ≿ succsim ⊀ nprec ⊁ nsucc ⊂ subset ⊃ supset ⊆ subseteq ⊇
supseteq ⊈ nsubseteq ⊉ nsupseteq ⊊ subsetneq ⊋ supsetneq ⊎ uplus ⊏ sqsubset ⊐ sqsupset ⊑ sqsubseteq ⊒ sqsupseteq ⊓
sqcap ⊔ sqcup ⊕ oplus ⊖ ominus ⊗ otimes ⊘ oslash ⊙ odot ⊚ circledcirc ⊛ circledast ⊝ circleddash ⊞ boxplus ⊟ boxminus
⊠ boxtimes ⊡ boxdot ⊢ vdash ⊣ dashv ⊤ top ⊥ perp ⊧ models ⊨ vDash ⊩ Vdash ⊪ Vvdash ⊬ nvdash ⊭ nvDash ⊮ nVdash ⊯ nVDash
⊲ vartriangleleft ⊳ vartriangleright ⊴ trianglelefteq ⊵ trianglerighteq ⊸ multimap ⊺ intercal ⊻ veebar ⊼ barwedge ⋀
bigwedge ⋁ bigvee ⋂ bigcap ⋃ bigcup ⋄ diamond ⋅ cdot ⋆ star ⋇ divideontimes ⋈ bowtie ⋉ ltimes ⋊ rtimes ⋋
leftthreetimes ⋌ rightthreetimes ⋍ backsimeq ⋎ curlyvee ⋏ curlywedge ⋐ Subset ⋑ Supset ⋒ Cap ⋓ Cup ⋔ pitchfork ⋖
lessdot ⋗ gtrdot ⋘ lll ⋙ ggg ⋚ lesseqgtr ⋛ gtreqless ⋞ curlyeqprec ⋟ curlyeqsucc ⋦ lnsim ⋧ gnsim ⋨ precnsim ⋩ succnsim
⋬ ntrianglelefteq ⋭ ntrianglerighteq ⋮ vdots ⋯ cdots ⋱ ddots ⌈ lceil ⌉ rceil ⌊ lfloor ⌋ rfloor ⌜ ulcorner ⌝ urcorner ⌞
llcorner ⌟ lrcorner ⌢ frown ⌣ smile ⎰ lmoustache ⎱ rmoustache ■ blacksquare □ square ▲ blacktriangle △ bigtriangleup ▴
blacktriangle ▵ vartriangle ▶ blacktriangleright ▷ triangleright ▼ blacktriangledown ▽ bigtriangledown ▾
blacktriangledown ▿ triangledown ◀ blacktriangleleft ◁ triangleleft ◊ lozenge ○ bigcirc ◦ circ ◯ bigcirc ★ bigstar ☆
star ♠ spadesuit ♡ heartsuit ♢ diamondsuit ♣ clubsuit ♭ flat ♮ natural ♯ sharp ✓ checkmark ✠ maltese ⟂ perp ⟨ langle ⟩
rangle ⟮ lgroup ⟯ rgroup ⟵ longleftarrow ⟶ longrightarrow ⟷ longleftrightarrow ⟸ Longleftarrow ⟹ Longrightarrow ⟺
Longleftrightarrow ⟼ longmapsto ⧵ setminus ⨀ bigodot ⨁ bigoplus ⨂ bigotimes ⨄ biguplus ⨆ bigsqcup ⨌ iiiint ⨝ Join ⨿
amalg ⩞ doublebarwedge ⩽ leqslant ⩾ geqslant ⪅ lessapprox ⪆ gtrapprox ⪇ lneq ⪈ gneq ⪉ lnapprox ⪊ gnapprox ⪋ lesseqqgtr
⪌ gtreqqless ⪕ eqslantless ⪖ eqslantgtr ⪯ preceq ⪰ succeq ⪵ precneqq ⪶ succneqq ⪷ precapprox ⪸ succapprox ⪹
precnapprox ⪺ succnapprox ⫅ subseteqq ⫆ supseteqq ⫋ subsetneqq ⫌ supsetneqq 𝕜 Bbbk 𝚤 imath 𝚥 jmath
"""
NAMES = dict(zip(*[iter(NAMED.split())] * 2))

# Characters that are written by several tokens, or by one of ASCII.
WRITTEN = {
    "\u2212": "-", "\u2010": "-", "\u2011": "-", "\u2215": "/", "\u2044": "/", "\u2236": ":", "\u2223": "\\mid ",
    "\u2254": "\\mathrel{:=}", "\u2255": "\\mathrel{=:}", "\u2262": "\\not\\equiv ", "\u2284": "\\not\\subset ",
    "\u2285": "\\not\\supset ", "\u220c": "\\not\\ni ", "\u2249": "\\not\\approx ", "\u2244": "\\not\\simeq ",
    "\u2032": "'", "\u2033": "''", "\u2034": "\'\'\'", "\u2057": "\'\'\'\'", "\u2225": "\\parallel ", "\u00a0": "~",
    "\u2009": "\\,", "\u2003": "\\quad ", "\u2002": "\\enskip ", "\u2005": "\\:", "\u2004": "\\;", "\u221b": "\\sqrt[3]",
    "\u221c": "\\sqrt[4]", "\u210e": "h", "\u212b": "\\mathring{A}", "\u2026": "\\dots ", "\u200b": "", "\u2061": "",
    "\u2062": "", "\u2063": "", "\u00a3": "\\mathsterling ", "\u2237": "\\mathrel{::}", "\u2250": "\\doteq ",
    "\u00b0": "^{\\circ}", "\u00bd": "\\frac{1}{2}", "\u00bc": "\\frac{1}{4}", "\u00be": "\\frac{3}{4}", "\u2153": "\\frac{1}{3}",
}  # fmt: skip

GREEK = dict(zip(
    "αβγδεζηθικλμνξοπρςστυφχψωϵϑϰϕϱϖΓΔΘΛΞΠΣΥΦΨΩΑΒΕΖΗΙΚΜΝΟΡΤΧ",
    """alpha beta gamma delta varepsilon zeta eta theta iota kappa lambda mu nu xi o pi rho varsigma sigma tau upsilon
    varphi chi psi omega epsilon vartheta varkappa phi varrho varpi Gamma Delta Theta Lambda Xi Pi Sigma Upsilon Phi Psi
    Omega A B E Z H I K M N O P T X""".split(),
))  # fmt: skip
ALPHABETS = {
    "BOLD ITALIC": "boldsymbol", "BOLD SCRIPT": "mathscr", "BOLD FRAKTUR": "mathfrak", "BOLD": "mathbf", "ITALIC": "",
    "SCRIPT": "mathscr", "FRAKTUR": "mathfrak", "BLACK-LETTER": "mathfrak", "DOUBLE-STRUCK": "mathbb",
    "SANS-SERIF": "mathsf", "MONOSPACE": "mathtt",
}  # fmt: skip
ACCENTS = {
    "\u0300": "grave", "\u0301": "acute", "\u0302": "hat", "\u0303": "tilde", "\u0304": "bar", "\u0306": "breve",
    "\u0307": "dot", "\u0308": "ddot", "\u030a": "mathring", "\u030c": "check", "\u20d7": "vec", "\u0305": "overline",
}  # fmt: skip


def written(character):
    """How a character of a formula is written in LaTeX, or None where there is no way."""
    if character in WRITTEN:
        return WRITTEN[character]
    if character in NAMES:
        return "\\" + NAMES[character] + " "
    if character in GREEK:
        name = GREEK[character]
        return name if len(name) == 1 and name.isascii() and name in "oABEZHIKMNOPTX" else "\\" + name + " "
    return alphanumeric(character) or script(character) or accented(character)


def alphanumeric(character):
    """A letter or digit of a mathematical alphabet."""
    plain = unicodedata.normalize("NFKC", character)
    name = unicodedata.name(character, "")
    if len(plain) != 1 or plain == character:
        return None
    for words, command in ALPHABETS.items():
        if name.startswith(("MATHEMATICAL " + words, words)):
            inner = plain if plain.isascii() else "\\" + GREEK.get(plain, "") + " "
            if inner == "\\ ":
                return None
            return "\\%s{%s}" % (command, inner) if command else inner
    return None


def script(character):
    """A superscript or a subscript."""
    kind, _, codes = unicodedata.decomposition(character).partition(" ")
    if kind not in ("<super>", "<sub>") or " " in codes:
        return None
    inner = chr(int(codes, 16))
    inner = inner if inner.isascii() else written(inner)
    return None if inner is None else ("^{%s}" if kind == "<super>" else "_{%s}") % inner


def accented(character):
    """A letter with an accent."""
    parts = unicodedata.normalize("NFD", character)
    if len(parts) != 2 or parts[1] not in ACCENTS:
        return None
    letter = parts[0] if parts[0].isascii() else written(parts[0])
    if letter in ("i", "j"):
        letter = "\\%smath " % letter
    return None if letter is None else "\\%s{%s}" % (ACCENTS[parts[1]], letter)
