"""The commands that define names, and those that choose between texts."""

from . import tokens
from .places import Refused
from .reader import Alias, Macro, Pair
from .tokens import Token, tokens_of

ON = Macro(((),), None, (Token(tokens.NAME, "iftrue", 0),), 0)
OFF = Macro(((),), None, (Token(tokens.NAME, "iffalse", 0),), 0)


def simple(body, place=0):
    """A macro without parameters."""
    return Macro(((),), None, tuple(body), place)


def new_command(reader, command):
    """\\newcommand, \\renewcommand and \\providecommand."""
    reader.star()
    name = reader.name_argument(command)
    meaning = latex_macro(reader, command)
    if command.text == "providecommand" and (name in reader.meanings.names or is_known(reader, name)):
        return
    reader.meanings.define(name, meaning)


def is_known(reader, name):
    """Whether a name has a meaning without the author's definitions."""
    return name in getattr(reader, "known", ())


def latex_macro(reader, command):
    """What follows the name of a LaTeX definition: a count, a default and a body."""
    count = number_of(reader.optional(), command)
    default = reader.optional() if count else None
    body = reader.argument(command)
    return Macro(((),) * (count + 1), None if default is None else tuple(default), tuple(body), command.place)


def number_of(found, command):
    """The count of parameters in brackets."""
    text = "".join(token.text for token in found or () if token.kind != tokens.SPACE)
    if not text:
        return 0
    if not text.isdigit() or not text.isascii() or int(text) > 9:
        raise Refused(command.place, f"the number of parameters of {command.source()} is 0 to 9", command.length())
    return int(text)


def primitive_definition(reader, command):
    """\\def, \\gdef, \\edef and \\xdef, with delimited parameters; the body of \\edef is not expanded."""
    target = reader.next()
    while target is not None and target.kind == tokens.SPACE:
        target = reader.next()
    if target is None or target.kind not in (tokens.NAME, tokens.ACTIVE):
        reader.put_back(target)
        raise Refused(command.place, f"{command.source()} takes a name to define", command.length())
    parts, opening = [[]], None
    while opening is None:
        token = reader.next()
        if token is None or token.is_name("par"):
            raise Refused(command.place, "the body of this definition is missing", command.length())
        if token.kind == tokens.BEGIN:
            opening = token
        elif token.kind == tokens.PARAMETER:
            digit = reader.next()
            if digit is not None and digit.kind == tokens.BEGIN:
                raise Refused(command.place, "a parameter list that ends in # cannot be had", command.length())
            parts.append([])
        else:
            parts[-1].append(token)
    body = reader.group(opening)
    meaning = Macro(tuple(tuple(part) for part in parts), None, tuple(body), command.place)
    reader.meanings.define(target.text, meaning, command.text in ("gdef", "xdef"))


def let(reader, command):
    """\\let: the name means what the token means now."""
    name = reader.name_argument(command)
    token = reader.peek_past_spaces()
    if token is not None and token.is_character("="):
        reader.next()
        token = reader.next()
        if token is not None and token.kind == tokens.SPACE:
            token = reader.next()
    else:
        token = reader.next()
    if token is None:
        raise Refused(command.place, "the token that \\let takes is missing", command.length())
    meaning = reader.meanings.get(token.text) if token.kind in (tokens.NAME, tokens.ACTIVE) else None
    reader.meanings.define(name, meaning or Alias(token))


def operator(reader, command):
    """\\DeclareMathOperator, with a star for limits."""
    star = "*" if reader.star() else ""
    name = reader.name_argument(command)
    inner = reader.argument(command)
    body = [*tokens_of("\\operatorname" + star + "{", command.place), *inner, *tokens_of("}", command.place)]
    reader.meanings.define(name, simple(body, command.place))


def robust(reader, command):
    """\\DeclareRobustCommand and \\newrobustcmd are read as \\newcommand."""
    new_command(reader, command)


def paired(reader, command):
    """\\DeclarePairedDelimiter."""
    name = reader.name_argument(command)
    left, right = reader.argument(command), reader.argument(command)
    reader.meanings.define(name, Pair(tuple(left), tuple(right)))


def paired_with_body(reader, command):
    """\\DeclarePairedDelimiterX and its like: the delimiters round a body."""
    name = reader.name_argument(command)
    count = number_of(reader.optional(), command)
    has_sides = command.text.endswith("XPP")
    before = reader.argument(command) if has_sides else []
    left, right = reader.argument(command), reader.argument(command)
    behind = reader.argument(command) if has_sides else []
    body = [*before, *left, *reader.argument(command), *right, *behind]
    reader.meanings.define(name, Macro(((),) * (count + 1), None, tuple(body), command.place))


def document_command(reader, command):
    """\\NewDocumentCommand and its like, with arguments m, and o or O{..} for the first."""
    name = reader.name_argument(command)
    pattern = [part for part in reader.argument(command) if part.kind != tokens.SPACE]
    body = reader.argument(command)
    default, kinds = None, []
    while pattern:
        part = pattern.pop(0)
        if part.is_character("O") and pattern and pattern[0].kind == tokens.BEGIN:
            end = next(at for at, one in enumerate(pattern) if one.kind == tokens.END)
            default, pattern = tuple(pattern[1:end]), pattern[end + 1 :]
        elif part.is_character("o"):
            default = ()
        elif not part.is_character("m"):
            raise Refused(command.place, f"an argument {part.text} of {command.source()} cannot be had",
                command.length())
        kinds.append(part.text)
    if any(kind != "m" for kind in kinds[1:]):
        raise Refused(command.place, "only the first argument can be optional", command.length())
    reader.meanings.define(name, Macro(((),) * (len(kinds) + 1), default, tuple(body), command.place))


def environment(reader, command):
    """\\newenvironment and \\renewenvironment."""
    reader.star()
    name = reader.text_of(reader.argument(command))
    begin = latex_macro(reader, command)
    end = simple(reader.argument(command), command.place)
    reader.meanings.define_environment(name, (begin, end))


def theorem(reader, command):
    """\\newtheorem: its texts are no formulas."""
    reader.star()
    reader.argument(command)
    reader.optional()
    reader.argument(command)
    reader.optional()


def math_character(reader, command):
    """\\mathchardef and \\DeclareMathSymbol are kept as numbers."""
    name = reader.name_argument(command)
    number = [Token(tokens.NAME, "mathchar", command.place)]
    token = reader.peek_past_spaces()
    if token is not None and token.is_character("="):
        reader.next()
        reader.skip_spaces()
    token = reader.next()
    while token is not None and (token.is_character('"') or token.text in "0123456789ABCDEF") and token.kind != tokens.NAME:
        number.append(token)
        token = reader.next()
    if token is not None and token.kind != tokens.SPACE:
        reader.put_back(token)
    number.append(Token(tokens.NAME, "relax", command.place))
    reader.meanings.define(name, simple(number, command.place))


# Conditionals


def skip_branch(reader, command, to_else):
    """Skips up to the \\fi of a conditional, or to its \\else."""
    depth = 0
    while True:
        token = reader.next()
        if token is None:
            return
        if token.kind != tokens.NAME:
            continue
        if token.text == "fi":
            if depth == 0:
                return
            depth -= 1
        elif token.text == "else" and depth == 0 and to_else:
            return
        elif token.text.startswith("if") and token.text not in ("iff", "ifthenelse"):
            meaning = reader.meanings.get(token.text)
            if meaning in (None, ON, OFF):
                depth += 1


def choose(reader, command, is_true):
    """Goes on with the branch that is taken."""
    if not is_true:
        skip_branch(reader, command, True)


def if_false(reader, command):
    """\\iffalse."""
    choose(reader, command, False)


def if_true(reader, command):
    """\\iftrue and \\ifmmode: what can be in a formula is in one."""
    choose(reader, command, True)


def if_math(reader, command):
    """\\ifmmode."""
    choose(reader, command, getattr(reader, "is_math", False))


def same(reader, command):
    """\\ifx and \\if: whether two tokens are the same."""
    first, second = reader.next(), reader.next()
    if first is None or second is None:
        return
    meanings = [reader.meanings.get(token.text) if token.kind == tokens.NAME else None for token in (first, second)]
    if meanings[0] is None and meanings[1] is None:
        choose(reader, command, (first.kind, first.text) == (second.kind, second.text))
        return
    bodies = [[(part.kind, part.text) for part in meaning.body] if isinstance(meaning,
        Macro) else meaning for meaning in meanings]
    choose(reader, command, bodies[0] == bodies[1])


def or_else(reader, command):
    """An \\else that is met ends the branch that is taken."""
    skip_branch(reader, command, False)


def nothing(reader, command):
    """A command without effect."""


def new_if(reader, command):
    """\\newif."""
    name = reader.name_argument(command)
    base = name.removeprefix("if")
    reader.meanings.define(name, OFF)
    for suffix, meaning in (("true", ON), ("false", OFF)):
        setter = Token(tokens.NAME, "mathset@switch", command.place)
        target = Token(tokens.NAME, name, command.place)
        value = Token(tokens.NAME, "if" + suffix, command.place)
        reader.meanings.define(base + suffix, simple((setter, target, value), command.place))


def switch(reader, command):
    """Sets a switch of \\newif."""
    target, value = reader.next(), reader.next()
    reader.meanings.define(target.text, ON if value.text == "iftrue" else OFF)


def one_argument(reader, command):
    """A command whose argument is nothing of a formula."""
    reader.argument(command)


def csname(reader, command):
    """\\csname..\\endcsname."""
    name, token = "", reader.next_expanded()
    while token is not None and not token.is_name("endcsname"):
        name += token.text
        token = reader.next_expanded()
    reader.put_back(Token(tokens.NAME, name, command.place))


def expand_after(reader, command):
    """\\expandafter: the token after the next is expanded first."""
    first, second = reader.next(), reader.next()
    if second is not None and second.kind == tokens.NAME:
        meaning = reader.meanings.get(second.text)
        if isinstance(meaning, (Macro, Pair)):
            reader.expand(second, meaning)
        elif second.text in ("csname", "expandafter"):
            COMMANDS[second.text](reader, second)
        else:
            reader.put_back(second)
    else:
        reader.put_back(second)
    reader.put_back(first)


def at_letter(reader, command):
    """\\makeatletter and \\makeatother."""
    if reader.lexers:
        lexer = reader.lexers[-1]
        lexer.pattern = tokens.INSIDE if command.text == "makeatletter" else tokens.OUTSIDE


COMMANDS = {
    "newcommand": new_command, "renewcommand": new_command, "providecommand": new_command,
    "DeclareRobustCommand": robust, "newrobustcmd": robust, "renewrobustcmd": robust,
    "def": primitive_definition, "gdef": primitive_definition, "edef": primitive_definition,
    "xdef": primitive_definition, "let": let, "DeclareMathOperator": operator,
    "DeclarePairedDelimiterX": paired_with_body, "DeclarePairedDelimiterXPP": paired_with_body,
    "NewDocumentCommand": document_command, "RenewDocumentCommand": document_command,
    "ProvideDocumentCommand": document_command, "DeclareDocumentCommand": document_command,
    "DeclarePairedDelimiter": paired, "newenvironment": environment, "renewenvironment": environment,
    "newtheorem": theorem, "mathchardef": math_character,
    "iffalse": if_false, "iftrue": if_true, "ifmmode": if_math, "ifx": same, "if": same, "else": or_else,
    "fi": nothing, "newif": new_if, "mathset@switch": switch, "global": nothing, "long": nothing,
    "outer": nothing, "protected": nothing, "protect": nothing, "csname": csname, "expandafter": expand_after,
    "noexpand": nothing, "makeatletter": at_letter, "makeatother": at_letter,
}  # fmt: skip
