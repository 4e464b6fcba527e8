"""Operands that aren't evaluated: sizes of something foreign, tests of types, bounds of arrays, choices at compile time, case ranges."""
from ..foreign import is_foreign
from ..tokens import Token, apply, parts, put_in, text_at
from ..words import CLOSING, OPENING, WORD


def foreign_size(tokens, i, partner, work):
    """`sizeof(foreign)` as `sizeof(0)`: nothing in it is evaluated, and its type is unsigned long whatever stands there."""
    if text_at(tokens, i + 1) != "(":
        return None
    close = partner[i + 1]
    if not is_foreign(tokens, i + 2, close) or text_at(tokens, close + 1) == "{":
        return None
    work.count("foreign size")
    return [Token("sizeof", tokens[i].at), tokens[i + 1], *put_in("0"), tokens[close]], close + 1


def compatible_types(tokens, i, partner, work):
    """Types can't be arguments, so they are left out; the answer of the call that is left isn't known."""
    if text_at(tokens, i + 1) != "(" or partner[i + 1] == i + 2:
        return None
    work.count("compatible types")
    return [tokens[i], tokens[i + 1], tokens[partner[i + 1]]], partner[i + 1] + 1


def foreign_bound(tokens, i, partner, work):
    """A bound in a declarator: lengths aren't computed."""
    before = text_at(tokens, i - 1)
    if not (WORD.match(before) or before == "]") or not is_foreign(tokens, i + 1, partner[i]):
        return None
    if not in_declarator(tokens, i, partner, work):
        return None
    work.count("array bound")
    return [tokens[i], tokens[partner[i]]], partner[i] + 1


def in_declarator(tokens, i, partner, work):
    """Whether a `[` stands in a declarator: on its left comes a word of a type before any operator."""
    k = i - 1
    while k >= 0:
        text = tokens[k].text
        if text == "]":
            k = partner[k] - 1
        elif text == "*" or WORD.match(text):
            if work.names.is_type(text) or text in ("extern", "static"):
                return True
            k -= 1
        else:
            return False
    return False


def choice(tokens, i, partner, work):
    """`__builtin_choose_expr(c, a, b)` as `(c ? a : b)`: both branches are followed, where the compiler takes one."""
    if text_at(tokens, i + 1) != "(":
        return None
    close = partner[i + 1]
    given = parts(tokens[i + 2:close])
    if len(given) != 3:
        return None
    work.count("choice")
    condition, first, second = [choices(part, work) for part in given]
    commas = i + 2 + len(given[0]), i + 3 + len(given[0]) + len(given[1])
    question, colon = Token("?", tokens[commas[0]].at), Token(":", tokens[commas[1]].at)
    return [tokens[i + 1], *condition, question, *first, colon, *second, tokens[close]], close + 1


def choices(tokens, work):
    """All choices at compile time, inner ones first."""
    return apply(choice, {"__builtin_choose_expr"}, tokens, work)


def case_range(tokens, i, partner, work):
    """`case A ... B:` as `case A:`: the values of cases aren't looked at."""
    k = i - 1
    if k < 0 or tokens[k].text in (",", "("):
        return None
    while k >= 0 and tokens[k].text not in ("case", ";", "{", "}"):
        k -= 1
    if k < 0 or tokens[k].text != "case":
        return None
    work.count("case range")
    return [], colon_of_case(tokens, i + 1)


def colon_of_case(tokens, i):
    """The index of the colon that ends the label whose value goes on at i."""
    questions = depth = 0
    while i < len(tokens):
        text = tokens[i].text
        if depth == 0 and text == ":" and questions == 0:
            return i
        depth += (text in OPENING) - (text in CLOSING)
        questions += (text == "?") - (text == ":")
        i += 1
    return i


def sizes(tokens, work):
    """Bounds, sizes and tests of types. Bounds come first: a size in one goes with it."""
    tokens = apply(foreign_bound, {"["}, tokens, work)
    tokens = apply(foreign_size, {"sizeof", "__builtin_offsetof"}, tokens, work)
    return apply(compatible_types, {"__builtin_types_compatible_p"}, tokens, work)


def case_ranges(tokens, work):
    """All ranges of cases."""
    return apply(case_range, {"..."}, tokens, work)
