"""The type of a plain expression by declarations: the nearest one above it, those of the file, and those of members."""
from ..tokens import Token, spellings, text_at
from ..words import ASSIGNING, CLOSING, KEYWORDS, OPENING, QUALIFIERS, STORAGE, TAGGED, WORD

BEHIND_NAME = {";", ",", "=", ")", "["}
BEFORE_SPECIFIERS = {"{", ";", "(", ",", "}", ")"}
PRODUCTS = {"*", "/", "%"}
OPERATORS = PRODUCTS | ASSIGNING | set("+ - << >> < > <= >= == != & | ^ && || ? : ,".split())
PREFIXES = {"-", "+", "~", "!"}


def plain_type(expression, names):
    """The words and stars of a type name of words and stars alone, or None."""
    texts = spellings(expression)
    if not texts or not names.is_type(texts[0]):
        return None
    k = 0
    while k < len(texts) and (names.is_type(texts[k]) or (k and texts[k - 1] in TAGGED)):
        k += 1
    if any(text != "*" and text not in QUALIFIERS for text in texts[k:]):
        return None
    return [text for text in texts[:k] if text not in QUALIFIERS], texts[k:].count("*")


def declared_type(tokens, i, expression, partner, work):
    """The words and stars of the type of an expression at i, by declarations above, in the file and in structs; or None."""
    found = typing(tokens, i, partner, work)(spellings(expression))
    return None if found is None or found[2] else found[:2]


def typing(tokens, i, partner, work):
    """What gives the type of an expression that stands at i, by its spellings."""
    def local(name):
        return type_above(tokens, i, name, partner, work)
    return lambda texts: expression_type(texts, local, work.names)


def expression_type(texts, local, names):
    """The words, the stars, and whether it is an array, of an expression of names, calls, casts, `*`, `&`, `->`, `.`, indices, and `+`
    behind a pointer; or None. Local gives that of the name of a variable of the function."""
    texts = without_parentheses(texts)
    plus = first_plus(texts, names)
    if plus:
        return sum_type(expression_type(texts[:plus], local, names), texts[plus + 1:])
    if len(texts) == 1 and WORD.match(texts[0]) and texts[0] not in KEYWORDS:
        return local(texts[0]) or names.variables.get(texts[0])
    if texts[:1] == ["*"]:
        return pointed(expression_type(texts[1:], local, names))
    if texts[:1] == ["&"]:
        found = expression_type(texts[1:], local, names)
        return None if found is None or found[2] else (found[0], found[1] + 1, False)
    if texts[:1] == ["("] and names.is_type(texts[1]):
        return cast_type(texts, names)
    if len(texts) > 2 and texts[-2] in ("->", "."):
        found = expression_type(texts[:-2], local, names)
        found = pointed(found) if texts[-2] == "->" else found
        return None if found is None or found[1] or found[2] else names.member(found[0], texts[-1])
    if texts[1:2] == ["("] and texts[-1] == ")" and opening_of(texts) == 1:
        return names.returned(texts[0])
    if texts[-1:] == ["]"]:
        return pointed(expression_type(texts[:opening_of(texts)], local, names))
    return None


def first_plus(texts, names):
    """The index of the first `+` between two operands where nothing that binds less stands in no bracket, or 0."""
    found = depth = 0
    for k, text in enumerate(texts):
        if depth == 0 and text in OPERATORS and ends_operand(texts[:k], names):
            if text not in PRODUCTS and text != "+":
                return 0
            found = found or k * (text == "+")
        depth += (text in OPENING) - (text in CLOSING)
    return found


def ends_operand(texts, names):
    """Whether an operator behind these spellings stands between two operands: they are no cast and no operator."""
    if not texts or texts[-1] in OPERATORS | PREFIXES:
        return False
    return texts[-1] != ")" or not names.is_type(texts[opening_of(texts) + 1])


def sum_type(found, added):
    """The type of the sum of an operand of this type and what is added, where that is a pointer or 0; or None."""
    if found is None or not (found[1] or found[2] or added == ["0"]):
        return None
    return found[0], found[1] + found[2], False


def cast_type(texts, names):
    """The type that the cast in front of an operand names, or None."""
    found = plain_type([Token(text) for text in texts[1:texts.index(")")]], names)
    return None if found is None else (*found, False)


def pointed(found):
    """The type of what a pointer or an array points to, or None."""
    if found is None or not (found[1] or found[2]):
        return None
    words, stars, is_array = found
    return words, stars - (not is_array), False


def without_parentheses(texts):
    """Spellings without parentheses around the whole."""
    while len(texts) > 2 and texts[0] == "(" and texts[-1] == ")" and opening_of(texts) == 0:
        texts = texts[1:-1]
    return texts


def opening_of(texts):
    """The index of the bracket that the last one ends."""
    depth = 0
    for k in range(len(texts) - 1, -1, -1):
        depth += (texts[k] in CLOSING) - (texts[k] in OPENING)
        if depth == 0:
            return k
    return 0


def type_above(tokens, i, name, partner, work):
    """The words, the stars, and whether it is an array, of the nearest declaration of a name above i in a block that is open there."""
    depth = 0
    for k in range(i - 1, 0, -1):
        text = tokens[k].text
        depth += (text == "}") - (text == "{")
        if text == name and depth <= 0 and text_at(tokens, k + 1) in BEHIND_NAME:
            declared = later_declarator(tokens, k, partner, work) or first_declarator(tokens, k, work)
            if declared is not None:
                return declared
    return None


def before_stars(tokens, k):
    """The index in front of the stars and qualifiers before k, and the number of stars."""
    q, stars = k - 1, 0
    while q >= 0 and (tokens[q].text == "*" or tokens[q].text in QUALIFIERS):
        stars += tokens[q].text == "*"
        q -= 1
    return q, stars


def first_declarator(tokens, k, work):
    """The type of the name at k where it stands first behind its specifiers."""
    q, stars = before_stars(tokens, k)
    texts, behind = spellings(tokens[:q + 1]), q + 1
    while q >= 0 and work.names.is_specifier(texts, q):
        q -= 1
    words = [text for text in texts[q + 1:behind] if text not in QUALIFIERS]
    if not words or q < 0 or not (texts[q] in BEFORE_SPECIFIERS or texts[q] in STORAGE):
        return None
    return words, stars, text_at(tokens, k + 1) == "["


def later_declarator(tokens, k, partner, work):
    """The type of the name at k where it stands behind another declarator of the same specifiers."""
    comma, stars = before_stars(tokens, k)
    if comma <= 0 or tokens[comma].text != ",":
        return None
    u = comma
    while u >= 0 and tokens[u].text not in (";", "{", "}", "("):
        u = partner[u] - 1 if tokens[u].text in (")", "]") else u - 1
    if u < 0 or tokens[u].text == "(":
        return None
    texts, first = spellings(tokens[:comma]), u + 1
    u = first
    while u < comma and (work.names.is_specifier(texts, u) or texts[u] in STORAGE):
        u += 1
    words = [text for text in texts[first:u] if text not in QUALIFIERS and text not in STORAGE]
    return (words, stars, text_at(tokens, k + 1) == "[") if words else None
