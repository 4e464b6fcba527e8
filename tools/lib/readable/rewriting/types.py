"""`typeof` and `__auto_type`: as the type where it can be read off, and casts to an operand's own type left out."""
from ..tokens import Token, apply, index_of, names_any, parts, partners, put_in, spellings, text_at
from ..words import CLOSING, OPENING, QUALIFIERS, TYPEOF
from .arithmetic import cast_type, has_name, is_arithmetic, operands
from .lookup import declared_type, plain_type, typing

PREFIXES = {"*", "&", "-", "!", "~", "+"}
NO_OPERAND = {")", ";", ",", "=", "]", "}"}


def own_type(tokens, i, partner, work):
    """`(typeof(x) *)&x`, `(typeof(*p) *)p` and `(typeof(x))x` without the cast, also where the type is a `_Generic` of x that falls
    back on x; and `x = (typeof(x))E`."""
    found = cast_to_typeof(tokens, i, partner)
    if found is None:
        return None
    expression, stars = found
    operand = partner[i] + 1
    if not stars and is_assigned(tokens, i, operand, expression, partner):
        work.count("own type")
        return [], operand
    if stars == ["*"] and text_at(tokens, operand) == "&":
        operand += 1
    elif stars == ["*"] and text_at(expression, 0) == "*":
        expression = expression[1:]
    elif stars or text_at(tokens, operand) in NO_OPERAND or operand >= len(tokens):
        return None
    if bare(tokens[operand:behind_operand(tokens, operand, partner)]) != bare(expression):
        return None
    work.count("own type")
    return [], partner[i] + 1


def is_assigned(tokens, i, operand, expression, partner):
    """Whether the cast at i, with all that it is applied to, is assigned to the variable that is named in its type."""
    assigned = len(expression) == 1 and spellings(tokens[i - 2:i]) == [expression[0].text, "="]
    return assigned and text_at(tokens, behind_operand(tokens, operand, partner)) in (";", ",")


def cast_to_typeof(tokens, i, partner):
    """The expression of the `typeof` in a cast that begins at i, and what stands behind it but for qualifiers, or None."""
    if i not in partner:
        return None
    k = i + 1
    while tokens[k].text in QUALIFIERS:
        k += 1
    if tokens[k].text not in TYPEOF or k + 1 not in partner:
        return None
    close = partner[k + 1]
    expression = tokens[k + 2:close]
    if text_at(expression, 0) == "_Generic":
        expression = fallback(expression)
    return expression, [text for text in spellings(tokens[close + 1:partner[i]]) if text not in QUALIFIERS]


def fallback(expression):
    """The operand of `_Generic(x, .. default: x)`, or the expression itself."""
    given = parts(expression[2:-1])
    last = given[-1]
    same = len(last) > 2 and last[0].text == "default" and bare(last[2:]) == bare(given[0])
    return given[0] if same else expression


def bare(tokens):
    """The spellings without parentheses around the whole, and without `*&` in front of it."""
    texts, partner = spellings(tokens), partners(tokens)
    first, last = 0, len(texts) - 1
    while last - first > 1:
        if texts[first] == "(" and partner.get(first) == last:
            first, last = first + 1, last - 1
        elif texts[first:first + 2] == ["*", "&"]:
            first += 2
        else:
            break
    return texts[first:last + 1]


def behind_operand(tokens, i, partner):
    """The index behind the operand of a cast that begins at i."""
    while text_at(tokens, i) in PREFIXES:
        i += 1
    i = partner[i] + 1 if text_at(tokens, i) == "(" else i + 1
    while text_at(tokens, i) in ("[", "(", ".", "->"):
        i = partner[i] + 1 if tokens[i].text in ("[", "(") else i + 2
    return i


def automatic(tokens, i, partner, work):
    """`__auto_type v = E` as `unsigned long v = E` (as `int` without a name in E), where E is arithmetic; as `T v = E`, where E is cast to
    an arithmetic type T."""
    end = index_of(tokens, {";"}, i + 3)
    if text_at(tokens, i + 2) != "=" or end < 0:
        return None
    value = bare(tokens[i + 3:end])
    if "," in value or not is_arithmetic(value, typing(tokens, i, partner, work), work.names):
        return None
    work.count("automatic type")
    words = cast_type(value, work.names) if len(operands(value, work.names)) == 1 else None
    return put_in(" ".join(words or (["unsigned", "long"] if has_name(value) else ["int"]))), i + 1


def plain_typeof(tokens, i, partner, work):
    """`typeof(T)` as `T`, `typeof(*p)` as the type that p's declaration gives it, and `typeof` of arithmetic as `unsigned long`."""
    if i + 1 not in partner:
        return None
    behind = partner[i + 1] + 1
    expression = tokens[i + 2:behind - 1]
    of_type = plain_type(expression, work.names)
    found = of_type or declared_type(tokens, i, expression, partner, work)
    if found is None and is_arithmetic(spellings(expression), typing(tokens, i, partner, work), work.names):
        work.count("automatic type")
        return put_in("unsigned long"), behind
    if found is None or found[1] and not is_alone(tokens, behind):
        return None
    work.count("typeof of a type" if of_type else "typeof by declaration")
    return put_in(" ".join(found[0])) + [Token("*") for _ in range(found[1])], behind


def is_alone(tokens, i):
    """Whether at most one declarator stands from i on, so that stars before it are its own."""
    depth = 0
    for token in tokens[i:]:
        text = token.text
        depth += (text in OPENING) - (text in CLOSING)
        if depth < 0 or depth == 0 and text == ";":
            return True
        if depth == 0 and text == ",":
            return False
    return True


def plain_types(tokens, work):
    """All of the above."""
    tokens = apply(own_type, {"("}, tokens, work) if names_any(tokens, TYPEOF) else tokens
    tokens = apply(automatic, {"__auto_type"}, tokens, work)
    return apply(plain_typeof, TYPEOF, tokens, work)
