"""Compound literals in functions: `(T){ a, b }` as `(*(T *)(a, b, 0))`, which evaluates the same values.

The pointer is 0, not the last value, so that nothing that is known of a value is taken for what the literal holds."""
from ..statements import is_typed
from ..tokens import NOWHERE, Token, apply, enclosing, index_of, names_any, partners, put_in, spellings, text_at
from ..words import CONTROL, is_name

FOREIGN_IN_TYPE = {"(", "{"}


def literal(tokens, i, partner, work):
    """The literal that begins with the type in parentheses at i; one of an array as the pointer that it decays to."""
    close = partner.get(i, NOWHERE)
    if text_at(tokens, close + 1) != "{" or not is_type_of_literal(tokens, i, work.names):
        return None
    words = tokens[i + 1:close]
    bound = index_of(words, {"["})
    if not FOREIGN_IN_TYPE.isdisjoint(spellings(words)) or spellings(words).count("[") > 1:
        return None
    work.count("compound literal")
    begin, end = tokens[close + 1], tokens[partner[close + 1]]
    values = literals(flat_values(tokens[close + 2:partner[close + 1]]), work)
    pointer = [tokens[i], *words[:bound if bound != NOWHERE else None], Token("*"), tokens[close]]
    result = [*pointer, Token("(", begin.at), *values, *put_in(", 0" if values else "0"), Token(")", end.at), Token(")")]
    return put_in("( *" if bound == NOWHERE else "(") + result, partner[close + 1] + 1


def is_type_of_literal(tokens, i, names):
    """Whether the parenthesis at i holds a type, and belongs neither to the head of a statement nor to that of a function."""
    before = text_at(tokens, i - 1)
    if not is_typed(text_at(tokens, i + 1), names) or before in CONTROL or is_name(before):
        return False
    return before != ")" or "{" in spellings(tokens[:i])


def flat_values(tokens):
    """The values of a list with commas between, those of inner lists among them."""
    partner, around, braces = partners(tokens), enclosing(tokens), set()
    for k, token in enumerate(tokens):
        begins_value = token.text == "{" and text_at(tokens, k - 1) in ("", "{", ",")
        if begins_value and (around[k] == NOWHERE or around[k] in braces):
            braces |= {k, partner[k]}
    result = []
    for k, token in enumerate(tokens):
        if k not in braces and not (token.text == "," and (not result or result[-1].text == ",")):
            result.append(token)
    return result[:-1] if result and result[-1].text == "," else result


def literals(tokens, work):
    """All compound literals that have a plain type, inner ones too."""
    return apply(literal, {"("}, tokens, work) if names_any(tokens, {"{"}) else tokens
