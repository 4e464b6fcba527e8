"""`_Generic(x, T: a, U: b)` as one of its values: where they differ in qualifiers alone, or by the type that x is declared with."""
from ..tokens import NOWHERE, apply, index_of, parts, spellings, text_at
from ..words import QUALIFIERS
from .lookup import plain_type, typing


def selection(tokens, i, partner, work):
    """The value that is selected, in parentheses."""
    if text_at(tokens, i + 1) != "(":
        return None
    close = partner[i + 1]
    operand, *given = parts(tokens[i + 2:close])
    colons = [index_of(one, {":"}) for one in given]
    if not given or NOWHERE in colons:
        return None
    values = [one[colon + 1:] for one, colon in zip(given, colons)]
    if any(unqualified(value) != unqualified(values[-1]) for value in values):
        types = [plain_type(one[:colon], work.names) for one, colon in zip(given, colons)]
        found = typing(tokens, i, partner, work)(spellings(operand))
        values = [value for one, value in zip(types, values) if found is not None and not found[2] and one == tuple(found[:2])]
    if not values:
        return None
    work.count("selection")
    return [tokens[i + 1], *values[-1], tokens[close]], close + 1


def unqualified(tokens):
    """The spellings without qualifiers."""
    return [text for text in spellings(tokens) if text not in QUALIFIERS]


def selections(tokens, work):
    """All selections that have one value."""
    return apply(selection, {"_Generic"}, tokens, work)
