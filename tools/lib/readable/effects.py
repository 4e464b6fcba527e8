"""Whether an expression only reads, so that it may be left out or read again."""
from .statements import is_typed
from .tokens import NOWHERE, text_at
from .words import ASSIGNING, STEPPING, TYPEOF, is_name

CHANGING = ASSIGNING | STEPPING | {";", "{"}


def only_reads(tokens, names):
    """Whether nothing is assigned and nothing called in an expression, built-in functions apart."""
    for i, token in enumerate(tokens):
        if token.text in CHANGING or token.text == "(" and i and is_call(tokens, i, names):
            return False
    return True


def is_call(tokens, i, names):
    """Whether the parenthesis at i begins the arguments of a call, as far as can be seen."""
    before = tokens[i - 1].text
    if before == ")":
        opening = opening_of(tokens, i - 1)
        return not (opening != NOWHERE and is_typed(text_at(tokens, opening + 1), names))
    return before == "]" or is_name(before) and before not in TYPEOF and not before.startswith("__builtin_")


def opening_of(tokens, close):
    """The index of the parenthesis that the one at close ends."""
    depth = 0
    for k in range(close, -1, -1):
        depth += (tokens[k].text == ")") - (tokens[k].text == "(")
        if depth == 0:
            return k
    return NOWHERE
