"""`__label__ l;` at the head of a block left out; l gets a name of its own where it stands elsewhere in the function too."""
from ..tokens import Token, names_any, partners, spellings, text_at

ROUNDS = 50


def local_labels(tokens, work):
    """All local labels of blocks. One of a statement expression waits until that is a block."""
    for number in range(1, ROUNDS if names_any(tokens, {"__label__"}) else 1):
        at = next((i for i in range(2, len(tokens) - 2) if is_declared(tokens, i)), None)
        if at is None:
            return tokens
        work.count("local label")
        name, close = tokens[at + 1].text, partners(tokens)[at - 1]
        elsewhere = name in spellings(tokens[:at - 1]) or name in spellings(tokens[close:])
        inside = renamed(tokens[at + 3:close], name, f"{name}_{number}") if elsewhere else tokens[at + 3:close]
        tokens = tokens[:at] + inside + tokens[close:]
    return tokens


def is_declared(tokens, i):
    """Whether a local label is declared at i, first in a block."""
    return tokens[i].text == "__label__" and tokens[i + 2].text == ";" and tokens[i - 1].text == "{" and tokens[i - 2].text != "("


def renamed(tokens, name, other):
    """The tokens with another name for a label."""
    return [Token(other, token.at) if token.text == name and (text_at(tokens, k - 1) == "goto" or text_at(tokens, k + 1) == ":") else token
            for k, token in enumerate(tokens)]
