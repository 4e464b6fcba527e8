"""Single words and constants that have another spelling in the language, or mean nothing there."""
from ..tokens import Token, apply, put_in, text_at
from ..words import ALIGNMENT, BINARY, DROPPED, HEXADECIMAL_FLOATING, WIDE


def alignment(tokens, i, partner, work):
    """`__alignof__` as `sizeof`: both have no event and the type unsigned long."""
    work.count("alignment")
    return [Token("sizeof", tokens[i].at)], i + 1


def dropped_word(tokens, i, partner, work):
    """A word without a meaning for a checker left out."""
    work.count("word")
    return [], i + 1


def wide_integer(tokens, i, partner, work):
    """The names of 128 bits as the keyword."""
    work.count("128 bits")
    if tokens[i].text == "__int128_t":
        return [Token("__int128", tokens[i].at)], i + 1
    return [Token("unsigned", tokens[i].at)] + put_in("__int128"), i + 1


def atomic(tokens, i, partner, work):
    """`_Atomic(T)` as `T`, and the qualifier left out."""
    work.count("word")
    if text_at(tokens, i + 1) == "(":
        return tokens[i + 2:partner[i + 1]], partner[i + 1] + 1
    return [], i + 1


def aligned(tokens, i, partner, work):
    """`_Alignas(..)` left out."""
    if text_at(tokens, i + 1) != "(":
        return None
    work.count("word")
    return [], partner[i + 1] + 1


def static_assertion(tokens, i, partner, work):
    """`_Static_assert(..);` left out with its semicolon."""
    if text_at(tokens, i + 1) != "(":
        return None
    work.count("word")
    behind = partner[i + 1] + 1
    return [], behind + (text_at(tokens, behind) == ";")


def plain_constants(tokens, work):
    """Hexadecimal floating constants as 0., binary ones as hexadecimal ones, and literals without `u8`: values aren't computed."""
    result = []
    for token in tokens:
        text = token.text
        if text[0] in "0uU" and (spelled := plain_constant(text)) is not None:
            work.count("constant")
            token = Token(spelled, token.at)
        result.append(token)
    return result


def plain_constant(text):
    """The ordinary spelling of a constant that the language doesn't have, or None."""
    if HEXADECIMAL_FLOATING.match(text):
        return "0." + (text[-1] if text[-1] in "lLfF" else "")
    if text[0] in "uU":
        return text[2:] if text[:2] == "u8" and text[-1] == '"' else "L" + text[1:] if text[-1] in "\"'" else None
    binary = BINARY.match(text)
    return None if binary is None else hex(int(binary.group()[2:], 2)) + text[binary.end():]


RULES = [(alignment, ALIGNMENT), (dropped_word, DROPPED), (wide_integer, WIDE), (atomic, {"_Atomic"}), (aligned, {"_Alignas"}),
         (static_assertion, {"_Static_assert"})]


def plain_words(tokens, work):
    """All of the above."""
    for rule, triggers in RULES:
        tokens = apply(rule, triggers, tokens, work)
    return plain_constants(tokens, work)
