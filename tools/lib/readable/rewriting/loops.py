"""`do { S } while (0)`: what runs once, and assertions at compile time, which a compiler takes for nothing."""
from ..tokens import NOWHERE, apply, index_of, names_any, partners, spellings, text_at
from .around import ends_value

ASSERTION = "__compiletime_assert_"
MOST_STATEMENTS = 4
JUMPS = {"break", "continue"}


def plain_loop(tokens, i, partner):
    """Of a `do { .. } while (0)` that begins at i the index of its `}` and that behind it all, or None."""
    if text_at(tokens, i + 1) != "{":
        return None
    close = partner[i + 1]
    if text_at(tokens, close + 1) != "while" or close + 2 not in partner:
        return None
    behind = partner[close + 2] + 1
    return (close, behind) if is_never(tokens[close + 3:behind - 1]) else None


def is_never(condition):
    """Whether a condition is `0`, or `0 && ..`, of which nothing more is evaluated."""
    if text_at(condition, 0) != "0":
        return False
    return len(condition) == 1 or text_at(condition, 1) == "&&" and index_of(condition, {"||", "?", ","}) == NOWHERE


def assertion(tokens, i, partner, work):
    """`do { .. __compiletime_assert_N(); .. } while (0)`: a call that the compiler proves unreachable."""
    found = plain_loop(tokens, i, partner)
    if found is None:
        return None
    inside = spellings(tokens[i + 2:found[0]])
    if inside.count(";") > MOST_STATEMENTS or not any(text.startswith(ASSERTION) for text in inside):
        return None
    work.count("assertion")
    return [], found[1]


def assertions(tokens, work):
    """All assertions at compile time left out."""
    return apply(assertion, {"do"}, tokens, work)


def plain_loops(tokens, work):
    """`do { S } while (0);` as `{ S }` where neither `break` nor `continue` stands in S: it isn't run again, and nothing leaves it."""
    if not names_any(tokens, {"do"}):
        return tokens
    partner, dropped = partners(tokens), set()
    for i, token in enumerate(tokens):
        found = plain_loop(tokens, i, partner) if token.text == "do" else None
        if found is None or text_at(tokens, found[1]) != ";" or not JUMPS.isdisjoint(spellings(tokens[i + 2:found[0]])):
            continue
        if not ends_value(tokens, found[1] + 1, partner):
            work.count("plain loop")
            dropped |= {i, *range(found[0] + 1, found[1] + 1)}
    return [token for i, token in enumerate(tokens) if i not in dropped]
