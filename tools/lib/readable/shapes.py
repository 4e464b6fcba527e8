"""The shape of a text: one character for each token, so that its brackets are looked at in few steps.

Brackets and semicolons are themselves, and a word that metalcheck may strip with the group behind it is `#`."""
from itertools import repeat

from .words import CLOSING, OPENING, STRIPPED

PARTNER = {")": "(", "]": "[", "}": "{"}
CLOSED_BY = {opening: closing for closing, opening in PARTNER.items()}
WORD_OF_GROUP, OTHER = "#", "x"
CHARACTERS = {**{text: text for text in OPENING | CLOSING | {";"}}, **dict.fromkeys(STRIPPED, WORD_OF_GROUP)}
BRACKETS_ALONE = str.maketrans("", "", ";" + WORD_OF_GROUP + OTHER)
MOST_ROUNDS = 200


def shape_of(texts, characters):
    """The shape of these tokens, by the characters of their spellings."""
    return "".join(map(characters.get, texts, repeat(OTHER)))


def behind_group(shape, i):
    """The index behind the bracket that ends the group which begins at i, by brackets of its kind alone, or 0 where there is none."""
    opening, closing = shape[i], CLOSED_BY[shape[i]]
    at, depth = i + 1, 1
    while depth:
        close = shape.find(closing, at)
        if close < 0:
            return 0
        depth += shape.count(opening, at, close) - 1
        at = close + 1
    return at


def is_balanced(shape):
    """Whether each bracket has a partner of its kind, where that is seen by taking pairs away from the inside."""
    return are_pairs(shape.translate(BRACKETS_ALONE))


def are_pairs(brackets):
    """The same of brackets alone."""
    for _ in range(MOST_ROUNDS):
        before = len(brackets)
        brackets = brackets.replace("()", "").replace("[]", "").replace("{}", "")
        if len(brackets) == before:
            break
    return not brackets
