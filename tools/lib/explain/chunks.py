"""Cuts the tokens of a C file into its external declarations, as metalcheck does, and finds the functions among them."""
from typing import NamedTuple

DROPPED = frozenset(["__extension__"])
WITH_GROUP = frozenset("__attribute__ __attribute asm __asm __asm__".split())
QUALIFIERS = frozenset("volatile __volatile__ __volatile goto inline __inline__ __inline const __const".split())
OPENING, CLOSING = frozenset("([{"), frozenset(")]}")


class Chunk(NamedTuple):
    """An external declaration: its tokens, and whether it ended where one ends (the last of a file may not)."""

    tokens: list
    ended: bool

    @property
    def at(self):
        """The offset of its first byte."""
        return self.tokens[0].at

    @property
    def end(self):
        """The offset behind its last byte."""
        return self.tokens[-1].end

    def is_function(self):
        """Whether it ends with a body in braces directly behind a list."""
        return self.ended and self.tokens[-1].text == "}"


def behind_group(tokens, at):
    """The number of the token behind the group in parentheses that begins at this one; the same number where none does."""
    if at >= len(tokens) or tokens[at].text != "(":
        return at
    depth = 0
    for number in range(at, len(tokens)):
        depth += {"(": 1, ")": -1}.get(tokens[number].text, 0)
        if depth == 0:
            return number + 1
    return at


def stripped(tokens):
    """The tokens without the words of GNU C that change nothing."""
    found, at = [], 0
    while at < len(tokens):
        text = tokens[at].text
        if text in WITH_GROUP:
            group = at + 1
            while "asm" in text and group < len(tokens) and tokens[group].text in QUALIFIERS:
                group += 1
            behind = behind_group(tokens, group)
            if behind > group:
                at = behind
                continue
        if text not in DROPPED:
            found.append(tokens[at])
        at += 1
    return found


def chunks_of(tokens):
    """The external declarations of stripped tokens, in order."""
    found, begin, depth, body = [], 0, 0, False
    for at, token in enumerate(tokens):
        if token.text in OPENING:
            if depth == 0:
                body = token.text == "{" and at > begin and tokens[at - 1].text == ")"
            depth += 1
        elif token.text in CLOSING:
            ends = depth == 1 and body and token.text == "}"
            depth = max(0, depth - 1)
            if ends:
                found.append(Chunk(tokens[begin:at + 1], True))
                begin = at + 1
        elif token.text == ";" and depth == 0:
            found.append(Chunk(tokens[begin:at + 1], True))
            begin = at + 1
    if begin < len(tokens):
        found.append(Chunk(tokens[begin:], False))
    return found


def name_of(chunk):
    """The token of the name of a function: the first word outside of braces with a list behind it that begins with no star."""
    for at, token in enumerate(chunk.tokens[:-2]):
        if token.text == "{":
            return None
        follows = chunk.tokens[at + 1].text, chunk.tokens[at + 2].text
        if (token.text[0].isalpha() or token.text[0] == "_") and follows[0] == "(" and follows[1] != "*":
            return token
    return None
