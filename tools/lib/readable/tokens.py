"""Tokens: how a preprocessed text is cut into them, and lists of them that are rewritten."""
import re
from itertools import accumulate

from .words import CLOSING, OPENING

NOWHERE = -1
BRACKETS = OPENING | CLOSING
TEXT = re.compile(r"""(?:L|u8|u|U)?"(?:\\[^\n]|[^"\\\n])*"|[LuU]?'(?:\\[^\n]|[^'\\\n])+'""")
SHORT = 40
# an attribute with its group is one piece where that is plain; what stands most often comes first
PIECE = re.compile(r"""(
    __attribute__[ ]?\(\([^()"'/\#\n]*(?:\([^()"'/\#\n]*\)[^()"'/\#\n]*)*\)\)
  | (?![LuU]8?["'])[A-Za-z_$][A-Za-z0-9_$]*
  | [;,(){}[\]]
  | ^[ \t]*\#[^\n]*                                     # a marker line or a pragma
  | -> | [-+*/%&|^<>=!]= | \+\+ | -- | && | \|\| | <<=? | >>=? | \.\.\.
  | 0[xX][0-9a-fA-F.]*[pP][+-]?[0-9]+[A-Za-z0-9_.]*     # a hexadecimal floating constant
  | \.?[0-9](?:[eE][+-]|[A-Za-z0-9_.])*                 # any other number
  | /\*.*?\*/ | //[^\n]*                                # a comment
  | """ + TEXT.pattern + r"""
  | [A-Za-z_$][A-Za-z0-9_$]*
  | [^\ \t\v\f\r\n]
)""", re.S | re.M | re.X)


class Token:
    """A token: its spelling, and the position in the text where it stood, or NOWHERE if it was put in."""

    __slots__ = ("text", "at")

    def __init__(self, text, at=NOWHERE):
        self.text = text
        self.at = at

    def __repr__(self):
        return self.text


def put_in(spelled):
    """New tokens, from their spellings with blanks between."""
    return [Token(text) for text in spelled.split()]


def copied(tokens):
    """The same spellings, as tokens that are put in."""
    return [Token(token.text) for token in tokens]


def spellings(tokens):
    """The spellings of tokens."""
    return [token.text for token in tokens]


def scanned(text):
    """The spellings and positions of all pieces of a text: tokens, comments, lines that begin with #, and attributes that are one piece."""
    pieces = PIECE.split(text)
    return pieces[1::2], list(accumulate(map(len, pieces)))[:-1:2]


class Seen:
    """What is asked again and again of one list of tokens, which isn't changed once it is made."""

    def __init__(self, tokens):
        self.tokens, self.texts = tokens, spellings(tokens)
        self.words = frozenset(self.texts)
        self._partners = None

    def partners(self):
        """For the index of each bracket that of its partner, both ways."""
        if self._partners is None:
            self._partners = partners_of(self.texts)
        return self._partners


class Last:
    """The list of tokens that was asked about last, shorter ones apart."""

    seen = Seen([])


def seen(tokens):
    """What is known of a list of tokens."""
    if Last.seen.tokens is tokens and len(Last.seen.texts) == len(tokens):
        return Last.seen
    found = Seen(tokens)
    if len(tokens) > SHORT:
        Last.seen = found
    return found


def names_any(tokens, texts):
    """Whether one of these spellings, which are a set, stands among tokens."""
    return not texts.isdisjoint(seen(tokens).words)


def partners(tokens):
    """For the index of each bracket that of its partner, both ways. Brackets without one aren't in it."""
    return seen(tokens).partners() if len(tokens) > SHORT else partners_of(spellings(tokens))


def partners_of(texts):
    """The same of spellings."""
    found, waiting = {}, []
    for i, text in [(i, text) for i, text in enumerate(texts) if text in BRACKETS]:
        if text in OPENING:
            waiting.append(i)
        elif waiting:
            opening = waiting.pop()
            found[opening], found[i] = i, opening
    return found


def enclosing(tokens):
    """For each index that of the innermost bracket that is open in front of it, or NOWHERE."""
    found, waiting = [], [NOWHERE]
    for i, token in enumerate(tokens):
        if token.text in CLOSING and len(waiting) > 1:
            waiting.pop()
        found.append(waiting[-1])
        if token.text in OPENING:
            waiting.append(i)
    return found


def parts(tokens, separator=","):
    """The lists between separators that stand in no bracket."""
    found, depth = [[]], 0
    for token in tokens:
        depth += (token.text in OPENING) - (token.text in CLOSING)
        if token.text == separator and depth == 0:
            found.append([])
        else:
            found[-1].append(token)
    return found


def index_of(tokens, wanted, start=0):
    """The index of the first token with one of these spellings that stands in no bracket, from start on, or NOWHERE."""
    depth = 0
    for i in range(start, len(tokens)):
        text = tokens[i].text
        if depth == 0 and text in wanted:
            return i
        depth += (text in OPENING) - (text in CLOSING)
    return NOWHERE


def text_at(tokens, i):
    """The spelling at an index, or nothing outside the list."""
    return tokens[i].text if 0 <= i < len(tokens) else ""


def apply(rule, triggers, tokens, context):
    """The tokens with each place replaced that a rule takes.

    A rule is asked at each token whose spelling is among the triggers, as rule(tokens, i, partner, context). It answers None, or the new
    tokens and the index behind those that they replace.
    """
    known = seen(tokens)
    if triggers.isdisjoint(known.words):
        return tokens
    partner, result, done = known.partners(), [], 0
    for i in [i for i, text in enumerate(known.texts) if text in triggers]:
        found = rule(tokens, i, partner, context) if i >= done else None
        if found is not None:
            result += tokens[done:i]
            result += found[0]
            done = found[1]
    return result + tokens[done:] if done else tokens
