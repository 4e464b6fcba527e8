"""What metalcheck strips of a text before it reads: marker lines, comments, and words of GNU C, most of them with a group behind."""
import re
from itertools import compress

from .shapes import CHARACTERS, WORD_OF_GROUP, behind_group, shape_of
from .tokens import scanned
from .words import ASSEMBLER, ASSEMBLER_QUALIFIERS, ODD_QUALIFIERS

CLEANUP = {"cleanup", "__cleanup__"}
NAMES_CLEANUP = re.compile(r"\b(?:cleanup|__cleanup__)\b")
LINE, COMMENT, ATTRIBUTE = "@", "/", "a"
# for the character of each piece whether it stays
STAYS = bytes(chr(character) not in (LINE, COMMENT, ATTRIBUTE) for character in range(256))


class Stripped:
    """The tokens that metalcheck keeps, their positions and their shape; the lines that begin with # as triples of begin, end and line; and
    the groups that it strips: begin, end, whether it knows their spelling not, whether they name a cleanup."""

    def __init__(self, text):
        self.texts, self.starts = scanned(text)
        self.shape = shape_of(self.texts, {**CHARACTERS, **odd_characters(set(self.texts))})
        self.lines = [(at, at + len(piece), piece) for _, piece, at in self._of(LINE)]
        stays = bytearray(self.shape.encode().translate(STAYS))
        self.groups = sorted([*self._attributes(), *self._groups(stays)])
        self.texts, self.starts = list(compress(self.texts, stays)), list(compress(self.starts, stays))
        self.shape = "".join(compress(self.shape, stays))

    def _of(self, character):
        """The pieces of a kind with their indices and positions."""
        k = self.shape.find(character)
        while k >= 0:
            yield k, self.texts[k], self.starts[k]
            k = self.shape.find(character, k + 1)

    def _attributes(self):
        """The groups that are one piece."""
        for _, piece, at in self._of(ATTRIBUTE):
            yield at, at + len(piece), False, NAMES_CLEANUP.search(piece) is not None

    def _groups(self, stays):
        """The groups of words, which don't stay."""
        done = 0
        for i, _, at in self._of(WORD_OF_GROUP):
            behind, odd = group_behind(self.texts, self.shape, i) if i >= done else (0, False)
            if behind:
                done = behind
                stays[i:behind] = bytes(behind - i)
                yield at, self.starts[behind - 1] + len(self.texts[behind - 1]), odd, not CLEANUP.isdisjoint(self.texts[i:behind])


def odd_characters(spellings):
    """The characters of those spellings that are no tokens: lines that begin with #, comments, and attributes as one piece."""
    found = {}
    for text in spellings:
        if text[0] in "# \t":
            found[text] = LINE
        elif text[0] == "/" and text[:2] in ("/*", "//"):
            found[text] = COMMENT
        elif text[-1] == ")" and len(text) > 1 and text[0] == "_":
            found[text] = ATTRIBUTE
    return found


def group_behind(texts, shape, i):
    """The index behind the stripped word at i with its group in parentheses, 0 if it has none, and whether its spelling is odd."""
    if texts[i] == "__extension__":
        return i + 1, False
    k, odd = next_token(shape, i), False
    while texts[i] in ASSEMBLER and k < len(texts) and texts[k] in ASSEMBLER_QUALIFIERS:
        odd = odd or texts[k] in ODD_QUALIFIERS
        k = next_token(shape, k)
    return (behind_group(shape, k) if shape[k:k + 1] == "(" else 0), odd


def next_token(shape, i):
    """The index of the next piece that is neither a line that begins with # nor a comment."""
    i += 1
    while shape[i:i + 1] in (LINE, COMMENT):
        i += 1
    return i
