"""Bodies of functions of headers, found without cutting them into tokens: most of them are pruned."""
import bisect
import re

from .places import Places
from .shapes import are_pairs, is_balanced
from .stripping import Stripped
from .tokens import BRACKETS, TEXT

LINE = re.compile(r"\n([ \t]*#[^\n]*)")
BEGIN = re.compile(r"\)[ \t\n]*\{")
SIGN = re.compile(r"[{}\"'/#]")
ODD = re.compile(r"[\"'#]|//")
HIDING = re.compile(r"[\"'#]|asm|__attribute")
BRACKETS_ALONE = {character: None for character in range(256) if chr(character) not in BRACKETS}


class Bodies:
    """The bodies that are left out of the tokens of a text: `ends` has for the position behind each `{` that of its `}`."""

    def __init__(self, text, leaves_out):
        self.text, self.ends, self._made = text, {}, {}
        # a `{` in a comment would be taken for one of the text
        if leaves_out and "/*" not in text:
            self._find(Places(text, lines_of(text)))
        if not all(self._is_balanced(begin) for begin in self.ends):
            self.ends = {}  # the fault is told by the tokens of the whole
        self.has_statement_expression = any(surely_has_one(text[begin:end]) for begin, end in self.ends.items())

    def _find(self, places):
        """Finds the bodies of headers by their brackets."""
        at = 0
        while places.fault is None and (found := BEGIN.search(self.text, at)) is not None:
            at = found.end()
            close = self._close(at - 1) if not places.in_main(at - 1) and self._is_plain_line(found.start()) else 0
            if close:
                self.ends[at], at = close, close

    def _is_plain_line(self, at):
        """Whether a position stands in no literal, in no comment and in no line that begins with #."""
        return ODD.search(self.text, self.text.rfind("\n", 0, at) + 1, at) is None

    def _close(self, at):
        """The position of the `}` of the `{` at a position, or 0 where that isn't sure."""
        depth = 0
        while (found := SIGN.search(self.text, at)) is not None:
            sign, i = found.group(), found.start()
            at = i + 1
            if sign == "{":
                depth += 1
            elif sign == "}":
                depth -= 1
                if depth == 0:
                    return i
            elif sign != "/" or self.text.startswith("/", at):
                at = self._behind(sign, i)
                if not at:
                    return 0
        return 0

    def _is_balanced(self, begin):
        """Whether each bracket of a body has a partner of its kind. Mostly that is seen without its tokens."""
        text = self.text[begin:self.ends[begin]]
        plain = TEXT.sub("", LINE.sub("", text)) if ODD.search(text) is not None else text
        return are_pairs(plain.translate(BRACKETS_ALONE)) or is_balanced(self.made(begin).shape)

    def _behind(self, sign, i):
        """The position behind the literal or the line that begins with a sign at i, or 0 where it is neither."""
        if sign == "#":
            begin = self.text.rfind("\n", 0, i) + 1
            return 0 if self.text[begin:i].strip(" \t") else self.text.find("\n", i) + 1
        literal = TEXT.match(self.text, i)
        return literal.end() if literal is not None else 0

    def stripped(self):
        """What metalcheck strips of the text and what it keeps, with positions in the whole text."""
        if not self.ends:
            return Stripped(self.text)
        places, removed, kept, done = [], [0], [], 0
        for begin, end in self.ends.items():
            kept.append(self.text[done:begin])
            places.append(begin - removed[-1])
            removed.append(removed[-1] + end - begin)
            done = end
        found = Stripped("".join([*kept, self.text[done:]]))
        found.starts = moved(found.starts, places, removed)

        def whole(at):
            """A position in the whole text."""
            return at + removed[bisect.bisect_right(places, at)]
        found.groups = [(whole(begin), whole(end - 1) + 1, *rest) for begin, end, *rest in found.groups]
        odd = {whole(begin): line for begin, _, line in found.lines}
        lines = {begin: line for begin, _, line in lines_of(self.text)}
        found.lines = [(begin, begin + len(line), line) for begin, line in sorted({**odd, **lines}.items())]
        return found

    def made(self, begin):
        """What is kept and stripped of the body at a position, with positions in the whole text."""
        if begin not in self._made:
            found = Stripped(self.text[begin:self.ends[begin]])
            found.starts = [begin + at for at in found.starts]
            found.groups = [(begin + first, begin + behind, *rest) for first, behind, *rest in found.groups]
            self._made[begin] = found
        return self._made[begin]


def surely_has_one(text):
    """Whether a statement expression stands in a text, and surely in nothing that metalcheck strips."""
    return "({" in text and HIDING.search(text) is None


def moved(starts, places, removed):
    """Positions in a text from which something was removed at these places, as positions in the whole."""
    found, done = [], 0
    for place, before in zip([*places, None], removed):
        behind = bisect.bisect_left(starts, place, done) if place is not None else len(starts)
        found += [at + before for at in starts[done:behind]] if before else starts[done:behind]
        done = behind
    return found


def lines_of(text):
    """The lines of a text without comments that begin with #, as triples of begin, end and line."""
    return [(found.start(), found.end() - 1, found[1]) for found in LINE.finditer("\n" + text)]
