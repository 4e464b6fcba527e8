"""A text in chunks: one for each declaration and each function, as metalcheck cuts it, but with whole old-style definitions."""
import bisect
import math
import re

from .bodies import Bodies
from .places import Places
from .shapes import PARTNER, behind_group, is_balanced
from .tokens import NOWHERE, Token
from .words import CLOSING, OPENING, WORD, is_name

DECLARATION, FUNCTION, OLD_STYLE, LITERAL, REST = "declaration", "function", "old-style definition", "literal", "rest"
WHOLE, PROTOTYPE, TRIMMED, GONE = "whole", "prototype", "trimmed", "gone"
MOST_OLD_PARAMETERS = 40
NEXT = re.compile(r"[;([{]")


class Chunk:
    """A declaration or a function: its tokens [first, behind) of the text, the positions that it covers, and what becomes of it."""

    def __init__(self, first, behind, body=NOWHERE):
        self.first, self.behind, self.body = first, behind, body
        self.kind = DECLARATION
        self.begin = self.end = 0
        self.name = None
        self.odd_assembler = self.cleanup = False
        self.groups = []            # the positions of what is stripped in it and before it, as pairs of begin and end
        self.state = WHOLE
        self.tokens = None          # what stands in place of its own tokens, or of its own head, where that was changed
        self.forms = set()          # the forms outside the language that stand in it as it came
        self.left = set()           # those that are left after rewriting
        self.fault = None           # what metalcheck said of it
        self.pruned = False
        self.was_trimmed = False    # trimming was tried
        self.classes = {}           # the rewritings that were done in it, with their number
        self.words = None           # its own spellings as a set, once they were asked for

    def is_function(self):
        """Whether it is a function with its body."""
        return self.kind in (FUNCTION, OLD_STYLE)

    def reasons(self):
        """Why it isn't read, in words."""
        return sorted(self.left) or [self.fault or "not complete"]


class Source:
    """A preprocessed text: its tokens without those that metalcheck strips, its chunks, and its places."""

    def __init__(self, text, leaves_out=False):
        """Bodies of functions of headers may be left out, until they are asked for."""
        self.text, self.bodies = text, Bodies(text, leaves_out)
        stripped = self.bodies.stripped()
        self.texts, self.starts, self.lines = stripped.texts, stripped.starts, stripped.lines
        self.line_starts = [line[0] for line in self.lines]
        self.places = Places(text, self.lines)
        self.has_statement_expression = "({" in stripped.shape or self.bodies.has_statement_expression
        self.fault = self.places.fault or (None if is_balanced(stripped.shape) else self._unbalanced())
        self.chunks = [] if self.fault else whole_definitions(self, plain_chunks(stripped.shape))
        own = {self.starts[chunk.body] + 1 for chunk in self.chunks if chunk.kind == FUNCTION}
        others = [begin for begin in self.bodies.ends if begin not in own] if self.chunks else []
        self._put_in(others)
        self._settle(sorted([*stripped.groups, *(group for begin in others for group in self.bodies.made(begin).groups)]))

    def is_left_out(self, chunk):
        """Whether the body of a chunk has no tokens."""
        return chunk.kind == FUNCTION and chunk.body + 2 == chunk.behind and self.starts[chunk.body] + 1 in self.bodies.ends

    def all_texts(self, chunk):
        """The spellings of a chunk as it came, with those that were left out."""
        left_out = self.bodies.made(self.starts[chunk.body] + 1).texts if self.is_left_out(chunk) else []
        return self.own_texts(chunk) + left_out

    def put_in_bodies(self, chunks):
        """Puts the tokens of bodies in, where they were left out."""
        chunks = [chunk for chunk in chunks if self.is_left_out(chunk)]
        for chunk in chunks:
            for _, _, odd, cleanup in self.bodies.made(self.starts[chunk.body] + 1).groups:
                chunk.odd_assembler |= odd
                chunk.cleanup |= cleanup
        self._put_in(sorted(self.starts[chunk.body] + 1 for chunk in chunks))

    def _put_in(self, begins):
        """Puts the tokens in that were left out at these positions, which are in order."""
        if not begins:
            return
        texts, starts, done, shifts = [], [], 0, []
        for begin in begins:
            behind = bisect.bisect_left(self.starts, begin)
            body = self.bodies.made(begin)
            texts += self.texts[done:behind] + body.texts
            starts += self.starts[done:behind] + body.starts
            shifts.append((behind, len(body.texts)))
            done = behind
        self.texts, self.starts = texts + self.texts[done:], starts + self.starts[done:]
        move_chunks(self.chunks, shifts)

    def _unbalanced(self):
        """The first bracket without a partner of its kind, in words, or nothing."""
        waiting = []
        for i in [k for k, text in enumerate(self.texts) if text in OPENING or text in CLOSING]:
            text = self.texts[i]
            if text in OPENING:
                waiting.append(i)
            elif not waiting or self.texts[waiting.pop()] != PARTNER[text]:
                return self._without_partner(i)
        return self._without_partner(waiting[-1]) if waiting else None

    def _without_partner(self, i):
        """The message about the bracket at an index."""
        return f"the text isn't balanced: `{self.texts[i]}` at {self.places.named(self.starts[i], 'line')} has no partner"

    def _settle(self, groups):
        """Gives each chunk its positions, which cover the stripped words in and before it, and its name."""
        end, waiting = 0, iter(groups + [None])
        group = next(waiting)
        for chunk in self.chunks:
            last = chunk.behind - 1
            chunk.begin, chunk.end = self.starts[chunk.first], self.starts[last] + len(self.texts[last])
            while group is not None and group[0] < chunk.end:
                chunk.begin = min(chunk.begin, max(group[0], end))
                chunk.groups.append(group[:2])
                chunk.odd_assembler |= group[2]
                chunk.cleanup |= group[3]
                group = next(waiting)
            end = chunk.end
            chunk.name = declared_name(self.texts[chunk.first:chunk.body if chunk.body >= 0 else chunk.behind])

    def tokens(self, chunk):
        """A chunk's tokens as they stand, or as they were changed."""
        if chunk.tokens is not None:
            return chunk.tokens
        return self.own_head(chunk) if chunk.state == PROTOTYPE else self.own_tokens(chunk)

    def own_head(self, chunk):
        """The tokens of a function as it came up to its body, and a semicolon in place of that."""
        return self.own_tokens(chunk, chunk.body) + [Token(";", self.starts[chunk.body])]

    def own_tokens(self, chunk, behind=None):
        """The tokens of a chunk as it came, up to an index of the text where one is given."""
        within = slice(chunk.first, chunk.behind if behind is None else behind)
        return list(map(Token, self.texts[within], self.starts[within]))

    def own_texts(self, chunk):
        """The spellings of a chunk as it came."""
        return self.texts[chunk.first:chunk.behind]

    def standing_texts(self, chunk):
        """The spellings of a chunk as it stands now."""
        if chunk.tokens is not None:
            return [token.text for token in chunk.tokens]
        return [*self.texts[chunk.first:chunk.body], ";"] if chunk.state == PROTOTYPE else self.own_texts(chunk)

    def own_words(self, chunk):
        """The spellings of a chunk as it came, as a set."""
        if chunk.words is None:
            chunk.words = frozenset(self.own_texts(chunk))
        return chunk.words

    def spelled(self, chunk):
        """A chunk's spellings with blanks between, as they are to be read."""
        return " ".join(self.standing_texts(chunk))

    def body_at(self, chunk):
        """The position of a function's body, or of the chunk where it has none."""
        return self.starts[chunk.body if chunk.body >= 0 else chunk.first]

    def in_main(self, chunk):
        """Whether a chunk stands in the main file."""
        return self.places.in_main(self.body_at(chunk))

    def standing_at(self, file, line):
        """The chunks that aren't gone of which a part stands on a presumed line."""
        lines = list(self.places.lines_at(file, line))
        return [chunk for chunk in self.chunks
                if chunk.state != GONE and any(chunk.begin < end and begin < chunk.end for begin, end in lines)]


def move_chunks(chunks, shifts):
    """Moves chunks by what was put in: pairs of an index and a number of tokens."""
    waiting, moved = iter([*shifts, (math.inf, 0)]), 0
    at, number = next(waiting)
    for chunk in chunks:
        body, behind = chunk.body, chunk.behind
        chunk.first += moved
        chunk.body += moved if body != NOWHERE else 0
        while at < behind:
            moved += number
            chunk.body += number if at <= body else 0
            at, number = next(waiting)
        chunk.behind += moved


def plain_chunks(shape):
    """The chunks as metalcheck has them: up to a `;` in no bracket, or to the `}` of a `{` in no bracket directly behind a `)`."""
    found, first, at = [], 0, 0
    while (breaking := NEXT.search(shape, at)) is not None:
        i = breaking.start()
        at = behind_group(shape, i) if shape[i] != ";" else i + 1
        is_body = shape[i] == "{" and i > first and shape[i - 1] == ")"
        if is_body or shape[i] == ";":
            found.append(Chunk(first, at, i if is_body else NOWHERE))
            first = at
    if first < len(shape):
        found.append(Chunk(first, len(shape)))
        found[-1].kind = REST
    return found


def whole_definitions(source, chunks):
    """The chunks, with old-style definitions and initial values that are compound literals put together from their pieces."""
    found, texts = [], source.texts
    for chunk in chunks:
        if chunk.body != NOWHERE:
            settle_kind(texts, chunk)
        if found and found[-1].kind == LITERAL and chunk.body == NOWHERE:
            found[-1].behind = chunk.behind
            found[-1].kind = DECLARATION if texts[chunk.behind - 1] == ";" else LITERAL
        elif texts[chunk.first] == "{" and (head := old_head(texts, found)) is not None:
            found[head:] = old_definition(texts, found[head].first, chunk)
        else:
            found.append(chunk)
    return found


def settle_kind(texts, chunk):
    """A chunk that ends in a `}` is a function, or the beginning of a declaration with a compound literal behind `=`."""
    depth = 0
    for text in texts[chunk.first:chunk.body]:
        depth += (text in OPENING) - (text in CLOSING)
        if text == "=" and depth == 0:
            chunk.body, chunk.kind = NOWHERE, LITERAL
            return
    chunk.kind = FUNCTION


def old_head(texts, chunks):
    """The index of the chunk with the head of the old-style definition whose body comes behind these chunks, or None."""
    for k in range(len(chunks) - 1, max(-1, len(chunks) - 1 - MOST_OLD_PARAMETERS), -1):
        if is_old_head(texts[chunks[k].first:chunks[k].behind]):
            return k
    return None


def is_old_head(texts):
    """Whether a list of names in parentheses, behind a name and before a word, begins an old-style definition."""
    for i in range(1, len(texts) - 2):
        if texts[i] == "(" and is_name(texts[i - 1]):
            k = i + 1
            while k + 1 < len(texts) and is_name(texts[k]) and texts[k + 1] == ",":
                k += 2
            return k + 2 < len(texts) and is_name(texts[k]) and texts[k + 1] == ")" and WORD.match(texts[k + 2]) is not None
    return False


def old_definition(texts, first, chunk):
    """The old-style definition whose body begins with a chunk, and the chunk of what follows there."""
    depth = 0
    for i in range(chunk.first, chunk.behind):
        depth += (texts[i] in OPENING) - (texts[i] in CLOSING)
        if depth == 0:
            break
    definition = Chunk(first, i + 1, chunk.first)
    definition.kind = OLD_STYLE
    return [definition] + ([later(texts, i + 1, chunk)] if i + 1 < chunk.behind else [])


def later(texts, first, chunk):
    """What hangs behind the body of an old-style definition in one chunk with it: a declaration or one function."""
    found, depth = Chunk(first, chunk.behind), 0
    found.kind = REST if chunk.kind == REST else DECLARATION
    for i in range(first, chunk.behind):
        if texts[i] == "{" and depth == 0 and texts[i - 1] == ")":
            found.body, found.kind = i, FUNCTION
            break
        depth += (texts[i] in OPENING) - (texts[i] in CLOSING)
    return found


def declared_name(texts):
    """The name that a function or declaration is called by in messages."""
    i = next((i for i, text in enumerate(texts) if text == "(" and i), 0)
    if i and is_name(texts[i - 1]):
        return texts[i - 1]
    inner = next((word for word in texts[i:] if is_name(word)), None) if i else None
    return inner or next((word for word in reversed(texts) if is_name(word)), "?")
