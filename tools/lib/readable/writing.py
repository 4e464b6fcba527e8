"""The last step: the text. What stays stands where it stood; what was put in stands where there is room, or on a line of its own.

Such a line stands between two marker lines, so that the places of what follows stay. What was moved keeps its line and column too."""
import bisect

from .chunks import GONE, PROTOTYPE, WHOLE
from .places import marker
from .tokens import NOWHERE, spellings


class Writer:
    """Makes the text of a source with its chunks as they stand. What was made of a chunk is kept until that is changed again."""

    def __init__(self, source):
        self.source = source
        self.made = {}

    def text(self):
        """The text."""
        pieces, done = [], 0
        for chunk in self.source.chunks:
            if chunk.state == WHOLE and chunk.tokens is None and not chunk.odd_assembler:
                continue
            pieces.append(self.source.text[done:chunk.begin])
            pieces.append(self._made(chunk))
            done = chunk.end
        pieces.append(self.source.text[done:])
        return "".join(pieces)

    def _made(self, chunk):
        """The text of a chunk that was changed or cut."""
        state, tokens, text = self.made.get(chunk, (None, None, ""))
        if state != chunk.state or tokens is not chunk.tokens:
            text = chunk_text(self.source, chunk)
            self.made[chunk] = chunk.state, chunk.tokens, text
        return text


def chunk_text(source, chunk):
    """What stands in place of a chunk that was changed or cut."""
    if chunk.state == PROTOTYPE and chunk.tokens is None:
        return head_text(source, chunk)
    blank = blanked(source, chunk.begin, chunk.end)
    if chunk.state == GONE:
        return blank
    standing, last = in_order(source, chunk)
    used = standing[-1][0].at + len(standing[-1][0].text) - chunk.begin if standing else 0
    canvas = list(blank[:used])
    pieces, done = [], 0
    for at, tokens in painted(canvas, standing, chunk.begin):
        pieces += ["".join(canvas[done:at]), own_lines(source, chunk.begin + at, tokens)]
        done = at
    pieces += ["".join(canvas[done:]), blank[used:]]
    return "".join(pieces + ([own_lines(source, chunk.end, last)] if last else []))


def head_text(source, chunk):
    """What stands in place of a function of which its own head is left."""
    behind = source.starts[chunk.body]
    pieces, done = [], chunk.begin
    for begin, end in chunk.groups:
        if done <= begin < behind:
            pieces += [source.text[done:begin], blanked(source, begin, end)]
            done = end
    return "".join([*pieces, source.text[done:behind], ";", blanked(source, behind + 1, chunk.end)])


def blanked(source, begin, end):
    """What stands between two positions as blanks, but for line feeds and marker lines."""
    pieces, done = [], begin
    for k in range(bisect.bisect_left(source.line_starts, begin), bisect.bisect_left(source.line_starts, end)):
        start, stop, line = source.lines[k]
        pieces += [blanks(source.text[done:start]), line]
        done = stop
    return "".join(pieces) + blanks(source.text[done:end])


def blanks(text):
    """Blanks in place of a text, but for its line feeds."""
    if "\n" not in text:
        return " " * len(text)
    return "\n".join(" " * len(line) for line in text.split("\n"))


def in_order(source, chunk):
    """The tokens that can stand at their old position, each with those that come before it and can't, and those behind the last."""
    standing, waiting, lowest = [], [], chunk.begin
    for token in source.tokens(chunk):
        if token.at >= lowest and fits(source, token):
            standing.append((token, waiting))
            waiting, lowest = [], token.at + 1
        else:
            waiting.append(token)
    return standing, waiting


def fits(source, token):
    """Whether a token isn't longer than what stood at its position."""
    return len(token.text) <= len(source.texts[bisect.bisect_left(source.starts, token.at)])


def painted(canvas, standing, begin):
    """Puts tokens onto the canvas. Gives those for which there is no room, as pairs of an index and tokens."""
    free, breaks = 0, []
    for token, before in standing:
        at = token.at - begin
        if before and not painted_before(canvas, before, at, free):
            breaks.append((at, before))
        canvas[at:at + len(token.text)] = list(token.text)
        free = at + len(token.text)
    return breaks


def painted_before(canvas, tokens, at, free):
    """Puts tokens directly in front of an index, if all are new and there is room on the line."""
    spelled = " ".join(spellings(tokens))
    room = at - max(free, line_start(canvas, at))
    if any(token.at != NOWHERE for token in tokens) or room < len(spelled) + 2:
        return False
    canvas[at - len(spelled) - 1:at - 1] = list(spelled)
    return True


def line_start(canvas, at):
    """The index at which the line of an index begins."""
    while at > 0 and canvas[at - 1] != "\n":
        at -= 1
    return at


def own_lines(source, at, tokens):
    """Tokens on lines of their own in front of a position, and what brings the text back to its place."""
    file, line = source.places.line(at)
    pieces = [f"\n{marker(line, file)}\n"]
    now, column = (file, line), 1
    for token in tokens:
        if token.at != NOWHERE:
            place, wanted = source.places.line(token.at), source.places.column(token.at)
            if place != now or wanted < column:
                pieces.append(f"\n{marker(place[1], place[0])}\n")
                now, column = place, 1
            pieces.append(" " * (wanted - column))
            column = wanted
        pieces.append(token.text + " ")
        column += len(token.text) + 1
    pieces.append(f"\n{marker(line, file)}\n" + " " * (source.places.column(at) - 1))
    return "".join(pieces)
