"""Whether a form outside the language may stand in a chunk: a first look at its spellings, which costs little and never says no wrongly."""
import re

from .chunks import DECLARATION, FUNCTION
from .tokens import NOWHERE
from .words import CONTROL, FOREIGN

# what may need a look, in spellings with one blank between; it is found too often rather than not
PAIRS = ["( {", ", [", ", . ", "{ [", "{ . ", "? :", "goto *"]
HINTS = [
    ("...", re.compile(r"[^,(] \.\.\.")), ("&&", re.compile(r"[^\w)\]\"'] && \w")),
    ("0", re.compile(r"0(?<!\w0)(?:[xX][0-9a-fA-F.]*[pP]|[bB][01])")),
    ("u", re.compile(r"(?<![\w\"'])u8?[\"']")), ("U", re.compile(r"(?<![\w\"'])U[\"']")),
    ("{", re.compile(r"\( (?:\w+ )*(?:struct|union|enum) (?:\w+ )?\{"))]


def needs_a_look(source, chunk):
    """Whether a form outside the language may stand in a chunk. A yes costs time alone."""
    texts, body = source.own_texts(chunk), chunk.body - chunk.first
    if chunk.kind != FUNCTION:
        return chunk.kind != DECLARATION or may_be_foreign(texts) or has_odd_brace(texts, NOWHERE)
    return may_be_foreign(texts[:body]) or may_be_foreign(texts[body + 1:]) or has_odd_brace(texts, body)


def may_be_foreign(texts):
    """Whether a form outside the language may stand in these spellings, odd braces apart."""
    if not FOREIGN.isdisjoint(texts):
        return True
    joined = " ".join(texts)
    if any(pair in joined for pair in PAIRS):
        return True
    return any(sign in joined and hint.search(joined) is not None for sign, hint in HINTS)


def has_odd_brace(texts, body):
    """Whether a `{` stands behind a `)` that doesn't end the head of a statement, the function's own body apart."""
    behind = (k for k, text in enumerate(texts) if text == "{" and k and texts[k - 1] == ")" and k != body)
    return any(texts[opening_of(texts, k - 1) - 1] not in CONTROL for k in behind)


def opening_of(texts, close):
    """The index of the parenthesis that the one at close ends."""
    k, depth = close, 1
    while depth:
        k -= 1
        depth += (texts[k] == ")") - (texts[k] == "(")
    return k
