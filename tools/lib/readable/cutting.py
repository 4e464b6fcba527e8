"""Cutting: a function becomes its prototype, a declaration loses its initial values, and what still isn't read goes."""
from .chunks import DECLARATION, FUNCTION, GONE, OLD_STYLE, PROTOTYPE, TRIMMED, WHOLE
from .foreign import forms
from .rewriting.initials import without_values
from .tokens import Token, partners
from .words import CLOSING, OPENING, is_name


def head(tokens):
    """The tokens in front of a function's body and the brace that begins it, or None twice."""
    depth, before = 0, ""
    for i, token in enumerate(tokens):
        if token.text == "{" and depth == 0 and before == ")":
            return tokens[:i], token
        depth += (token.text in OPENING) - (token.text in CLOSING)
        before = token.text
    return None, None


def prototype(source, chunk):
    """The tokens of a function's prototype, or None where it has no head."""
    if chunk.kind == FUNCTION and chunk.tokens is None:
        return source.own_head(chunk)
    tokens = source.tokens(chunk)
    if chunk.kind == OLD_STYLE and chunk.tokens is None:
        return old_prototype(tokens)
    before, brace = head(tokens)
    return None if before is None else before + [Token(";", brace.at)]


def old_prototype(tokens):
    """The prototype of an old-style definition, without its parameters."""
    opening = next(i for i in range(1, len(tokens)) if tokens[i].text == "(" and is_name(tokens[i - 1].text))
    close = partners(tokens)[opening]
    return tokens[:opening + 1] + [tokens[close], Token(";")]


def cut(source, names, chunk, fault=None):
    """One step down: a function to its prototype, a declaration to one without values, and what is that already to nothing."""
    chunk.fault = chunk.fault or fault
    if chunk.is_function() and chunk.state == WHOLE:
        shorter = prototype(source, chunk)
        if shorter is not None and not forms(shorter, names):
            chunk.state, chunk.tokens = PROTOTYPE, shorter
            return
    elif chunk.kind == DECLARATION and chunk.state == WHOLE and trim(source, names, chunk):
        return
    chunk.state = GONE


def trim(source, names, chunk):
    """Takes the initial values of a declaration away, once. Says whether something is left that may be read."""
    if chunk.was_trimmed:
        return False
    chunk.was_trimmed = True
    tokens = source.tokens(chunk)
    left = without_values(tokens, names)
    if len(left) == len(tokens) or forms(left, names):
        return False
    chunk.state, chunk.tokens = TRIMMED, left
    return True


def trim_those_that_name(source, names, lost):
    """Trims each declaration whose initial values name something that is lost, without asking for each of them."""
    for chunk in source.chunks:
        if chunk.kind == DECLARATION and chunk.state == WHOLE and not chunk.was_trimmed:
            texts = source.own_texts(chunk)
            if "=" in texts and not lost.isdisjoint(values_of(texts)):
                cut(source, names, chunk, "Undeclared")


def values_of(texts):
    """The spellings from the first `=` in no bracket on."""
    depth = 0
    for k, text in enumerate(texts):
        if text == "=" and depth == 0:
            return texts[k:]
        depth += (text in OPENING) - (text in CLOSING)
    return []


def names_that_are_lost(source):
    """The names in all declarations and functions that are gone."""
    return {text for chunk in source.chunks if chunk.state == GONE for text in source.all_texts(chunk) if is_name(text)}
