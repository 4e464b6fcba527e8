"""Finds what of later C and of GNU C a declaration has that isn't read, by its tokens alone.

A form is a key of the table of ways round. What only a reader of types can tell, as a declaration behind a statement, the compiler says
(`compiler`).
"""
import re

from .cursor import BASIC, KEYWORDS

WORDS = {
    "typeof": "typeof", "__typeof": "typeof", "__typeof__": "typeof", "typeof_unqual": "typeof", "__auto_type": "typeof",
    "_Static_assert": "static assertion", "static_assert": "static assertion", "_Generic": "generic selection",
    "_Noreturn": "word of later C", "_Thread_local": "word of later C", "__thread": "word of later C", "_Alignas": "word of later C",
    "_Atomic": "word of later C",
    **{word: "type that isn't read" for word in (
        "_Complex", "__complex__", "_Imaginary", "_BitInt", "_Float16", "__bf16", "_Decimal32", "_Decimal64", "_Decimal128", "__int128_t",
        "__uint128_t")},
    "__builtin_types_compatible_p": "built-in with a type", "__builtin_convertvector": "built-in with a type",
    "__label__": "local label",
}
ALIGNMENT = frozenset("_Alignof alignof __alignof __alignof__".split())
TYPE_WORDS = BASIC | {"struct", "union", "enum", "const", "volatile"}
BODIES = frozenset(["struct", "union", "enum"])
BEFORE_OPERAND = frozenset("( [ { , = ; return ? : && || ! == != += |= &=".split())
# a tree is 1,000 high at most; a function, its block and the statement in it are three levels around what brackets hold
MOST_BRACKETS = 997


def is_name(text):
    """Whether a spelling is a word that is no keyword."""
    return (text[0].isalpha() or text[0] == "_") and text not in KEYWORDS


def found_forms(chunk):
    """The forms in a declaration that aren't read, in order: pairs of a token and a key of the table."""
    tokens, found = chunk.tokens, []
    texts = [token.text for token in tokens] + ["", "", "", ""]
    opened = []
    for at, token in enumerate(tokens):
        form = form_at(texts, at, opened)
        if form:
            found.append((token, form))
        if token.text in "([{":
            opened.append(token.text)
            if len(opened) == MOST_BRACKETS + 1:
                found.append((token, "too high"))
        elif token.text in ")]}" and opened:
            opened.pop()
    return found or of_whole(chunk, texts)


def form_at(texts, at, opened):
    """The form that begins at the token of this number, or nothing; `opened` are the brackets around it."""
    text, before, behind = texts[at], texts[at - 1] if at else "", texts[at + 1]
    if text in WORDS:
        return WORDS[text]
    if text in ALIGNMENT and behind == "(" and texts[at + 2] in TYPE_WORDS:
        return "alignment of a type"
    if text == "(" and behind == "{":
        return "statement expression"
    if text == "?" and behind == ":":
        return "conditional without a middle"
    if text == "goto" and behind == "*" or text == "&&" and before in BEFORE_OPERAND and is_name(behind or "0"):
        return "label as a value"
    if text == "..." and before != "," and not (before == "(" and behind == ")"):
        return "range"
    return form_of_brackets(texts, at, opened)


def form_of_brackets(texts, at, opened):
    """The forms that depend on the brackets around a token."""
    text, before, behind = texts[at], texts[at - 1] if at else "", texts[at + 1]
    if text in BODIES and opened[-1:] == ["("] and "{" in (behind, texts[at + 2] if behind != "(" else ""):
        return "body in a type"
    if text == "." and before in ("{", ",") and opened[-1:] == ["{"] and is_name(behind or "0"):
        return "designated initial value"
    if text == "[" and before in ("{", ",") and opened[-1:] == ["{"] and closes_with_value(texts, at):
        return "designated initial value"
    if text == ":" and behind == "}" and opened[-1:] == ["{"]:
        return "label at the end"
    return ""


def closes_with_value(texts, at):
    """Whether behind the bracket that is opened here and closed again stands `=`, `.` or `[`."""
    depth = 0
    for number in range(at, len(texts)):
        depth += {"[": 1, "]": -1}.get(texts[number], 0)
        if depth == 0:
            return texts[number + 1] in ("=", ".", "[")
    return False


def of_whole(chunk, texts):
    """The forms that a whole declaration is."""
    tokens, depth = chunk.tokens, 0
    for at, token in enumerate(tokens):
        if token.text in ")]}":
            depth -= 1
        if depth == 0 and token.text == ")" and re.match("[A-Za-z_]", texts[at + 1]) and chunk.ended:
            return [(tokens[at + 1], "parameters behind the list")]
        if depth == 0 and token.text == "]" and texts[at + 1] == "{":
            return [(tokens[at + 1], "function behind a result")]
        if depth == 0 and token.text in BODIES and chunk.is_function() and "{" in texts[at + 1:at + 3]:
            return [(token, "body in a type")]
        depth += token.text in "([{"
    return []
