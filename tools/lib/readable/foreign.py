"""Which forms outside the language stand in a list of tokens. The names are those that messages and summaries have."""
from itertools import accumulate

from .blocks import late_declarations
from .tokens import seen, text_at
from .words import (
    ALIGNMENT, BINARY, COMPLEX, CONTROL, DROPPED, FOREIGN, HEXADECIMAL_FLOATING, QUALIFIERS, STEPPING, TAGGED, TYPEOF, WIDE, is_name)

BY_ITSELF = {"_Generic", "_Static_assert", "__auto_type", "__label__", "_Alignas", "_Atomic"} | DROPPED | WIDE
NAMED = {
    **{word: word for word in BY_ITSELF}, **dict.fromkeys(TYPEOF, "typeof"), **dict.fromkeys(ALIGNMENT, "alignof"),
    **dict.fromkeys(COMPLEX, "complex")}


class Look:
    """The tokens that are looked at, with their partners."""

    def __init__(self, tokens, names, is_function):
        self.tokens, self.names, self.is_function = tokens, names, is_function
        known = seen(tokens)
        self.texts, self.partner = known.texts, known.partners()
        self._depths = None

    def text(self, i):
        """The spelling at an index, or nothing outside the list."""
        return self.texts[i] if 0 <= i < len(self.texts) else ""

    def in_brace(self, i):
        """Whether any brace is open in front of a token."""
        if self._depths is None:
            self._depths = list(accumulate(((text == "{") - (text == "}") for text in self.texts), initial=0))
        return self._depths[i] > 0

    def is_type(self, i):
        """Whether a type name begins at an index."""
        text = self.text(i)
        return self.names.is_type(text) or text in TYPEOF or text == "__auto_type"


def brace(look, i):
    """A statement expression, a compound literal, a nested function, or the body of a struct in a type name."""
    before = look.text(i - 1)
    if before == "(":
        return "statement expression"
    if before == ")" and i - 1 in look.partner:
        return behind_parenthesis(look, i, look.partner[i - 1])
    head = i - 1 if before in TAGGED else i - 2 if look.text(i - 2) in TAGGED else -1
    if head > 0 and (look.text(head - 1) == "(" or look.text(head - 1) in QUALIFIERS and look.text(head - 2) == "("):
        return "struct body in a type name"
    return None


def behind_parenthesis(look, i, opening):
    """What a `{` at i behind the group in parentheses that begins at opening is, if it is outside the language."""
    called = look.text(opening - 1)
    if called in CONTROL:
        return None
    inside = look.in_brace(i)
    if called == ")" and not inside:
        return None
    if look.is_type(opening + 1) and not is_name(called):
        return "compound literal"
    return "nested function" if is_name(called) and look.is_function and inside else None


def colon(look, i):
    """`?:` without an operand between."""
    return "?: without a middle" if look.text(i - 1) == "?" else None


def both(look, i):
    """`&&` where no operand stands in front."""
    before = look.text(i - 1)
    operand = before in (")", "]") or is_name(before) or before in STEPPING or before[-1:] in ('"', "'")
    number = before[:1].isdigit() or (before[:1] == "." and len(before) > 1)
    return None if operand or number else "address of a label"


def star(look, i):
    """`goto *p`."""
    return "computed goto" if look.text(i - 1) == "goto" else None


def dots(look, i):
    """`...` that isn't the end of a list of parameters."""
    if look.text(i - 1) in (",", "("):
        return None
    k = i - 1
    while k >= 0 and look.text(k) not in ("case", ";", "{", "["):
        k -= 1
    return {"case": "case range", "[": "range designator"}.get(look.text(k), "dots")


def designator(look, i):
    """`.m =` or `[i] =` behind `{` or `,`."""
    if look.text(i - 1) not in ("{", ","):
        return None
    return "designated initialiser" if look.text(behind_designators(look.tokens, i, look.partner)) == "=" else None


def behind_designators(tokens, i, partner):
    """The index behind `.member` and `[index]` from i on."""
    while text_at(tokens, i) in (".", "["):
        i = i + 2 if tokens[i].text == "." else partner.get(i, len(tokens)) + 1
    return i


def loop(look, i):
    """A declaration in the head of a `for`."""
    return "declaration in for" if look.text(i + 1) == "(" and look.is_type(i + 2) else None


def compatible(look, i):
    """A test of types that has its arguments."""
    return "types_compatible_p" if look.text(i + 2) not in (")", "") else None


LOOKS = {
    "{": brace, ":": colon, "&&": both, "*": star, "...": dots, ".": designator, "[": designator, "for": loop,
    "__builtin_types_compatible_p": compatible}


def constant(text):
    """The form of a constant that the language doesn't have."""
    if text[0] in "uU":
        return "unicode literal" if text[-1] in "\"'" else None
    if HEXADECIMAL_FLOATING.match(text):
        return "hexadecimal floating constant"
    return "binary constant" if BINARY.match(text) else None


def forms(tokens, names, is_function=False):
    """The forms outside the language in these tokens, as a set of names."""
    look, found = Look(tokens, names, is_function), set()
    for i, text in enumerate(look.texts):
        if text in LOOKS:
            found.add(LOOKS[text](look, i))
    for text in seen(tokens).words:
        if text in NAMED:
            found.add(NAMED[text])
        elif text[0] in "0uU" and len(text) > 2:
            found.add(constant(text))
    if is_function and late_declarations(tokens, look.partner, names):
        found.add("declaration behind a statement")
    return found - {None}


def is_foreign(tokens, first, behind):
    """Whether a word, a statement expression or a struct body stands in an operand of sizeof or in a bound, so that it can't be read."""
    for k in range(first, behind):
        text = tokens[k].text
        if text in FOREIGN or text == "{" and text_at(tokens, k - 1) == "(":
            return True
        if text in TAGGED and "{" in (text_at(tokens, k + 1), text_at(tokens, k + 2)):
            return True
    return False
