"""What stands around a statement expression: whether it is a statement, stands in the head of a loop, or behind a `?`."""
from ..tokens import text_at
from ..words import CONTROL

BREAKS = (";", "{", "}")


def in_head(tokens, q, partner):
    """Whether the token at q stands in parentheses of the same block, as the `;` in the head of a `for`."""
    k = q - 1
    while k >= 0:
        text = tokens[k].text
        if text == "(":
            return True
        if text in ("{", "}") or text in (")", "]") and k not in partner:
            return False
        k = partner[k] - 1 if text in (")", "]") else k - 1
    return False


def behind_question(tokens, q, partner):
    """Whether a `?` stands in front of a colon in the same statement, so that it is no label's."""
    k = q - 1
    while k >= 0 and tokens[k].text not in BREAKS:
        if tokens[k].text == "?":
            return True
        k = partner[k] - 1 if tokens[k].text in (")", "]") and k in partner else k - 1
    return False


def begins_statement(tokens, q, partner):
    """Whether a statement begins behind the token at q."""
    text = text_at(tokens, q)
    if text == ";":
        return not in_head(tokens, q, partner)
    if text in ("{", "}", "else", "do"):
        return True
    if text == ")" and q in partner:
        return text_at(tokens, partner[q] - 1) in CONTROL
    return text == ":" and not behind_question(tokens, q, partner)


def ends_value(tokens, close, partner):
    """Whether the `}` at close ends a statement expression that is used as a value."""
    return text_at(tokens, close) == "}" and text_at(tokens, close + 1) == ")" and text_at(tokens, partner[close] - 1) == "("
