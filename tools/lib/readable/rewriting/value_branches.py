"""`v = c ? a : ({ S; R; });` as `{ if (c) v = a; else { S; v = R; } }`, and the same behind `return`."""
from ..effects import only_reads
from ..tokens import NOWHERE, copied, index_of, put_in, spellings, text_at
from .around import begins_statement
from .hoisting import value_of


def as_value_branches(tokens, opening, partner, statements, work):
    """The tokens with branches for a statement whose value is a conditional with the statement expression as its second arm, or None."""
    found = conditional(tokens, opening, partner)
    value = value_of(statements, work.names) if statements else None
    if found is None or value is None:
        return None
    begin, taken, first, question, behind = found
    taker, labels, result = tokens[begin:taken], *value
    if not (spellings(taker) == ["return"] or taker and taker[-1].text == "=" and only_reads(taker[:-1], work.names)):
        return None
    if index_of(tokens[first:question], {"=", ",", "?"}) != NOWHERE or index_of(tokens[question + 1:opening - 2], {"?", ","}) != NOWHERE:
        return None
    work.count("branches")
    inner = [token for statement in statements[:-1] for token in statement] + labels
    one = [*put_in("{ if ("), *tokens[first:question], *put_in(")"), *taker, *tokens[question + 1:opening - 2], *put_in("; else {")]
    other = [*inner, *copied(taker), *result, *put_in("; } }")]
    return tokens[:begin] + one + other + tokens[behind:]


def conditional(tokens, opening, partner):
    """The indices of the statement, of its value with parentheses and without, of the `?`, and behind the semicolon; or None."""
    if text_at(tokens, opening - 2) != ":":
        return None
    question = back_to(tokens, opening - 3, partner, {"?"})
    first = back_to(tokens, question - 1, partner, {"=", "return", "("}) + 1 if question != NOWHERE else 0
    behind = partner[opening] + 2
    if first <= 0:
        return None
    start = first
    while text_at(tokens, start - 1) == "(" and partner.get(start - 1) == behind:
        start, behind = start - 1, behind + 1
    begin = back_to(tokens, start - 1, partner, {";", "{", "}", ")", "else", ":"}) + 1
    if text_at(tokens, behind) != ";" or begin <= 0 or not begins_statement(tokens, begin - 1, partner):
        return None
    return begin, start, first, question, behind + 1


def back_to(tokens, k, partner, wanted):
    """The index of the nearest token from k backwards that has one of these spellings and stands in no group, or NOWHERE."""
    while k >= 0 and tokens[k].text not in wanted:
        if tokens[k].text in ("(", "[", "{"):
            return NOWHERE
        k = partner.get(k, k) - 1 if tokens[k].text in (")", "]", "}") else k - 1
    return k
