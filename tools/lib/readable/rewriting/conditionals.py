"""`a ?: b`, which yields a itself where it isn't zero: as `a ? a : b`, where reading a again has no effect."""
from ..effects import only_reads
from ..tokens import apply, copied, text_at
from ..words import ASSIGNING, CONTROL

LONGEST_CONDITION = 100
BEFORE_CONDITION = ASSIGNING | CONTROL | {";", "{", "}", "(", "[", ",", "?", ":", "return", "case", "else", "do"}


def middle(tokens, i, partner, work):
    """`a ?: b` as `a ? a : b`, for the `?` at i. A condition that calls or changes something would do so twice, and stays."""
    if text_at(tokens, i + 1) != ":":
        return None
    condition = tokens[condition_begin(tokens, i, partner):i]
    if not 0 < len(condition) <= LONGEST_CONDITION or not only_reads(condition, work.names):
        return None
    work.count("middle")
    return [tokens[i], *copied(condition)], i + 1


def condition_begin(tokens, i, partner):
    """The index at which the condition of the `?` at i begins: behind what binds less than `||`, or begins a group or a statement."""
    k = i - 1
    while k >= 0 and tokens[k].text not in BEFORE_CONDITION:
        if tokens[k].text in (")", "]"):
            k = partner[k]
            if text_at(tokens, k - 1) in CONTROL:
                return partner[k] + 1
        k -= 1
    return k + 1


def middles(tokens, work):
    """All conditionals without a middle that can be given one."""
    return apply(middle, {"?"}, tokens, work)
