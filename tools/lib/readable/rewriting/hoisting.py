"""`[before] ({ S; R; }) [behind];` as `{ S; [before] (R) [behind]; }`, where nothing is evaluated before it and it is evaluated always."""
from ..statements import NoStatement, declared_variable, is_typed, statement_end
from ..tokens import NOWHERE, Token, index_of, put_in, spellings, text_at
from ..words import CONTROL, STEPPING, STORAGE, TYPEOF, WORD, is_name
from .around import behind_question, in_head
from .fresh import apart

BEFORE_STATEMENT = {";", "{", "}", "else", "do"}
NOT_FIRST = {"&&", "||", "?", ",", "for", "while", "case", "sizeof"} | STEPPING | TYPEOF
NO_VALUE = CONTROL | {"do", "{", "goto", "return"}


def in_front(tokens, opening, close, partner, statements, work):
    """The tokens with the statement expression whose braces are given in front of its statement, or None. It has these statements."""
    start = statement_start(tokens, opening, partner)
    if start is None or value_of(statements, work.names) is None:
        return None
    try:
        end = statement_end(tokens, start, partner)
    except NoStatement:
        return None
    before, behind = tokens[start:opening - 1], tokens[close + 2:end]
    statements = apart(statements, before + behind, set(spellings(tokens)), work.names)
    if end <= close or not before or statements is None:
        return None
    labels, value = value_of(statements, work.names)
    front = [token for statement in statements[:-1] for token in statement] + labels
    inner = [tokens[opening - 1], *value, tokens[close + 1]]
    if is_typed(before[0].text, work.names) or before[0].text in STORAGE:
        changed = in_declaration(before, inner, behind, front, work.names)
    else:
        changed = put_in("{") + front + before + inner + behind + put_in("}")
    if changed is None:
        return None
    work.count("in front")
    return tokens[:start] + changed + tokens[end:]


def statement_start(tokens, opening, partner):
    """The index of the statement that a statement expression stands in, where it is evaluated first and always; or None."""
    k = opening - 2
    while k >= 0 and tokens[k].text not in BEFORE_STATEMENT:
        text = tokens[k].text
        if text in (")", "]"):
            if ends_head(tokens, k, partner):
                break
            if not is_passed(tokens, k, partner):
                return None
            k = partner[k]
        elif text == ":" and not behind_question(tokens, k, partner):
            break
        elif text == ":" or text in NOT_FIRST:
            return None
        k -= 1
    if k < 0 or k + 1 >= opening or stands_in_list(tokens, k) or tokens[k].text == ";" and in_head(tokens, k, partner):
        return None
    return k + 1


def ends_head(tokens, k, partner):
    """Whether the `)` at k ends the head of a statement."""
    return tokens[k].text == ")" and k in partner and text_at(tokens, partner[k] - 1) in CONTROL


def is_passed(tokens, k, partner):
    """Whether the group that ends at k may be evaluated behind what follows it: neither a call nor a block."""
    opening = partner.get(k, NOWHERE)
    if opening == NOWHERE or "{" in spellings(tokens[opening:k]):
        return False
    before = text_at(tokens, opening - 1)
    called = is_name(before) and not before.startswith("__builtin_") and before not in TYPEOF
    called = called or before == "]" or before == ")" and not ends_head(tokens, opening - 1, partner)
    return not (tokens[k].text == ")" and called)


def stands_in_list(tokens, k):
    """Whether the `{` at k begins a list of values."""
    return tokens[k].text == "{" and text_at(tokens, k - 1) in ("=", ",")


def value_of(statements, names):
    """The labels before the last statement, and the expression that it is, or None."""
    last, labels = statements[-1], []
    if last[-1].text != ";":
        return None
    while len(last) > 2 and WORD.match(last[0].text) and last[1].text == ":":
        labels, last = labels + last[:2], last[2:]
    value = last[:-1]
    if not value or value[0].text in NO_VALUE or is_typed(value[0].text, names):
        return None
    return labels, value


def in_declaration(before, inner, behind, front, names):
    """`T v = [before] ({ S; R; }) [behind];` as `T v; { S; v = [before] (R) [behind]; }`, or None."""
    equals = next((k for k, token in enumerate(before) if token.text == "="), None)
    if before[0].text in STORAGE or equals is None or before[-1].text not in ("=", "(", "!"):
        return None
    several = index_of([*before[equals:], *inner, *behind], {","}) != NOWHERE
    if several or declared_variable(before[:equals + 1] + put_in("0 ;"), names) is None:
        return None
    name = Token(before[equals - 1].text)
    return [*before[:equals], *put_in("; {"), *front, name, *before[equals:], *inner, *behind, *put_in("}")]
