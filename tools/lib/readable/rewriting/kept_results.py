"""`f(x) ?: b`, of which f may not be called twice: what it gives is kept in a variable in front of the statement, `{ T r = f(x); .. r ? r : b .. }`,
where it is evaluated first and always, and where T is what f is declared to give."""
from ..statements import divided
from ..tokens import Token, names_any, partners, put_in, spellings, text_at
from ..words import CLOSING, OPENING
from .conditionals import condition_begin
from .fresh import fresh_name
from .hoisting import in_front
from .lookup import declared_type

ROUNDS = 50
NAME = "result"
BEHIND_CONDITIONAL = {",", ";"}


def kept_results(tokens, work):
    """All conditionals without a middle whose condition can stand in front."""
    for _ in range(ROUNDS if names_any(tokens, {"?"}) else 0):
        partner = partners(tokens)
        changed = next((found for i in range(len(tokens) - 1, 0, -1)
                        if tokens[i].text == "?" and text_at(tokens, i + 1) == ":"
                        and (found := kept_result(tokens, i, partner, work)) is not None), None)
        if changed is None:
            return tokens
        tokens = changed
    return tokens


def kept_result(tokens, i, partner, work):
    """The tokens with the condition of the `?` at i in front of its statement, or None."""
    begin, behind = condition_begin(tokens, i, partner), conditional_end(tokens, i + 2)
    condition = tokens[begin:i]
    found = declared_type(tokens, begin, condition, partner, work)
    if not condition or found is None:
        return None
    name = fresh_name(NAME, set(spellings(tokens)))
    declaration = [*put_in(" ".join([*found[0], *["*"] * found[1], name, "="])), *condition, *put_in(";")]
    value = [Token(name), tokens[i], Token(name), *tokens[i + 1:behind], *put_in(";")]
    changed = [*tokens[:begin], *put_in("( {"), *declaration, *value, *put_in("} )"), *tokens[behind:]]
    partner = partners(changed)
    result = in_front(changed, begin + 1, partner[begin + 1], partner, divided(declaration + value, work.names), work)
    if result is not None:
        work.count("kept result")
    return result


def conditional_end(tokens, i):
    """The index behind the conditional whose last operand begins at i."""
    depth = questions = 0
    while i < len(tokens):
        text = tokens[i].text
        if depth == 0 and (text in BEHIND_CONDITIONAL or text in CLOSING or text == ":" and questions == 0):
            return i
        depth += (text in OPENING) - (text in CLOSING)
        questions += (text == "?") - (text == ":") if depth == 0 else 0
        i += 1
    return i
