"""`.. ({ T v = E; F; R; }) ..` as `{ T v; .. (v = E, F, R) .. }`, wherever it stands in its statement: declarations alone have no event."""
from ..statements import NoStatement, declared_variable, divided, is_declaration, statement_end
from ..tokens import Token, partners, put_in, spellings, text_at
from ..words import CONTROL, STORAGE, TYPEOF
from .around import behind_question, ends_value, in_head
from .fresh import apart, variables

BEFORE_STATEMENT = {";", "{", "}", "else", "do"}
UNTYPED = TYPEOF | {"__auto_type"}


def variables_in_front(tokens, opening, partner, statements, is_expression, work):
    """The tokens with the variables of the statement expression at opening in front of its statement, or None. It has these statements."""
    close, start = partner[opening], statement_begin(tokens, opening, partner)
    end = end_of(tokens, start, partner) if start is not None else None
    if end is None or end <= close:
        return None
    stays_open = is_declaration(tokens[start:end], work.names) or ends_value(tokens, end, partner)
    before, behind = (tokens[:opening - 1], tokens[close + 2:]) if stays_open else (tokens[start:opening - 1], tokens[close + 2:end])
    found = separated(apart(statements, before + behind, set(spellings(tokens)), work.names), set(spellings(tokens)), is_expression, work.names)
    if found is None or not found[0] or not found[1]:
        return None
    work.count("variables in front")
    declarations, expressions = found
    value = [tokens[opening - 1], *with_commas(expressions), tokens[close + 1]]
    statement = [*tokens[start:opening - 1], *value, *tokens[close + 2:end]]
    changed = declarations + statement if stays_open else [*put_in("{"), *declarations, *statement, *put_in("}")]
    return tokens[:start] + changed + tokens[end:]


def statement_begin(tokens, opening, partner):
    """The index of the statement that a statement expression stands in, or None where it stands in a list of values."""
    k = opening - 2
    while k >= 0:
        text = tokens[k].text
        if text == "{" and text_at(tokens, k - 1) in ("=", ",", "{") or text in (")", "]", "}") and k not in partner:
            return None
        if text == "}" and text_at(tokens, k + 1) == "while" and text_at(tokens, partner[k] - 1) == "do":
            return partner[k] - 1
        if text == "}" and text_at(tokens, k + 1) == ")":
            k = partner[k]
        elif text in BEFORE_STATEMENT and not (text == ";" and in_head(tokens, k, partner)):
            return k + 1
        elif text == ")" and text_at(tokens, partner[k] - 1) in CONTROL or text == ":" and not behind_question(tokens, k, partner):
            return k + 1
        elif text in (")", "]"):
            k = partner[k]
        k -= 1
    return None


def end_of(tokens, start, partner):
    """The index behind the statement at start, or None."""
    try:
        return statement_end(tokens, start, partner)
    except NoStatement:
        return None


def separated(statements, there, is_expression, names):
    """The declarations among statements without their values, and the expressions with assignments of these; or None where one is neither."""
    declarations, expressions = [], []
    for k, statement in enumerate(statements or []):
        found = of_block(statement, statements[:k] + statements[k + 1:], there, is_expression, names) if statement[0].text == "{" \
            else of_declaration(statement, names) if is_declaration(statement, names) \
            else ([], [statement]) if is_expression(statement, names) else None
        if found is None:
            return None
        declarations += found[0]
        expressions += found[1]
    return declarations, expressions


def of_block(statement, others, there, is_expression, names):
    """The same of a block among others."""
    if partners(statement).get(0) != len(statement) - 1:
        return None
    around = [token for other in others for token in other]
    return separated(apart(divided(statement[1:-1], names), around, there, names), there, is_expression, names)


def of_declaration(statement, names):
    """The same of a declaration: of one variable with a value, or of some without values."""
    statement = [token for token in statement if token.text not in ("register", "const")]
    declared = declared_variable(statement, names)
    if statement[0].text in STORAGE or not UNTYPED.isdisjoint(spellings(statement)):
        return None
    if declared is None:
        plain = "=" not in spellings(statement) and variables(statement) is not None
        return (statement, []) if plain else None
    words, _, value = declared
    if value is None:
        return statement, []
    return [*words, statement[len(words)], *put_in(";")], [[Token(statement[len(words)].text), *statement[len(words) + 1:]]]


def with_commas(expressions):
    """Expressions, each with its semicolon, with commas between."""
    result = expressions[0][:-1]
    for before, statement in zip(expressions, expressions[1:]):
        result = result + [Token(",", before[-1].at)] + statement[:-1]
    return result
