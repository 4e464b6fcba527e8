"""Statement expressions, from the innermost outward: as an expression with commas, a block, branches, or in front of the statement."""
from ..statements import divided, is_label, is_typed
from ..tokens import NOWHERE, Token, partners, put_in, seen, spellings, text_at
from ..words import KEYWORDS, WORD
from .around import begins_statement, ends_value
from .hoisting import in_front
from .loops import plain_loop
from .reduction import is_empty, reduced
from .substitution import substituted
from .value_branches import as_value_branches
from .variables_in_front import variables_in_front

ROUNDS = 2000
BEFORE_VALUE = {"return", "else", "do"}


def statement_expressions(tokens, work):
    """All statement expressions, as far as one of the forms fits."""
    for _ in range(ROUNDS):
        changed = last_one(tokens, work) if has_one(tokens) else None
        if changed is None:
            return tokens
        tokens = changed
    return tokens


def has_one(tokens):
    """Whether a statement expression is there at all."""
    texts, k = seen(tokens).texts, 0
    for _ in range(texts.count("{")):
        k = texts.index("{", k) + 1
        if k > 1 and texts[k - 2] == "(":
            return True
    return False


def last_one(tokens, work):
    """The tokens with the last statement expression that can be rewritten, or None. An inner one comes before the outer one so."""
    partner = partners(tokens)
    for i in range(len(tokens) - 1, 0, -1):
        if tokens[i].text == "{" and tokens[i - 1].text == "(" and partner[i - 1] == partner[i] + 1:
            changed = one(tokens, i, partner, work)
            if changed is not None:
                return changed
    return None


def one(tokens, opening, partner, work):
    """The tokens with the statement expression whose brace is given rewritten, or made smaller, or None."""
    close = partner[opening]
    body = tokens[opening + 1:close]
    value = known_value(body, work)
    if value is not None:
        return tokens[:opening] + value + tokens[close + 1:]
    statements = reduced(substituted(reduced(divided(body, work.names), work), work), work)
    statements = opened([statement for statement in statements if spellings(statement) != [";"]], work)
    value = with_commas(statements, work)
    if value is not None:
        return tokens[:opening] + value + tokens[close + 1:]
    return (as_block(tokens, opening, partner, statements, work) or as_branches(tokens, opening, partner, work)
            or as_value_branches(tokens, opening, partner, statements, work)
            or in_front(tokens, opening, close, partner, statements, work)
            or behind_comma(tokens, opening, partner)
            or variables_in_front(tokens, opening, partner, statements, is_expression, work)
            or smaller(tokens, opening, close, statements))


def known_value(body, work):
    """The value of the address of a label of its own."""
    texts = spellings(body)
    if texts[:1] == ["__label__"] and texts[3:5] == [texts[1], ":"] and texts[-3:] == ["&&", texts[1], ";"]:
        work.count("address of a label")
        return put_in("0")
    return None


def with_commas(statements, work):
    """`({ e; f; })` as `(e, f)`: the tokens inside the parentheses, or None if not all statements are expressions."""
    if not statements:
        work.count("nothing")
        return put_in("0")
    if not all(is_expression(statement, work.names) for statement in statements):
        return None
    work.count("comma")
    result = statements[0][:-1]
    for before, statement in zip(statements, statements[1:]):
        result = result + [Token(",", before[-1].at)] + statement[:-1]
    return result


def opened(statements, work):
    """The statements, with the expressions of blocks, and of loops that run once, in place of those that hold nothing else."""
    found = [expressions_of(statement, work) or [statement] for statement in statements]
    return [statement for some in found for statement in some]


def expressions_of(statement, work):
    """The statements of a block, or of a loop that runs once, where all of them are expressions; else nothing."""
    partner, body = partners(statement), []
    loop = plain_loop(statement, 0, partner) if statement[0].text == "do" else None
    if statement[0].text == "{" and partner.get(0) == len(statement) - 1:
        body = statement[1:-1]
    elif loop is not None and loop[1] == len(statement) - 1:
        body = statement[2:loop[0]]
    inner = opened([one for one in divided(body, work.names) if not is_empty(one)], work)
    return inner if all(is_expression(one, work.names) for one in inner) else []


def is_expression(statement, names):
    """Whether a statement is an expression and its semicolon."""
    first = statement[0].text
    if statement[-1].text != ";" or first in ("{", "__label__") or first in KEYWORDS and first != "sizeof":
        return False
    return not is_typed(first, names) and not is_label(statement, 0)


def flat(statements):
    """The tokens of statements one behind the other."""
    return [token for statement in statements for token in statement]


def smaller(tokens, opening, close, statements):
    """The statement expression with what is left of its statements, if that is less, or None."""
    left = flat(statements)
    return tokens[:opening + 1] + left + tokens[close:] if len(left) < close - opening - 1 else None


def as_block(tokens, opening, partner, statements, work):
    """`({ .. });` as `{ .. }` where a statement begins, in parentheses or cast to void or not."""
    close = partner[opening]
    before, behind = opening - 1, close + 1
    while text_at(tokens, before - 1) == "(" and text_at(tokens, behind + 1) == ")" and not WORD.match(text_at(tokens, before - 2)):
        before, behind = before - 1, behind + 1
    if text_at(tokens, behind + 1) != ";":
        return None
    is_cast = spellings(tokens[max(0, before - 3):before]) == ["(", "void", ")"]
    start = before - 3 if is_cast else before
    if start < 1 or not begins_statement(tokens, start - 1, partner) or ends_value(tokens, behind + 2, partner):
        return None
    work.count("block")
    return tokens[:start] + [tokens[opening]] + flat(statements) + [tokens[close]] + tokens[behind + 2:]


def as_branches(tokens, opening, partner, work):
    """`c ? ({ A }) : ({ B });` as `if (c) { A } else { B }`; opening is the brace of the second arm."""
    arms = arm_before(tokens, opening, partner)
    if arms is None:
        return None
    first, question = arms
    bounds = statement_bounds(tokens, question, partner[opening] + 1, partner)
    if bounds is None or not begins_statement(tokens, bounds[0] - 1, partner):
        return None
    start, condition, end = bounds
    work.count("branches")
    test = [*put_in("{ if ("), *tokens[condition:question], *put_in(")")]
    ways = [*tokens[first:partner[first] + 1], *put_in("else"), *tokens[opening:partner[opening] + 1], *put_in("}")]
    return tokens[:start] + test + ways + tokens[end:]


def behind_comma(tokens, opening, partner):
    """`(a, ({ .. }))` as `({ a; .. })`, so that what stands before the comma doesn't keep the rest from a form that fits; or None."""
    close = partner[opening]
    first = partner.get(close + 2, NOWHERE) if text_at(tokens, close + 2) == ")" else NOWHERE
    if first <= 0 or text_at(tokens, opening - 2) != "," or is_called(tokens[first - 1].text):
        return None
    before = tokens[first + 1:opening - 2]
    if not before or before[0].text == "{":
        return None
    inside = [tokens[opening], *before, Token(";", tokens[opening - 2].at), *tokens[opening + 1:close + 1]]
    return tokens[:first + 1] + inside + tokens[close + 2:]


def is_called(text):
    """Whether the parenthesis behind a spelling may begin arguments, or an operand that isn't evaluated."""
    return text in (")", "]") or WORD.match(text) is not None and text not in BEFORE_VALUE


def arm_before(tokens, opening, partner):
    """The brace of the first arm `({ A })` and the `?` in front of it, where the second arm is the one given; or None."""
    if opening < 5 or spellings(tokens[opening - 3:opening]) != [")", ":", "("]:
        return None
    first = partner[opening - 3]
    if text_at(tokens, first + 1) != "{" or text_at(tokens, first - 1) != "?":
        return None
    return first + 1, first - 1


def statement_bounds(tokens, question, close, partner):
    """Where the statement begins that a conditional is, in parentheses or not, and its condition, and the index behind its semicolon."""
    k = question - 1
    while k >= 0 and tokens[k].text not in (";", "{", "}", "("):
        k = partner[k] - 1 if tokens[k].text in (")", "]") else k - 1
    if k < 0:
        return None
    start, behind = k + 1, close + 1
    if tokens[k].text == "(":
        if partner[k] != close + 1:
            return None
        start, behind = k, close + 2
    return (start, k + 1, behind + 1) if text_at(tokens, behind) == ";" else None
