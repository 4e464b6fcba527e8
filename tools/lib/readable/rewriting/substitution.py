"""`({ T v = E; R; })` as `({ R; })` with `(E)` for v, where no event is lost, doubled, or moved behind another one."""
from ..effects import is_call, only_reads
from ..statements import declared_variable
from ..tokens import Token, copied, enclosing, partners, put_in, spellings, text_at
from ..words import ASSIGNING, QUALIFIERS, STEPPING, STORAGE, TYPEOF

MOST_USES, LONGEST_VALUE, ROUNDS = 4, 300, 8
CONDITIONAL = {"?", "&&", "||"}
UNTYPED = TYPEOF | {"__auto_type"}
BEHIND_TYPE = {")", "*"} | QUALIFIERS
MEMORY = {"->", ".", "["}


def substituted(statements, work):
    """The statements with the values of variables in place of their uses."""
    for _ in range(ROUNDS):
        for q in range(len(statements) - 1):
            uses = replaceable(statements, q, work.names)
            if uses:
                work.count("own variable" if uses == 1 else "read again")
                statements = replaced(statements, q, work.names)
                break
        else:
            return statements
    return statements


def replaceable(statements, q, names):
    """How often the variable that a statement declares is used, if its value may stand in its place; else 0."""
    declared = declared_variable(statements[q], names)
    if declared is None or declared[2] is None or statements[q][0].text == "static":
        return 0
    _, name, value = declared
    rest = statements[q + 1:]
    if len(value) > LONGEST_VALUE or "{" in spellings(value) or any(declared_variable(one, names) is None for one in rest[:-1]):
        return 0
    flat = [token for one in rest for token in one]
    uses = [k for k in range(len(flat)) if is_use(flat, k, name)]
    if not 0 < len(uses) <= MOST_USES or any(is_changed(flat, k) for k in uses):
        return 0
    if not is_steady(value, flat, names) and acts_before(flat, uses[-1], names):
        return 0
    if not only_reads(value, names) and not (len(uses) == 1 and is_certain(rest, flat, uses[0], names)):
        return 0
    return len(uses)


def is_use(tokens, k, name):
    """Whether the token at k is the variable of this name, not a member."""
    return tokens[k].text == name and text_at(tokens, k - 1) not in (".", "->")


def is_changed(tokens, k):
    """Whether the variable at k is assigned or its address taken."""
    return text_at(tokens, k - 1) in STEPPING | {"&"} or text_at(tokens, k + 1) in ASSIGNING | STEPPING


def is_certain(rest, flat, use, names):
    """Whether a value with an event may stand at its use: it is evaluated there always, and nothing else has an event."""
    return CONDITIONAL.isdisjoint(spellings(flat[:use])) and all(only_reads(of_value(one, names), names) for one in rest)


def of_value(statement, names):
    """The value of a declaration, or the expression of a statement."""
    declared = declared_variable(statement, names)
    return statement[:-1] if declared is None else declared[2] or []


def is_steady(value, behind, names):
    """Whether a value reads nothing but names that aren't changed behind it, so that no call before its use matters."""
    texts = spellings(value)
    stars = any(text == "*" and following not in BEHIND_TYPE for text, following in zip(texts, texts[1:] + [""]))
    reads = stars or not MEMORY.isdisjoint(texts)
    changed = any(is_changed(behind, k) for k, token in enumerate(behind) if token.text in texts)
    return not reads and not changed and only_reads(value, names)


def acts_before(tokens, use, names):
    """Whether a call, a step or an assignment is done with in front of a use."""
    partner, around = partners(tokens), enclosing(tokens)
    for k in range(use):
        text = tokens[k].text
        if text in STEPPING or text == "(" and k and partner[k] < use and is_call(tokens, k, names):
            return True
        if text in ASSIGNING and (partner.get(around[k], use) < use or has_comma(tokens, k, use, around)):
            return True
    return False


def has_comma(tokens, k, use, around):
    """Whether a comma operator stands between the assignment at k and a use."""
    return any(tokens[j].text == "," and around[j] == around[k] for j in range(k, use))


def replaced(statements, q, names):
    """The statements behind a declaration with its value for its variable, and those before it."""
    words, name, value = declared_variable(statements[q], names)
    cast, first, result = cast_to(words), True, []
    for statement in statements[q + 1:]:
        line = []
        for k, token in enumerate(statement):
            if is_use(statement, k, name):
                line += [*put_in("("), *copied(cast), *put_in("("), *(value if first else copied(value)), *put_in(") )")]
                first = False
            else:
                line.append(token)
        result.append(line)
    return statements[:q] + result


def cast_to(words):
    """The cast that gives the value the variable's type, where that is a pointer or a struct that is spelled out."""
    texts = spellings(words)
    if not {"*", "struct"} & set(texts) or UNTYPED & set(texts) or texts == ["void", "*"]:
        return []
    return [Token("("), *[Token(text) for text in texts if text not in STORAGE], Token(")")]
