"""Statements of a statement expression that have no event of their own are left out: checks of types, unused variables, empty loops."""
from ..effects import only_reads
from ..statements import declared_names, declared_variable, divided, is_declaration, is_typed, words_of
from ..tokens import partners, spellings, text_at
from ..words import KEYWORDS, STEPPING, WORD
from .loops import JUMPS, plain_loop

NOTHING = {"do", "{", "}", "while", "(", "0", ")", ";"}
ACTING = {"return", "goto", "else"} | JUMPS | STEPPING
ROUNDS = 12


def reduced(statements, work):
    """The statements without those that do nothing; the last one, the value, always stays."""
    for _ in range(ROUNDS):
        own = declared_names(statements, work.names)
        last = len(statements) - 1
        kept = [statement for q, statement in enumerate(statements) if q == last or not does_nothing(statements, q, own, work)]
        if len(kept) == len(statements):
            return statements
        statements = kept
    return statements


def does_nothing(statements, q, own, work):
    """Whether a statement has no event; own are the names that the statement expression declares."""
    statement = statements[q]
    if is_empty(statement):
        return True
    found = (reads_own(statement, own, work.names) or branch_on_own(statement, own, work.names)
             or is_unused(statements, q, work.names) or is_check(statement, work))
    if found:
        work.count("nothing")
    return found


def is_empty(statement):
    """`;`, `{ }`, `do { } while (0);` and the like."""
    return NOTHING.issuperset(spellings(statement))


def reads_own(statement, own, names):
    """`(void)(&a == &b);` over variables of the statement expression."""
    if len(statement) < 5 or spellings(statement[:3]) != ["(", "void", ")"]:
        return False
    return words_of(statement) <= own | {"void"} and only_reads(statement[3:-1], names)


def branch_on_own(statement, own, names):
    """An `if` on variables of the statement expression that does nothing but declare."""
    if text_at(statement, 0) != "if" or text_at(statement, 1) != "(":
        return False
    close = partners(statement)[1]
    condition = statement[2:close]
    if not only_reads(condition, names) or not words_of(condition) - {"__builtin_expect"} <= own:
        return False
    return only_declares(statement[close + 1:], names)


def only_declares(tokens, names):
    """No call, no jump, and nothing assigned but to what is declared."""
    if not ACTING.isdisjoint(spellings(tokens)):
        return False
    for k, token in enumerate(tokens):
        before = text_at(tokens, k - 1)
        if token.text == "(" and WORD.match(before) and before not in KEYWORDS:
            return False
        if token.text == "=" and not (k > 1 and (is_typed(tokens[k - 2].text, names) or tokens[k - 2].text == "*")):
            return False
    return True


def is_unused(statements, q, names):
    """A variable that no later statement names, with a value that only reads."""
    declared = declared_variable(statements[q], names)
    if declared is None or statements[q][0].text == "static":
        return False
    _, name, value = declared
    if any(token.text == name for statement in statements[q + 1:] for token in statement):
        return False
    return value is None or only_reads(value, names)


def is_check(statement, work):
    """`do { .. } while (0);` of which nothing, or only variables that are compared with one another, is left."""
    if text_at(statement, 0) != "do" or statement[-1].text != ";" or not JUMPS.isdisjoint(spellings(statement)):
        return False
    found = plain_loop(statement, 0, partners(statement))
    if found is None:
        return False
    inner = divided(statement[2:found[0]], work.names)
    left = [one for one in reduced(inner, work) if not is_empty(one)]
    own = declared_names(left, work.names)
    return all(is_silent(one, own, work.names) for one in left)


def is_silent(statement, own, names):
    """A statement over own variables alone, or the declaration of one with a value that only reads."""
    if not is_declaration(statement, names):
        return words_of(statement) <= own | {"void"}
    declared = declared_variable(statement, names)
    return declared is not None and (declared[2] is None or only_reads(declared[2], names))
