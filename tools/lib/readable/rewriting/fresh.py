"""Names that don't stand in a function yet, for variables that are put in or come into another block."""
from ..statements import declared_names, is_declaration
from ..tokens import NOWHERE, Token, index_of, parts, spellings, text_at
from ..words import TAGGED, is_name

NO_VARIABLE = {".", "->", "goto"} | TAGGED


def fresh_name(name, there):
    """A name like this one that isn't there."""
    return next(fresh for n in range(1, len(there) + 2) if (fresh := f"{name}_{n}") not in there)


def apart(statements, around, there, names):
    """The statements, in which none of the variables that they declare has a name that stands around them; or None where that can't be seen.
    New names are none of those that are there."""
    shared = declared_names(statements, names) & set(spellings(around))
    declared = [variables(statement) for statement in statements if is_declaration(statement, names)] if shared else []
    if None in declared:
        return None
    fresh = {name: fresh_name(name, there) for name in set().union(*declared) & shared}
    return [with_names(statement, fresh) for statement in statements] if fresh else statements


def variables(declaration):
    """The names of the variables of a declaration, or None where a declarator has parentheses."""
    found = set()
    for declarator in parts(declaration[:-1]):
        behind = index_of(declarator, {"=", "["})
        texts = spellings(declarator[:behind] if behind != NOWHERE else declarator)
        if "(" in texts or not texts or not is_name(texts[-1]):
            return None
        found.add(texts[-1])
    return found


def with_names(tokens, fresh):
    """The tokens with other names for variables, not for members, tags and labels of a `goto`."""
    return [Token(fresh[token.text], token.at) if token.text in fresh and text_at(tokens, k - 1) not in NO_VARIABLE else token
            for k, token in enumerate(tokens)]
