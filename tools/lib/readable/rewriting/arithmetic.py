"""Whether an expression is arithmetic, so that a variable of its type may be one of a number."""
from ..tokens import NOWHERE, Token, index_of, parts, spellings
from ..words import CLOSING, OPENING, TAGGED, TYPE_WORDS, is_name
from .lookup import ends_operand, plain_type, without_parentheses

BINARY = set("+ - * / % << >> < > <= >= == != & | ^ && || ? :".split())
UNARY = {"-", "+", "~", "!"}
CHOICE = "__builtin_choose_expr"


def is_arithmetic(texts, typed, names):
    """Whether all operands of an expression are numbers. Typed gives the type of one that is a variable or a member, if it is known."""
    texts = without_parentheses(texts)
    found = operands(texts, names)
    if len(found) > 1:
        return all(is_arithmetic(one, typed, names) for one in found)
    while texts and texts[0] in UNARY:
        texts = texts[1:]
    if not texts:
        return False
    if texts[0] == "sizeof" or len(texts) == 1 and (texts[0][0].isdigit() or texts[0][0] == "'"):
        return True
    if texts[0] in (CHOICE, "_Generic"):
        given = parts([Token(text) for text in texts[2:-1]])[1:]
        return all(is_arithmetic(spellings(one[index_of(one, {":"}) + 1:]), typed, names) for one in given)
    if cast_type(texts, names) is not None:
        return True
    declared = typed(texts)
    return declared is not None and not declared[1] and not declared[2] and is_number(declared[0], names)


def operands(texts, names):
    """The operands between binary operators that stand in no bracket."""
    found, depth = [[]], 0
    for text in texts:
        if depth == 0 and text in BINARY and ends_operand(found[-1], names):
            found.append([])
        else:
            found[-1].append(text)
        depth += (text in OPENING) - (text in CLOSING)
    return found


def cast_type(texts, names):
    """The words of the arithmetic type that an operand is cast to, or None."""
    if len(texts) < 4 or texts[0] != "(" or not names.is_type(texts[1]):
        return None
    close = next((k for k, text in enumerate(texts) if text == ")"), NOWHERE)
    found = plain_type([Token(text) for text in texts[1:close]], names)
    return found[0] if found is not None and not found[1] and close < len(texts) - 1 and is_number(found[0], names) else None


def is_number(words, names):
    """Whether the words of a type are those of a number."""
    if words[0] == "enum":
        return True
    return TAGGED.isdisjoint(words) and words != ["void"] and (words[0] in TYPE_WORDS or words[0] in names.numbers)


def has_name(texts):
    """Whether a name stands among spellings."""
    return any(is_name(text) for text in texts)
