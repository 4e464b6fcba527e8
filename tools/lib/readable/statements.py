"""Where statements end, how a block divides into them, and what a declaration among them declares."""
from .tokens import NOWHERE, index_of, partners, spellings, text_at
from .words import CLOSING, KEYWORDS, OPENING, QUALIFIERS, STORAGE, TAGGED, TYPEOF, WORD


class NoStatement(Exception):
    """Tokens that can't be a statement."""


def statement_end(tokens, i, partner):
    """The index behind the statement that begins at i."""
    while i < len(tokens):
        text = tokens[i].text
        if text == "{":
            return partner[i] + 1
        if text in ("if", "do"):
            behind, goes_on = branch_end(tokens, i, partner) if text == "if" else (loop_end(tokens, i, partner), False)
            if not goes_on:
                return behind
            i = behind
        elif text in ("while", "for", "switch"):
            i = behind_head(tokens, i, partner)
        elif text in ("case", "default") or is_label(tokens, i):
            i = behind_label(tokens, i)
        else:
            return behind_semicolon(tokens, i, partner)
    return len(tokens)


def behind_head(tokens, i, partner):
    """The index behind the parentheses of the head at i."""
    if i + 1 not in partner:
        raise NoStatement
    return partner[i + 1] + 1


def branch_end(tokens, i, partner):
    """The index behind an `if` and its statement, and whether that is where its `else` goes on."""
    behind = statement_end(tokens, behind_head(tokens, i, partner), partner)
    goes_on = text_at(tokens, behind) == "else"
    return behind + goes_on, goes_on


def loop_end(tokens, i, partner):
    """The index behind a `do` loop."""
    return behind_head(tokens, statement_end(tokens, i + 1, partner), partner) + 1


def is_label(tokens, i):
    """Whether a label begins at an index."""
    return text_at(tokens, i + 1) == ":" and WORD.match(tokens[i].text) is not None


def behind_label(tokens, i):
    """The index behind the colon of a label or case."""
    questions = 0
    while text_at(tokens, i) != ":" or questions:
        if i >= len(tokens):
            raise NoStatement
        questions += (tokens[i].text == "?") - (tokens[i].text == ":")
        i += 1
    return i + 1


def behind_semicolon(tokens, i, partner):
    """The index behind the next semicolon in no bracket."""
    while i < len(tokens) and tokens[i].text != ";":
        i = partner.get(i, i) + 1 if tokens[i].text in OPENING else i + 1
    return i + 1


def is_typed(text, names):
    """Whether a word begins a type name."""
    return names.is_type(text) or text in TYPEOF or text == "__auto_type"


def is_declaration(statement, names):
    """Whether a statement is a declaration."""
    return is_typed(statement[0].text, names) or statement[0].text in STORAGE


def divided(tokens, names):
    """The statements and declarations of a block's tokens. What can't be divided is the last one."""
    partner, found, i = partners(tokens), [], 0
    while i < len(tokens):
        text = tokens[i].text
        if is_typed(text, names) and text_at(tokens, i + 1) != ":" or text in STORAGE or text == "__label__":
            behind = behind_semicolon(tokens, i, partner)
        else:
            behind = end_or_rest(tokens, i, partner)
        found.append(tokens[i:behind])
        i = behind
    return found


def end_or_rest(tokens, i, partner):
    """The index behind the statement at i, or that behind all where it has no end."""
    try:
        behind = statement_end(tokens, i, partner)
    except NoStatement:
        return len(tokens)
    return behind if behind > i else len(tokens)


def declared_variable(statement, names):
    """The tokens of the type, the name and the initial value (or None) of a declaration of one variable by a simple name, or None."""
    if not statement or statement[-1].text != ";" or not is_typed(statement[0].text, names):
        return None
    k = behind_type(statement, names)
    name, following = text_at(statement, k), text_at(statement, k + 1)
    if not WORD.match(name) or name in KEYWORDS:
        return None
    if following == ";":
        return statement[:k], name, None
    value = statement[k + 2:-1]
    if following != "=" or index_of(value, {","}) != NOWHERE or text_at(value, 0) == "{":
        return None
    return statement[:k], name, value


def behind_type(statement, names):
    """The index behind the specifiers and stars of a declaration."""
    partner, k = partners(statement), 0
    while k < len(statement) and (is_typed(statement[k].text, names) or (k and statement[k - 1].text in TAGGED)):
        k = partner.get(k + 1, k) + 1 if statement[k].text in TYPEOF else k + 1
    while text_at(statement, k) == "*" or text_at(statement, k) in QUALIFIERS:
        k += 1
    return k


def declared_names(statements, names):
    """All names that declarations among these statements declare."""
    found = set()
    for statement in statements:
        if statement and is_declaration(statement, names):
            found |= names_in(spellings(statement))
    return found


def names_in(texts):
    """The words before `=`, `,` and `;` in no bracket, and before `[`."""
    found, depth = set(), 0
    for k, text in enumerate(texts):
        depth += (text in OPENING) - (text in CLOSING)
        plain = depth == 0 and text in ("=", ",", ";") or depth == 1 and text == "["
        if k and plain and WORD.match(texts[k - 1]):
            found.add(texts[k - 1])
    return found


def words_of(tokens):
    """The words among tokens, as a set."""
    return {token.text for token in tokens if WORD.match(token.text)}
