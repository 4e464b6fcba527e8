"""The head of an old-style definition, `f(a, b) int a; char *b;`, with its parameters in the list."""
from ..statements import behind_semicolon
from ..tokens import Token, copied, index_of, partners, parts, put_in, text_at
from ..words import TYPE_WORDS, WORD, is_name


def new_style(tokens, work):
    """The definition with `f(int a, char *b)` for a head. A parameter without a declaration is an int."""
    partner = partners(tokens)
    opening = next(i for i in range(1, len(tokens)) if tokens[i].text == "(" and is_name(tokens[i - 1].text))
    close = partner[opening]
    body = index_of(tokens, {"{"}, close + 1)
    declared = parameters(tokens[close + 1:body], work.names)
    following = {before.at: token for before, token in zip(tokens, tokens[1:])}
    result = tokens[:opening + 1]
    for name in [token for token in tokens[opening + 1:close] if token.text != ","]:
        if len(result) > opening + 1:
            result.append(comma(following.get(result[-1].at)))
        result += declared.get(name.text) or put_in("int") + [name]
    work.count("old-style head")
    return result + [Token(")", tokens[body - 1].at)] + tokens[body:]


def comma(behind):
    """A comma in the place of the separator that stands behind a parameter, if there is one."""
    return Token(",", behind.at) if behind is not None and behind.text in (",", ";") else Token(",")


def parameters(tokens, names):
    """For each name the tokens of its declaration as a parameter."""
    found, partner, i = {}, partners(tokens), 0
    while i < len(tokens):
        behind = behind_semicolon(tokens, i, partner)
        line = tokens[i:behind - 1]
        if line:
            found.update(declarators(line, names))
        i = behind
    return found


def declarators(line, names):
    """The parameters that one declaration of the head declares, by name."""
    split = behind_specifiers(line, names)
    specifiers = [token for token in line[:split] if token.text != "register"]
    found = {}
    for declarator in parts(line[split:]):
        name = next((token.text for token in declarator if is_name(token.text)), None)
        if name is not None:
            found[name] = specifiers + declarator
            specifiers = copied(specifiers)
    return found


def behind_specifiers(line, names):
    """The index of the first declarator of a declaration."""
    k = 0
    while k < len(line) and WORD.match(line[k].text):
        k += 1
    following, last = text_at(line, k), text_at(line, k - 1)
    is_function = following == "(" and text_at(line, k + 1) != "*" and last not in TYPE_WORDS and last not in names.types
    return k - 1 if k == len(line) or following in ("[", ",") or is_function else k
