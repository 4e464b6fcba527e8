"""Initial values: designators, and at file scope the values themselves, which give no event there."""
from ..foreign import behind_designators, forms, is_foreign
from ..tokens import NOWHERE, enclosing, partners, seen, spellings, text_at
from ..words import CLOSING, CONTROL, OPENING, is_name


def lists_of_values(tokens, partner):
    """The indices of the braces that begin a list of initial values, inner ones among them, and what encloses each token."""
    around, found = enclosing(tokens), set()
    for k, token in enumerate(tokens):
        if token.text != "{" or k == 0:
            continue
        before = tokens[k - 1].text
        if before == "=" or before in ("{", ",") and around[k] in found or before == ")" and is_literal(tokens, k, partner, around):
            found.add(k)
    return found, around


def is_literal(tokens, k, partner, around):
    """Whether the `{` at k, behind a `)`, begins a compound literal."""
    called = text_at(tokens, partner[k - 1] - 1)
    outside = around[k] == NOWHERE and "=" not in spellings(tokens[:k])
    return not outside and called not in CONTROL and not is_name(called)


def designators(tokens, work):
    """`.m = v` and `[i] = v` as `v`: the order of values isn't looked at."""
    texts = seen(tokens).texts
    if not any(text in (".", "[") and before in ("{", ",") for before, text in zip(texts, texts[1:])):
        return tokens
    partner = partners(tokens)
    lists, around = lists_of_values(tokens, partner)
    result, i = [], 0
    while i < len(tokens):
        if tokens[i].text in (".", "[") and text_at(tokens, i - 1) in ("{", ",") and around[i] in lists:
            behind = behind_designators(tokens, i, partner)
            if text_at(tokens, behind) == "=":
                work.count("designator")
                i = behind + 1
                continue
        result.append(tokens[i])
        i += 1
    return result


def behind_value(tokens, i, ends):
    """The index of the token that ends the value from i on."""
    depth = 0
    while i < len(tokens) and not (depth == 0 and tokens[i].text in ends):
        depth += (tokens[i].text in OPENING) - (tokens[i].text in CLOSING)
        i += 1
    return i


def without_values(tokens, names):
    """A declaration of the file without initial values, foreign bounds, and foreign values of enumerators."""
    partner, around = partners(tokens), enclosing(tokens)
    result, i = [], 0
    while i < len(tokens):
        text = tokens[i].text
        if text == "=" and around[i] == NOWHERE:
            i = behind_value(tokens, i + 1, (",", ";"))
        elif text == "=" and is_enumeration(tokens, around[i]) and forms(tokens[i:behind_value(tokens, i + 1, (",", "}"))], names):
            i = behind_value(tokens, i + 1, (",", "}"))
        elif text == "[" and is_foreign(tokens, i, partner[i]):
            result += [tokens[i], tokens[partner[i]]]
            i = partner[i] + 1
        else:
            result.append(tokens[i])
            i += 1
    return result


def is_enumeration(tokens, opening):
    """Whether the bracket at an index begins the body of an enumeration."""
    return opening > 0 and tokens[opening].text == "{" and "enum" in (text_at(tokens, opening - 1), text_at(tokens, opening - 2))
