"""Per-CPU data, which Linux reads and points to by asm: what is left of its macros without the asm, as the variable or the pointer itself.

This comes before the types are looked at: what is read stands in a `typeof` alone."""
from ..effects import only_reads
from ..tokens import NOWHERE, apply, names_any, partners, put_in, spellings, text_at
from ..words import TYPEOF

RESULTS = {"pscr_ret__", "pto_ret__", "pao_ret__"}


def per_cpu(tokens, i, partner, work):
    """What a statement expression that begins at i reads or points to."""
    if text_at(tokens, i + 1) != "{" or partner.get(i + 1, NOWHERE) + 1 != partner.get(i):
        return None
    body = without_empty(tokens[i + 2:partner[i + 1]])
    texts, value = spellings(body), None
    if len(texts) < 9:
        return None
    if texts[0] in TYPEOF and texts[1] == "(":
        value = result(body, texts)
    elif texts[:2] == ["unsigned", "long"] and texts[3:5] == [";", "("] and texts[5] in TYPEOF:
        value = pointer(body, texts[2], work)
    if value is None:
        return None
    work.count("per-CPU read")
    return [tokens[i], *per_cpu_data(value, work), tokens[partner[i]]], partner[i] + 1


def without_empty(body):
    """Without the semicolons of empty statements, as asm leaves them."""
    return [token for k, token in enumerate(body) if token.text != ";" or text_at(body, k - 1) != ";"]


def result(body, texts):
    """`typeof(v) pscr_ret__; .. pscr_ret__;` as v."""
    close = partners(body)[1]
    return body[2:close] if texts[close + 1] in RESULTS and texts[-2:] == [texts[close + 1], ";"] else None


def pointer(body, name, work):
    """`unsigned long n; (typeof(*p) *)n;` as p, and `unsigned long n; (typeof(p))(n + offset);` too."""
    partner = partners(body)
    expression, behind = body[7:partner[6]], partner[4] + 1
    stars, rest = spellings(body[partner[6] + 1:partner[4]]), spellings(body[behind:])
    if stars == ["*"] and rest == [name, ";"] and text_at(expression, 0) == "*":
        return expression[1:]
    if not stars and rest[:3] == ["(", name, "+"] and partner[behind] == len(body) - 2:
        offset = body[behind + 3:partner[behind]]
        return expression if only_reads(offset, work.names) else [*offset, *put_in(","), *expression]
    return None


def per_cpu_data(tokens, work):
    """All reads of per-CPU data and pointers to it."""
    return apply(per_cpu, {"("}, tokens, work) if names_any(tokens, TYPEOF) else tokens
