"""Declarations in the head of a `for` and behind statements, which get a block of their own."""
from ..blocks import late_declarations
from ..statements import NoStatement, behind_semicolon, is_typed, statement_end
from ..tokens import names_any, partners, put_in, text_at

ROUNDS = 200


def declarations_in_heads(tokens, work):
    """`for (T i = 0; c; s) S` as `{ T i = 0; for (; c; s) S }`."""
    if not names_any(tokens, {"for"}):
        return tokens
    for _ in range(ROUNDS):
        partner = partners(tokens)
        i = next((i for i in range(len(tokens) - 3) if declares_in_head(tokens, i, work.names)), None)
        if i is None:
            return tokens
        try:
            end = statement_end(tokens, i, partner)
        except NoStatement:
            return tokens
        behind = behind_semicolon(tokens, i + 2, partner)
        work.count("declaration")
        head = [*put_in("{"), *tokens[i + 2:behind], *tokens[i:i + 2], *put_in(";")]
        tokens = tokens[:i] + head + tokens[behind:end] + put_in("}") + tokens[end:]
    return tokens


def declares_in_head(tokens, i, names):
    """Whether a `for` with a declaration in its head begins at an index."""
    return tokens[i].text == "for" and text_at(tokens, i + 1) == "(" and is_typed(tokens[i + 2].text, names)


def declarations_behind_statements(tokens, work):
    """`S; T v; R }` as `S; { T v; R } }`."""
    partner = partners(tokens)
    before, behind = {}, {}
    for i, opening in late_declarations(tokens, partner, work.names):
        work.count("declaration")
        before[i] = before.get(i, 0) + 1
        behind[partner[opening]] = behind.get(partner[opening], 0) + 1
    if not before:
        return tokens
    result = []
    for k, token in enumerate(tokens):
        result += put_in("{ " * before.get(k, 0)) + put_in("} " * behind.get(k, 0)) + [token]
    return result
