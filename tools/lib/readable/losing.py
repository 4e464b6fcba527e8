"""What rests on a declaration that is gone goes too: `T (x);` would be read as a call, and a lost function as one that returns int."""
from .chunks import GONE, WHOLE
from .cutting import cut
from .names import typedef_names
from .statements import names_in
from .words import OPENING, is_name

LOST_TYPE, LOST_NAME = "names a type that isn't read", "names something that isn't read"


def cut_what_rests(source, names):
    """Cuts until no chunk that stays names a lost type or calls a lost name. Says whether anything was cut."""
    changed = False
    while True:
        types, called = lost(source)
        if not types and not called:
            return changed
        resting = [(chunk, fault) for chunk in source.chunks if chunk.state != GONE and (fault := rests(source, chunk, types, called))]
        if not resting:
            return changed
        for chunk, fault in resting:
            cut(source, names, chunk, fault)
        changed = True


def lost(source):
    """The names of types, and the names of what may be called, that only declarations which are gone declare."""
    gone = [chunk for chunk in source.chunks if chunk.state == GONE]
    if not gone:
        return set(), set()
    types, called = declared_by(source, gone)
    here_types, here_called = declared_by(source, [chunk for chunk in source.chunks if chunk.state != GONE], types | called)
    return types - here_types, called - here_called


def declared_by(source, chunks, wanted=None):
    """The types and the other names that chunks declare at file scope; of chunks with none of the wanted words nothing is looked at."""
    types, others = set(), set()
    for chunk in chunks:
        if wanted is not None and wanted.isdisjoint(source.own_words(chunk)):
            continue
        texts = source.own_texts(chunk)
        if texts[0] == "typedef":
            types |= typedef_names(texts)
        else:
            others.add(chunk.name)
            others |= names_in(texts) | pointed_names(texts) if not chunk.is_function() else set()
    return types, {name for name in others if is_name(name)}


def pointed_names(texts):
    """The names in `( * NAME` in no other bracket."""
    found, depth = set(), 0
    for k, text in enumerate(texts):
        if depth == 0 and texts[k:k + 2] == ["(", "*"] and k + 2 < len(texts):
            found.add(texts[k + 2])
        depth += (text in OPENING) - (text in (")", "]", "}"))
    return found


def rests(source, chunk, types, called):
    """Why a chunk as it stands now rests on something that is lost, or nothing."""
    if chunk.tokens is None and types.isdisjoint(source.own_words(chunk)) and called.isdisjoint(source.own_words(chunk)):
        return None
    texts = source.standing_texts(chunk)
    if not types.isdisjoint(texts) and any(texts[k] in types and not is_member(texts, k) for k in range(len(texts))):
        return LOST_TYPE
    if chunk.state == WHOLE and chunk.is_function() and not called.isdisjoint(texts):
        if any(texts[k] in called and texts[k + 1] == "(" and not is_member(texts, k) for k in range(1, len(texts) - 1)):
            return LOST_NAME
    return None


def is_member(texts, k):
    """Whether the word at k is the name of a member."""
    return k > 0 and texts[k - 1] in (".", "->")
