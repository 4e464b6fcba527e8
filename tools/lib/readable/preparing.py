"""The first step: chunks are pruned and rewritten, and what surely isn't read is cut without a question."""
from .blocks import late_declarations
from .chunks import FUNCTION, GONE, LITERAL, OLD_STYLE, PROTOTYPE, REST
from .cutting import cut, prototype, trim
from .foreign import forms
from .hints import may_be_foreign, needs_a_look
from .pruning import unreached
from .rewriting import loops_rewritten, rewritten
from .rewriting.late_declarations import declares_in_head
from .rewriting.old_style import new_style
from .rewriting.order import Work
from .statements import NoStatement
from .tokens import partners
from .words import QUALIFIERS, STORAGE, TYPE_WORDS, TYPEOF

ODD_ASSEMBLER = "asm __volatile"
OLD_HEAD = "old-style definition"
NOT_FOLLOWED = (IndexError, KeyError, NoStatement, RecursionError)


def prepare(source, names, options):
    """Brings each chunk as far as can be done without asking."""
    if options.prune:
        for chunk in unreached(source):
            prune(source, names, chunk, options)
    for chunk in source.chunks:
        if chunk.kind in (REST, LITERAL):
            chunk.state, chunk.fault = GONE, "Syntax"
        elif chunk.pruned:
            continue
        elif needs_a_look(source, chunk) or chunk.odd_assembler:
            look(source, names, chunk, options)
        elif chunk.is_function():
            look_for_late(source, names, chunk, options)


def prune(source, names, chunk, options):
    """Leaves the prototype of a function that isn't reached."""
    chunk.pruned = True
    if has_plain_head(source, chunk):
        chunk.state = PROTOTYPE
        return
    try:
        shorter = pruned(source, names, chunk, options)
    except NOT_FOLLOWED:
        shorter = None
    if shorter is None or forms(shorter, names):
        chunk.state = GONE
    else:
        chunk.state, chunk.tokens = PROTOTYPE, shorter


def has_plain_head(source, chunk):
    """Whether a function's own head is read as it stands."""
    return chunk.kind == FUNCTION and not may_be_foreign(source.texts[chunk.first:chunk.body])


def pruned(source, names, chunk, options):
    """The tokens of the prototype, or None."""
    if chunk.kind == OLD_STYLE and options.rewrite:
        chunk.tokens = new_style(source.own_tokens(chunk), Work(names))
    shorter = prototype(source, chunk)
    return rewritten(shorter, names)[0] if shorter is not None and options.rewrite else shorter


def look(source, names, chunk, options):
    """Rewrites a chunk, and cuts it where a form is left."""
    own = source.own_tokens(chunk)
    chunk.forms = forms(own, names, chunk.is_function())
    chunk.forms |= {ODD_ASSEMBLER} if chunk.odd_assembler else set()
    chunk.forms |= {OLD_HEAD} if chunk.kind == OLD_STYLE else set()
    chunk.left = set(chunk.forms)
    if options.rewrite:
        change(source, names, chunk, own)
    if chunk.left and chunk.is_function():
        cut(source, names, chunk)
    elif chunk.left and not trim(source, names, chunk):
        chunk.state = GONE


def change(source, names, chunk, own):
    """Puts the rewritten tokens of a chunk in place of its own."""
    try:
        tokens, chunk.classes = rewritten(own, names, chunk.is_function(), chunk.kind == OLD_STYLE)
    except NOT_FOLLOWED:
        # what the rules can't follow isn't C: metalcheck says so
        tokens = own
    if chunk.odd_assembler:
        chunk.classes = {**chunk.classes, "asm": 1}
    chunk.left = forms(tokens, names, chunk.is_function())
    if [(token.text, token.at) for token in tokens] != [(token.text, token.at) for token in own]:
        chunk.tokens = tokens


def look_for_late(source, names, chunk, options):
    """A function without a foreign word may still have declarations behind statements, and loops that run once."""
    texts = source.own_texts(chunk)
    late = may_declare_late(texts, names) and has_late(source.own_tokens(chunk), names)
    if late:
        look(source, names, chunk, options)
    elif options.rewrite and "do" in texts:
        keep_plain_loops(source, names, chunk)


def keep_plain_loops(source, names, chunk):
    """Makes blocks of the loops of a function that run once."""
    own = source.own_tokens(chunk)
    tokens, classes = loops_rewritten(own, names)
    if len(tokens) < len(own):
        chunk.tokens, chunk.classes = tokens, classes


def may_declare_late(texts, names):
    """Whether a word that may begin a declaration stands where a statement may begin, or first in parentheses."""
    for before, text in zip(texts, texts[1:]):
        if before in (";", "}", ":", "(") and (
                text in TYPE_WORDS or text in names.types or text in QUALIFIERS or text in STORAGE or text in TYPEOF):
            return True
    return False


def has_late(tokens, names):
    """Whether a declaration stands behind a statement or in the head of a `for`."""
    if any(declares_in_head(tokens, i, names) for i in range(len(tokens) - 2)):
        return True
    return bool(late_declarations(tokens, partners(tokens), names))
