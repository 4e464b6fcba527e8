"""The order in which the classes are tried, until nothing changes."""
from ..tokens import spellings
from ..words import TYPEOF
from .conditionals import middles
from .initials import designators
from .kept_results import kept_results
from .late_declarations import declarations_behind_statements, declarations_in_heads
from .literals import literals
from .local_labels import local_labels
from .loops import assertions, plain_loops
from .old_style import new_style
from .per_cpu import per_cpu_data
from .selections import selections
from .sizes import case_ranges, choices, sizes
from .spellings import plain_words
from .statement_expressions import statement_expressions
from .types import plain_types

ROUNDS = 6
EVERYWHERE = [per_cpu_data, plain_types, selections, sizes, assertions, choices, case_ranges, designators, statement_expressions, middles]
IN_FUNCTIONS = [kept_results, literals, declarations_in_heads, declarations_behind_statements, local_labels, plain_loops]


class Work:
    """What the rules know of the file, and how often each class was used."""

    def __init__(self, names):
        self.names = names
        self.classes = {}

    def count(self, name):
        """Counts one use of a class."""
        self.classes[name] = self.classes.get(name, 0) + 1


def rewritten(tokens, names, is_function=False, is_old_style=False):
    """The tokens of a chunk with all that can be rewritten, and the classes with their numbers."""
    work = Work(names)
    if is_old_style:
        tokens = new_style(tokens, work)
    if not is_function and repeats_itself(tokens):
        work.count("repeated declaration")
        return tokens[-1:], work.classes
    tokens = plain_words(tokens, work)
    for _ in range(ROUNDS):
        before = len(tokens), dict(work.classes)
        for step in EVERYWHERE + (IN_FUNCTIONS if is_function else []):
            tokens = step(tokens, work)
        if before == (len(tokens), work.classes):
            break
    return tokens, work.classes


def repeats_itself(tokens):
    """`extern typeof(f) f;` declares nothing new."""
    texts = spellings(tokens)
    return len(texts) == 7 and texts[0] == "extern" and texts[1] in TYPEOF and texts[3] == texts[5]


def loops_rewritten(tokens, names):
    """The tokens with plain loops as blocks alone, and the classes."""
    work = Work(names)
    return plain_loops(tokens, work), work.classes
