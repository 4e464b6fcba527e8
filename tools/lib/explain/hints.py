"""Says of an accepted checker what can't be meant. A hint changes no answer."""
import re
from functools import partial

from .machine import patterns
from .patterns import bare, calls_in, names_in

NEVER_BRANCHES = {"prefix !", "&&", "||", "?:", ","}
MACROS = {"NULL": "a test of a null pointer is the pattern { v }, and the constant is 0 or ((void *)0)",
          "EOF": "write what it stands for in the preprocessed file, as (-1)",
          "true": "write what it stands for in the preprocessed file, as 1",
          "false": "write what it stands for in the preprocessed file, as 0"}
SHORTEST = 5
WORD = re.compile(r"[A-Za-z_]\w*", re.A)
OF_THE_SYSTEM = re.compile(r'(?m)^# \d+ "[^\n]*" (?:\d )*3\b[^\n]*\n(?:(?!# \d)[^\n]*(?:\n|\Z))*')


def hints_of(machine, texts, alone=True):
    """All hints on a checker over C files with these texts: pairs of a token's number and words.

    Of a checker that isn't alone in its run it isn't asked whether it begins anywhere, since of many some have nothing to do in a file.
    """
    words = {word for text in texts for word in WORD.findall(text)}
    if machine.fault or machine.bad_token:
        return []
    found = [*unreached(machine), *unleft(machine), *unused(machine), *no_branch(machine), *macros(machine, words)]
    if texts:
        own = {word for text in texts for word in WORD.findall(OF_THE_SYSTEM.sub("", text))}
        found += [*misspelt(machine, words, own), *undeclared(machine, words)]
    if texts and alone:
        found += nothing_begins(machine, words)
    return sorted(found)


def dotted(name):
    """A state as it is written."""
    return ".".join(name)


def unreached(machine):
    """States with rules to which no way leads from start. Of those that lead to each other one is told."""
    steps = steps_of(machine.rules)
    led = {target for source, targets in steps for target in targets if target != source} | {("start",)}
    known = closure({("start",)}, steps)
    # a state that another one leads to comes last: it is mended with that one
    for source in sorted((rule.source for rule in machine.rules), key=lambda state: state.name in led):
        if source.name in known:
            continue
        others = sorted(dotted(other) for other in led if len(other) == len(source.name) and other[-1] not in ("stop", "start"))
        rest = f"; states that are led to: {', '.join(others)}" if others else ""
        way = "no way leads from start" if any(source.name in targets for _, targets in steps) else "no rule leads"
        yield source.at, f"{way} to {dotted(source.name)}, so no rule of it is ever taken{rest}"
        known |= closure({source.name}, steps)


def steps_of(rules):
    """The states between which these rules lead: pairs of a source and its targets."""
    return [(rule.source.name, {target.name for target in rule.targets}) for rule in rules]


def closure(states, steps):
    """These states and all to which the steps lead from them."""
    found, more = set(), set(states)
    while more - found:
        found |= more
        more = {target for source, targets in steps if source in found for target in targets}
    return found


def unleft(machine):
    """States to which rules lead and that have no rule."""
    left = {rule.source.name for rule in machine.rules}
    told = set()
    for target in (target for rule in machine.rules for target in rule.targets):
        if target.name not in left and target.name[-1] != "stop" and target.name not in told:
            told.add(target.name)
            yield target.at, f"{dotted(target.name)} has no rule: nothing happens in it, and nothing leaves it"


def unused(machine):
    """Holes that no rule names."""
    used = {state.name[0] for rule in machine.rules for state in [rule.source, *rule.targets] if len(state.name) == 2}
    for rule in machine.rules:
        used.update(machine.spelled(at) for at in rule.arguments)
        for alternative in rule.alternatives:
            used.update(name for name, _ in machine.names(alternative))
            used.update(machine.spelled(at) for item in alternative for at in item.arguments)
    for name, at, _ in machine.declared:
        if name not in used:
            yield at, f"the hole {name} stands in no rule"


def no_branch(machine):
    """Patterns of split rules that no branch can be."""
    for rule in (rule for rule in machine.rules if rule.split):
        for tree in (bare(tree) for alternative in rule.alternatives for tree in patterns(alternative)):
            if tree.kind in NEVER_BRANCHES or compares_with_zero(machine, tree):
                yield tree.at, ("no branch is this: a branch is asked by what it tests in the end, without !, == 0, != 0, && and ||. Write "
                                "what is tested, and exchange true= and false= where the test turned it round")


def compares_with_zero(machine, tree):
    """Whether a tree is `e == 0` or `e != 0`."""
    if tree.kind not in ("==", "!="):
        return False
    right = bare(tree.parts[1])
    return right.kind == "constant" and machine.spelled(right.at) == "0"


def names_of(machine):
    """The names in patterns that are no holes, each with the numbers of its tokens."""
    found = {}
    for tree in (tree for rule in machine.rules for alternative in rule.alternatives for tree in patterns(alternative)):
        for it in names_in(tree):
            if machine.spelled(it.at) not in machine.holes:
                found.setdefault(machine.spelled(it.at), []).append(it.at)
    return found


def callees_of(machine, tree):
    """The names that a pattern calls, without holes: pairs of a spelling and the number of its token."""
    named = [(machine.spelled(it.at), it.at) for it in calls_in(tree) if it.kind == "name"]
    return [(name, at) for name, at in named if name not in machine.holes]


def macros(machine, words):
    """Names that the preprocessor replaces before metalcheck sees a file."""
    for name, places in names_of(machine).items():
        if name in MACROS and name not in words:
            yield places[0], f"{name} is a macro, and patterns see preprocessed code: {MACROS[name]}"


def lacking(machine, rule, words):
    """For each alternative of a rule the names that it calls and that aren't among the words, with the numbers of their tokens."""
    return [[(at, name) for tree in patterns(alternative) for name, at in callees_of(machine, tree) if name not in words]
            for alternative in rule.alternatives]


def reached(machine, words):
    """The states to which rules lead that can be taken over files with these words."""
    return closure({("start",)}, steps_of(rule for rule in machine.rules if not all(lacking(machine, rule, words))))


def nothing_begins(machine, words):
    """A checker none of whose rules in start can be taken over these files."""
    missing = []
    for names in (names for rule in machine.rules if rule.source.name == ("start",) for names in lacking(machine, rule, words)):
        if not names:
            return
        missing += names
    if missing:
        names = sorted({name for _, name in missing})
        yield missing[0][0], ("nothing can come of this checker here: of each rule in start a function stands in none of the C files "
                              f"({', '.join(names)})")


def misspelt(machine, words, own):
    """Names that stand in none of the files, without which a rule can't be taken in a state that is reached, and that are nearly a name of
    the program's own files."""
    named, told, states = names_of(machine), set(), reached(machine, words)
    for rule in (rule for rule in machine.rules if rule.source.name in states):
        missing = lacking(machine, rule, words)
        for at, name in (one for names in missing for one in names) if all(missing) else ():
            if name in told or len(name) < SHORTEST:
                continue
            told.add(name)
            close = sorted(word for word in filter(partial(is_near, name), own) if word not in named)
            if close:
                yield at, f"{name} stands in none of the C files, and {' and '.join(close[:3])} does: is it misspelt?"


def undeclared(machine, words):
    """Names in patterns that are no holes and stand in none of the files, where all that the pattern calls does."""
    told = set(MACROS)
    for tree in (tree for rule in machine.rules for alternative in rule.alternatives for tree in patterns(alternative)):
        called = dict(callees_of(machine, tree))
        for it in names_in(tree) if words.issuperset(called) else ():
            name = machine.spelled(it.at)
            if not (name in machine.holes or name in called or name in words or name in told):
                told.add(name)
                yield it.at, f"{name} is no hole and stands in none of the C files: declare it, as by `decl any_expr {name};`"


def is_near(one, other):
    """Whether one name becomes the other by one letter that is added, left out, replaced or exchanged with the next, not the first."""
    if one[0] != other[0] or abs(len(one) - len(other)) > 1 or one == other:
        return False
    at = next((i for i, (a, b) in enumerate(zip(one, other)) if a != b), min(len(one), len(other)))
    if len(one) == len(other):
        exchanged = one[at:at + 2] == other[at:at + 2][::-1] and one[at + 2:] == other[at + 2:]
        return exchanged or one[at + 1:] == other[at + 1:]
    short, long = sorted((one, other), key=len)
    return short[at:] == long[at + 1:]
