"""Where in a rule the fault is for which metalcheck refused its checker: the number of a token, and what is wrong there.

Each function answers for one kind of refusal, with a machine and the rule; None where it finds nothing to name. Between the number and the
words may stand how far inside the token the place is.
"""
import re

from .machine import CALLOUTS, patterns
from .patterns import calls_in


def variables(machine):
    """The names of the state variables."""
    return {name for name, hole in machine.holes.items() if hole.state}


def asked(machine, alternative):
    """The names that callouts of an alternative ask of: pairs of a spelling and the number of its token."""
    return [(machine.spelled(at), at) for item in alternative for at in item.arguments if not machine.spelled(at).endswith(('"', "'"))]


def messages(machine, rule):
    """The names in the message of a rule, in the same form."""
    return [(machine.spelled(at), at) for at in rule.arguments]


def states(rule):
    """The source of a rule and its targets."""
    return [rule.source, *rule.targets]


def unknown_callout(machine, rule):
    """A callout that there isn't, or one with other arguments."""
    for item in (item for alternative in rule.alternatives for item in alternative if item.kind == "callout"):
        if item.callout in ("0", "1"):
            continue
        if item.callout not in CALLOUTS:
            return item.at, f"there is no callout {item.callout}"
        wanted = CALLOUTS[item.callout]
        given = tuple("string" if machine.spelled(at).endswith('"') else "name" for at in item.arguments)
        if given != wanted:
            spelled = {"name": "h", "string": '"s"'}
            return item.at, f"it is written {item.callout}({', '.join(spelled[one] for one in wanted)})"
    return None


def two_variables(machine, rule):
    """The second state variable that the rule names."""
    named = [(state.name[0], state.at) for state in states(rule) if len(state.name) == 2]
    for alternative in rule.alternatives:
        named += machine.names(alternative) + asked(machine, alternative)
    named += messages(machine, rule)
    seen = [(name, at) for name, at in named if name in variables(machine)]
    others = [(name, at) for name, at in seen if name != seen[0][0]]
    if not others:
        return None
    return others[0][1], f"{seen[0][0]} and {others[0][0]} are both state variables, and a rule is about one"


def bad_split(_machine, rule):
    """What a split rule may not have."""
    if not rule.split:
        return None
    if rule.message is not None:
        return rule.message[0], "a rule with true= and false= has no message"
    for item in (item for alternative in rule.alternatives for item in alternative):
        if item.kind == "end":
            return item.at, "a rule with true= and false= is asked at branches, and $end_of_path$ isn't one"
    one, other = (target.name for target in rule.targets)
    if len(one) == len(other) and one[:-1] == other[:-1]:
        return None
    return rule.targets[1].at, "both states of a rule with true= and false= are global, or both are of one variable"


def bad_source(machine, rule):
    """The state that doesn't fit where it stands."""
    return bad_state(machine, rule) or bad_step(machine, rule)


def bad_state(machine, rule):
    """A state that is wrong by itself."""
    source, known = rule.source, variables(machine)
    if source.name == ("stop",):
        return source.at, "nothing leaves the global state stop"
    if source.name[-1] == "stop" and len(source.name) == 2:
        return source.at, f"{'.'.join(source.name)} is no state: an unknown object begins in `start:`"
    for state in states(rule):
        if len(state.name) == 2 and state.name[0] not in known:
            how = "declare it by `state decl`" if state.name[0] in machine.holes else "and isn't declared"
            return state.at, f"{state.name[0]} is no state variable: {how}"
        if len(state.name) == 1 and state.name[0] in known:
            return state.at, f"{state.name[0]} is a state variable, and stands here as a global state: write {state.name[0]}.STATE"
    return None


def bad_step(machine, rule):
    """States of which one doesn't lead to the other."""
    source, known = rule.source, variables(machine)
    for target in rule.targets:
        if len(source.name) == 2 and target.name[0] != source.name[0]:
            name = source.name[0]
            return target.at, f"from {'.'.join(source.name)} a rule leads to a state of {name}: write {name}.{target.name[-1]}"
    named = [(name, at) for alternative in rule.alternatives for name, at in machine.names(alternative) + asked(machine, alternative)]
    for name, at in named + messages(machine, rule):
        if name in known and all(len(state.name) == 1 for state in states(rule)):
            return at, (f"between global states no state variable is named, and {name} is one: did you mean "
                        f"{name}.{rule.targets[0].name[0]}? Else use a hole that has no state")
    return None


def variable_missing(machine, rule):
    """The alternative that doesn't bind what is needed, or what isn't bound."""
    wanted = [(state.name[0], state.at) for state in states(rule) if len(state.name) == 2]
    for number, alternative in enumerate(rule.alternatives, 1):
        bound = {name for name, _ in machine.names(alternative)}
        ends = any(item.kind == "end" for item in alternative) and len(rule.source.name) == 2
        free = rule.source.name[0] if ends else ""
        needed = [(name, alternative[0].at) for name, _ in wanted if name != free]
        needed += asked(machine, alternative) + [(name, at) for name, at in messages(machine, rule) if name != free]
        for name, at in needed:
            if name not in bound or name not in machine.holes:
                return at, missing(machine, alternative, number if len(rule.alternatives) > 1 else 0, name)
    return None


def missing(machine, alternative, number, name):
    """What is said of a name that an alternative doesn't bind."""
    if name not in machine.holes:
        return f"{name} isn't declared"
    which = f"alternative {number} of this rule" if number else "this rule"
    if any(item.kind == "end" for item in alternative):
        return f"nothing binds {name} at the end of a path"
    called = {it.at for tree in patterns(alternative) for it in calls_in(tree)}
    others = sorted({other for other, at in machine.names(alternative) if other not in machine.holes and at not in called})
    return f"no pattern of {which} has {name}" + (f"; names in it that are no holes: {', '.join(others)}" if others else "")


def bad_format(machine, rule):
    """What of a message is none, or how many conversions and arguments there are."""
    if rule.message is None:
        return None
    for at in rule.message:
        if machine.spelled(at).startswith("L"):
            return at, "no L stands before a message"
    text = "".join(machine.spelled(at)[1:-1] for at in rule.message)
    escape = re.search(r"\\[^\\\"]", re.sub(r"\\[\\\"]", "", text))
    if escape:
        return *inside(machine, rule, r"\\[^\\\"]"), f"`{escape.group()}` is no escape of a message"
    conversions = re.findall(r"%(.?)", text.replace("%%", ""))
    wrong = [one for one in conversions if one != "s"]
    if wrong:
        says = f"`%{wrong[0]}` is no conversion of a message: write %s, or %% for a percent sign"
        return *inside(machine, rule, "%" + re.escape(wrong[0])), says
    if len(conversions) == len(rule.arguments):
        return None
    return rule.message[0], f"the message has {len(conversions)} `%s` and {len(rule.arguments)} `mc_identifier`"


def inside(machine, rule, pattern):
    """The string of a message that has this in it, by the number of its token, and where in it."""
    for at in rule.message:
        found = re.search(pattern, machine.spelled(at))
        if found:
            return at, found.start()
    return rule.message[0], 0


FINDERS = {"UnknownCallout": unknown_callout, "TwoVariables": two_variables, "BadSplit": bad_split, "BadSource": bad_source,
           "VariableMissing": variable_missing, "BadFormat": bad_format}
