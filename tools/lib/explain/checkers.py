"""Says of a refused checker at which token it stops being one, what is wanted there, and the way round."""
from .machine import Machine
from .names import shown_name
from .rule_faults import FINDERS
from .shown import marked, place, way_round
from .ways import OF_CHECKERS

MOST_VARIABLES, MOST_HOLES, MOST_RULES = 8, 16, 1000


def explained(path, line, name):
    """The lines that explain the refusal of this name at this line of a checker; at any line where that is None."""
    with open(path, encoding="latin-1", newline="") as file:
        text = file.read()
    what, way = OF_CHECKERS.get(name, OF_CHECKERS["Syntax"])
    shown = shown_name(path)
    if name == "TooLarge":
        return [f"  {shown}: {what}; it has {len(text):,}", *marked(line, text[:200].split("\n")[0]), *way_round(way)]
    machine = Machine(text)
    found = where(machine, line, name)
    if found:
        return [*place(shown, text, *found), *way_round(way)]
    rows = text.split("\n")
    return [f"  {shown}:{line}: {what}", *marked(line, rows[line - 1] if line <= len(rows) else ""), *way_round(way)]


def where(machine, line, name):
    """The offset of a fault and what is wrong there, or None where it isn't found at this line; any line where that is None."""
    if machine.bad_token:
        found = machine.bad_token
        right = found.name == name and line in (None, machine.text.count("\n", 0, found.at) + 1)
        return (found.at, found.says) if right else None
    if name == "Syntax":
        right = machine.fault and (line is None or not machine.tokens or machine.clause_line(machine.fault.at) == line)
        return (offset(machine, machine.fault.at), machine.fault.wanted) if right else None
    if name in ("Twice", "TooMany"):
        found = twice(machine) if name == "Twice" else too_many(machine)
    else:
        rules = [rule for rule in machine.rules if machine.line(rule.at) == line]
        found = next(filter(None, (FINDERS[name](machine, rule) for rule in rules)), None) if name in FINDERS else None
    return found and (offset(machine, found[0]) + sum(found[1:-1]), found[-1])


def offset(machine, at):
    """The offset of the token of this number; behind the last one the last byte of the text that isn't blank."""
    if at < len(machine.tokens):
        return machine.tokens[at].at
    return max(len(machine.text.rstrip()) - 1, 0)


def twice(machine):
    """The second declaration of a hole."""
    for name, at, _ in machine.declared:
        if machine.holes[name].at != at:
            return at, f"{name} is declared a second time"
    return None


def too_many(machine):
    """What goes past a limit of checkers."""
    states = [at for _, at, state in machine.declared if state]
    holes = [at for _, at, _ in machine.declared]
    rules = [rule.at for rule in machine.rules]
    for found, most, what in ((states, MOST_VARIABLES, "state variable"), (holes, MOST_HOLES, "hole"), (rules, MOST_RULES, "rule")):
        if len(found) > most:
            return found[most], f"this is {what} {most + 1}; a checker has {most:,} at most"
    return None
