"""Prints the rules of a checker with their numbers, or draws its states and rules for Graphviz."""
import re


def alternatives_of(machine, rule):
    """What a rule asks, as it is written in the checker, without comments and with single blanks."""
    tokens = machine.tokens[rule.at:rule.arrow]
    pieces = []
    for one, following in zip(tokens, [*tokens[1:], None]):
        pieces.append(one.text)
        if following and following.at > one.end:
            pieces.append(" ")
    return "".join(pieces)


def message_of(machine, rule):
    """The text of a rule's message, its strings joined."""
    return "".join(re.sub(r'^L?"|"$', "", machine.spelled(at)) for at in rule.message)


def transitions(machine):
    """The ways of a machine: number of the rule, source, what is asked, target, and the message or None."""
    for number, rule in enumerate(machine.rules, 1):
        asked = alternatives_of(machine, rule)
        says = message_of(machine, rule) if rule.message is not None else None
        for truth, target in zip(("true: ", "false: ") if rule.split else ("",), rule.targets):
            yield number, ".".join(rule.source.name), truth + asked, ".".join(target.name), says


def rules_of(machine):
    """The lines of a table of rules."""
    ways = list(transitions(machine))
    width = max((len(source) for _, source, _, _, _ in ways), default=0)
    return [f"{number:4}  {source:{width}}  {asked}  ==> {target}" + (f'  err "{says}"' if says is not None else "")
            for number, source, asked, target, says in ways]


def quoted(text):
    """A text as a string of Graphviz."""
    return '"' + text.replace("\\", "\\\\").replace('"', '\\"') + '"'


def graph_of(machine):
    """The lines of a graph: states are nodes, rules are edges, and those with a message are red."""
    lines = [f"digraph {quoted(machine.name)} {{", "  rankdir=LR;", "  node [shape=box, style=rounded];",
             '  "start" [style="rounded,bold"];']
    for number, source, asked, target, says in transitions(machine):
        label = f"{number}. {asked}" + (f"\n{says}" if says is not None else "")
        red = ", color=red, fontcolor=red" if says is not None else ""
        lines.append(f"  {quoted(source)} -> {quoted(target)} [label={quoted(label)}{red}];".replace("\n", "\\n"))
    return [*lines, "}"]
