"""Reads a text with a TextMate grammar, as far as the grammar of editors/ asks for it: match, begin and end, captures, and includes."""
import json
import re


class Grammar:
    """A grammar of one file."""

    def __init__(self, path):
        with open(path, encoding="utf-8") as file:
            self.top = json.load(file)

    def rules(self, rule):
        """The rules that are tried inside a rule, with the included ones in their places."""
        for one in rule.get("patterns", []):
            found = self.top["repository"][one["include"][1:]] if "include" in one else one
            if "match" in found or "begin" in found:
                yield found
            else:
                yield from self.rules(found)

    def next_rule(self, stack, line, at):
        """The first match from a place on: its rule (None for the end of the innermost one), or nothing where none matches."""
        found = []
        if "end" in stack[-1]:
            found.append((re.compile(stack[-1]["end"]).search(line, at), None))
        found += [(re.compile(rule.get("match") or rule["begin"]).search(line, at), rule) for rule in self.rules(stack[-1])]
        found = [one for one in found if one[0]]
        return min(found, key=lambda one: one[0].start()) if found else None

    def line(self, stack, line):
        """The pieces of a line that have a scope, each with that; the stack is that of the rules that are open."""
        pieces, at = [], 0
        while (found := self.next_rule(stack, line, at)) is not None:
            match, rule = found
            pieces += inside(stack, line[at:match.start()])
            if rule is None:
                pieces += captured(stack[-1], "endCaptures", match)
                stack.pop()
            else:
                pieces += captured(rule, "beginCaptures" if "begin" in rule else "captures", match)
                if "begin" in rule:
                    stack.append(rule)
            at = match.end()
        return pieces + inside(stack, line[at:])

    def scopes(self, text):
        """The pieces of a text that have a scope, in order, each with that."""
        stack, pieces = [self.top], []
        for line in text.splitlines():
            pieces += self.line(stack, line)
        return [(piece.strip(), scope) for piece, scope in pieces if piece.strip()], len(stack) - 1


def inside(stack, text):
    """A piece that no rule takes: it has the scope of the rule around it."""
    return [(text, stack[-1]["name"])] if "name" in stack[-1] and len(stack) > 1 else []


def captured(rule, kind, match):
    """The pieces of a match: its captures, or all of it under the rule's name."""
    named = [(match[int(number)], one["name"]) for number, one in sorted(rule.get(kind, {}).items()) if match[int(number)]]
    return named or ([(match[0], rule["name"])] if "name" in rule else [])
