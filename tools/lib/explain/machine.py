"""Reads a checker: its holes and rules, and where it stops being one."""
import re
import sys
from dataclasses import dataclass, field
from typing import NamedTuple

from .cursor import BASIC, Cursor, Unread
from .lexer import tokens_of
from .patterns import PatternReader, Tree, names_in, read_type

HOLE_TYPES = ("any_expr", "any_scalar", "any_pointer", "any_arguments", "any_fn_call")
CALLOUTS = {"mc_is_const": ("name",), "mc_is_global": ("name",), "mc_is_param": ("name",), "mc_is_local": ("name",),
            "mc_name_is": ("name", "string"), "mc_in_function": ("string",)}


class Hole(NamedTuple):
    """A declared hole: whether it is a state variable, its type's first word, and the number of its token."""

    state: bool
    kind: str
    at: int


class State(NamedTuple):
    """A state that is named: `start` as ("start",), `v.freed` as ("v", "freed"); and the number of its first token."""

    name: tuple
    at: int


class Item(NamedTuple):
    """A part of an alternative: "pattern" with its tree, "callout" with its arguments, or "end"; and the number of its first token, of a
    callout of its name."""

    kind: str
    at: int
    tree: Tree = None
    callout: str = ""
    arguments: tuple = ()


@dataclass
class Rule:
    """A rule: its states, its alternatives (lists of items), and its message with what that names. Tokens are meant by their numbers."""

    at: int
    source: State
    alternatives: list = field(default_factory=list)
    targets: list = field(default_factory=list)
    split: bool = False
    message: list = None
    arguments: list = field(default_factory=list)
    arrow: int = 0


def patterns(alternative):
    """The trees of the patterns of an alternative."""
    return [item.tree for item in alternative if item.kind == "pattern"]


class Machine:
    """A checker as far as it could be read: `fault` is where it stops being one, or None."""

    def __init__(self, text):
        self.text = text
        tokens, self.bad_token = tokens_of(text, checker=True)
        self.cursor, self.tokens = Cursor(tokens), tokens
        self.name, self.holes, self.declared, self.rules, self.fault = "", {}, [], [], None
        self.clauses = []
        deepest = sys.getrecursionlimit()
        sys.setrecursionlimit(max(deepest, 12000))
        try:
            self.read()
        except Unread as fault:
            self.fault = fault
        finally:
            sys.setrecursionlimit(deepest)

    def read(self):
        """The head, the declarations and the sections."""
        cursor = self.cursor
        cursor.take("sm", "a checker begins with `sm NAME {`")
        self.name = cursor.word("the checker's name is wanted here")
        cursor.take("{")
        while self.at_declaration():
            self.declaration()
        while cursor.here() not in ("}", ""):
            self.section()
        cursor.take("}", "the closing brace of the checker is missing")
        if cursor.here():
            cursor.fail("nothing stands behind the closing brace: one checker a file")

    def at_declaration(self):
        """Whether a declaration is next."""
        return self.cursor.here() in ("state", "decl") and self.cursor.here(1) not in (":", ".")

    def declaration(self):
        """["state"] "decl" type NAME {"," NAME} ";" """
        cursor = self.cursor
        self.clauses.append(cursor.at)
        state = cursor.skip("state")
        cursor.take("decl")
        kind = self.hole_type(state)
        while True:
            at = cursor.at
            name = cursor.word("a hole's name is wanted here")
            self.holes.setdefault(name, Hole(state, kind, at))
            self.declared.append((name, at, state))
            if not cursor.skip(","):
                break
        cursor.take(";", "`,` or `;` is wanted behind the name of a hole")

    def hole_type(self, state):
        """The type of the holes of a declaration."""
        cursor, kind = self.cursor, self.cursor.here()
        if kind in HOLE_TYPES:
            if state and kind in ("any_arguments", "any_fn_call"):
                cursor.fail("a state variable takes an expression that isn't a callee: any_expr, any_scalar, any_pointer or a type of C")
            cursor.step()
        elif kind in BASIC or kind in ("struct", "union"):
            read_type(cursor)
        else:
            cursor.fail("this is no type of holes: any_expr, any_scalar, any_pointer, any_arguments, any_fn_call, words of a basic type, "
                        "or struct or union and a tag. For a typedef write what it stands for, without const and volatile")
        return kind

    def state(self, wanted):
        """NAME ["." NAME]"""
        cursor, at = self.cursor, self.cursor.at
        name = cursor.word(wanted)
        if not cursor.skip("."):
            return State((name,), at)
        return State((name, cursor.word("a state's name is wanted behind the point")), at)

    def section(self):
        """state ":" rule {"|" rule} ";" """
        cursor = self.cursor
        self.clauses.append(cursor.at)
        if self.at_declaration():
            cursor.fail("all declarations stand before the first section")
        if cursor.here(1) == "}" and cursor.at_word():
            cursor.fail("nothing but sections stands before the closing brace, and a section is a state, `:` and rules")
        source = self.state("a section begins with a state and `:`, as `start:` or `v.freed:`")
        cursor.take(":", "`:` is wanted behind the state of a section")
        while True:
            self.rule(source)
            if cursor.skip(";"):
                return
            cursor.take("|", "`|` and another rule, or `;` at the end of the section, is wanted here")

    def rule(self, source):
        """alternative {"||" alternative} "==>" targets ["," action]"""
        cursor, rule = self.cursor, Rule(self.cursor.at, source)
        rule.alternatives.append(self.alternative())
        while cursor.skip("||"):
            rule.alternatives.append(self.alternative())
        rule.arrow = cursor.at
        if cursor.here() in ("=", "->", ">=", "==", "--"):
            cursor.fail("the arrow is `==>`")
        cursor.take("==>", "`==>` is wanted behind the patterns of a rule, or `||` or `&&` and another one")
        self.targets(rule)
        if cursor.here() == "{":
            cursor.fail("a comma is wanted between the state and `{ err(..); }`")
        if cursor.skip(","):
            self.action(rule)
        self.rules.append(rule)

    def targets(self, rule):
        """state, or "true=" state ", false=" state"""
        cursor = self.cursor
        if cursor.here() == "false" and cursor.here(1) == "=":
            cursor.fail("`true=` comes first: true=STATE, false=STATE")
        if cursor.here() == "true" and cursor.here(1) == "=":
            cursor.step(), cursor.step()
            rule.split = True
            rule.targets.append(self.state("a state is wanted here"))
            cursor.take(",", "`, false=STATE` is wanted here")
            cursor.take("false")
            cursor.take("=")
        rule.targets.append(self.state("a state is wanted here"))

    def action(self, rule):
        """"{" "err" "(" strings {"," "mc_identifier" "(" NAME ")"} ")" [";"] "}" """
        cursor = self.cursor
        cursor.take("{", "an action stands in braces: `, { err(\"..\"); }`")
        cursor.take("err", "the one action is err(\"TEXT\", mc_identifier(v) ..)")
        cursor.take("(")
        if not cursor.here().endswith('"'):
            cursor.fail("a message is a string in double quotes")
        rule.message = []
        while cursor.here().endswith('"'):
            rule.message.append(cursor.at)
            cursor.step()
        while cursor.skip(","):
            cursor.take("mc_identifier", "an argument of a message is mc_identifier(NAME)")
            cursor.take("(")
            rule.arguments.append(cursor.at)
            cursor.word("a hole's name is wanted here")
            cursor.take(")")
        cursor.take(")", "`, mc_identifier(NAME)` or `)` is wanted here")
        cursor.skip(";")
        cursor.take("}", "the closing brace of the action is wanted here: one err(..) a rule")

    def alternative(self):
        """item {"&&" item}"""
        items = [self.item()]
        while self.cursor.skip("&&"):
            items.append(self.item())
        kinds = [item.kind for item in items]
        if "end" in kinds and "pattern" in kinds:
            pattern = items[kinds.index("pattern")].at
            self.cursor.fail("the end of a path has no pattern beside it: write two alternatives, with `||`", pattern)
        return items

    def item(self):
        """A pattern in braces, a callout, or the end of a path."""
        cursor, at = self.cursor, self.cursor.at
        if cursor.skip("{"):
            return Item("pattern", at, PatternReader(cursor, self.holes).read())
        if not cursor.skip("$"):
            cursor.fail("a pattern stands in braces, { f(v) }; beside patterns there are ${ callout } and $end_of_path$")
        if cursor.skip("{"):
            return self.callout(at)
        if cursor.here() != "end_of_path":
            cursor.fail("`$end_of_path$` or `${ callout }` is wanted here")
        cursor.step()
        cursor.take("$")
        return Item("end", at)

    def callout(self, at):
        """["!"] ("0" | "1" | NAME "(" arguments ")") "}" """
        cursor, arguments = self.cursor, []
        cursor.skip("!")
        number = re.match("[0-9]", cursor.here())
        if number and cursor.here() not in ("0", "1"):
            cursor.fail("the callouts without a name are 0 and 1, spelled so")
        named = cursor.at
        name = cursor.step() if number else cursor.word("a callout is wanted here, as mc_is_const(v), or 0 or 1")
        if not number:
            cursor.take("(", f"`(` and arguments are wanted behind {name}")
            while cursor.at_word() or cursor.at_literal():
                arguments.append(cursor.at)
                cursor.step()
                if not cursor.skip(","):
                    break
            cursor.take(")", "a hole's name, a string or `)` is wanted here")
        cursor.take("}", "the closing brace of the callout is wanted here")
        return Item("callout", named, callout=name, arguments=tuple(arguments))

    def clause_line(self, at):
        """The line that stands for the clause of a token: that of its first one, the head and what is behind the end counting with their
        neighbours."""
        begun = [start for start in self.clauses if start <= at] or [0]
        return self.line(begun[-1] if len(begun) > 1 else 0)

    def spelled(self, at):
        """The spelling of the token of this number."""
        return self.tokens[at].text

    def line(self, at):
        """The line of the token of this number."""
        return self.text.count("\n", 0, self.tokens[at].at) + 1

    def names(self, alternative):
        """The names in the patterns of an alternative: pairs of a spelling and the number of its token."""
        return [(self.spelled(it.at), it.at) for tree in patterns(alternative) for it in names_in(tree)]
