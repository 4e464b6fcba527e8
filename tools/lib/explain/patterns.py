"""Reads the pattern of a rule: an expression of C without names of types, in which holes may stand."""
from typing import NamedTuple

from .cursor import BASIC

LEVELS = {op: level for level, ops in enumerate(
    ("||", "&&", "|", "^", "&", "== !=", "< > <= >=", "<< >>", "+ -", "* / %")) for op in ops.split()}
ASSIGNMENTS = frozenset("= += -= *= /= %= &= |= ^= <<= >>=".split())
PREFIXES = frozenset("* & - + ~ ! ++ --".split())
STATEMENTS = {
    **{word: "a statement is no pattern; a test is asked by its condition in a rule with true= and false="
       for word in ("if", "while", "for", "do", "switch")},
    "return": "`return` is no event; the end of a path is `$end_of_path$`",
    **{word: "a statement is no pattern" for word in ("goto", "break", "continue", "else", "case", "default")},
}
HIGHEST = 1000


class Tree(NamedTuple):
    """A part of a pattern: its kind or operator, the number of its first token, its parts, and its height."""

    kind: str
    at: int
    parts: tuple = ()
    height: int = 1


def tree(kind, at, *parts):
    """A tree over these parts."""
    return Tree(kind, at, parts, 1 + max((part.height for part in parts), default=0))


def bare(it):
    """A tree without the parentheses around it."""
    while it.kind == "()":
        it = it.parts[0]
    return it


def names_in(it):
    """The trees of all names in a tree; members and types have none."""
    found, waiting = [], [it]
    while waiting:
        one = waiting.pop()
        if one.kind == "name":
            found.append(one)
        waiting.extend(reversed(one.parts))
    return found


def calls_in(it):
    """The trees of all callees in a tree, without their parentheses."""
    found, waiting = [], [it]
    while waiting:
        one = waiting.pop()
        if one.kind == "call":
            found.append(bare(one.parts[0]))
        waiting.extend(reversed(one.parts))
    return found


class PatternReader:
    """Reads one pattern from a cursor; `holes` has the holes by their names."""

    def __init__(self, cursor, holes):
        self.cursor, self.holes, self.open = cursor, holes, 0

    def read(self):
        """The tree of the pattern in front of the closing brace."""
        cursor, start = self.cursor, self.cursor.at
        if cursor.here() in STATEMENTS:
            cursor.fail(STATEMENTS[cursor.here()])
        found = self.comma()
        if found.height > HIGHEST:
            cursor.fail(f"this pattern is more than {HIGHEST} levels high", start)
        self.no_hole(found)
        cursor.skip(";")
        cursor.take("}", "an operator, or the closing brace of the pattern, is wanted here")
        return found

    def kind_of(self, it):
        """The type of the hole that a tree is, or nothing."""
        hole = self.holes.get(self.cursor.tokens[it.at].text) if it.kind == "name" else None
        return hole.kind if hole else ""

    def no_hole(self, it):
        """Refuses a hole for callees or for arguments that stands by itself."""
        if self.kind_of(it) == "any_fn_call":
            self.cursor.fail("a hole of type any_fn_call stands as a callee alone: write it before a list of arguments", it.at)
        if self.kind_of(it) == "any_arguments":
            self.cursor.fail("a hole of type any_arguments stands last in a list of arguments alone", it.at)

    def over(self, kind, at, *parts):
        """A tree over these parts, none of which may be such a hole."""
        for part in parts:
            self.no_hole(part)
        return tree(kind, at, *parts)

    def comma(self):
        """expression: assignment {"," assignment}"""
        left = self.assignment()
        while self.cursor.skip(","):
            left = self.over(",", left.at, left, self.assignment())
        return left

    def assignment(self):
        """assignment: conditional, or unary OPERATOR assignment"""
        left = self.conditional()
        if self.cursor.here() in ASSIGNMENTS:
            op = self.cursor.step()
            return self.over(op, left.at, left, self.assignment())
        return left

    def conditional(self):
        """conditional: binary ["?" expression ":" conditional]"""
        test = self.binary(0)
        if not self.cursor.skip("?"):
            return test
        yes = self.comma()
        self.cursor.take(":")
        return self.over("?:", test.at, test, yes, self.conditional())

    def binary(self, lowest):
        """Operators of this level and above, grouping to the left."""
        left = self.unary()
        while LEVELS.get(self.cursor.here(), -1) >= lowest:
            op = self.cursor.step()
            left = self.over(op, left.at, left, self.binary(LEVELS[op] + 1))
        return left

    def unary(self):
        """A prefix, `sizeof`, a cast or a postfix expression."""
        cursor, at = self.cursor, self.cursor.at
        self.open += 1
        if self.open > HIGHEST + 1:
            cursor.fail(f"this pattern is more than {HIGHEST} levels high")
        if cursor.here() in PREFIXES:
            found = self.over("prefix " + cursor.step(), at, self.unary())
        elif cursor.skip("sizeof"):
            found = self.over("sizeof", at, self.type_in_parentheses() if self.type_is_next() else self.unary())
        elif self.type_is_next():
            found = self.over("cast", at, self.type_in_parentheses(), self.unary())
        else:
            found = self.postfix()
        self.open -= 1
        return found

    def type_is_next(self):
        """Whether a type in parentheses is next."""
        ahead = self.cursor.here(1)
        return self.cursor.here() == "(" and (ahead in BASIC or ahead in ("struct", "union", "enum", "const", "volatile"))

    def type_in_parentheses(self):
        """"(" words of a basic type, or a tag, and stars ")" """
        cursor, at = self.cursor, self.cursor.at
        cursor.take("(")
        read_type(cursor)
        cursor.take(")", "`*` or `)` is wanted behind a type; qualifiers and typedef names aren't written in a checker")
        return tree("type", at)

    def postfix(self):
        """A primary expression with calls, indices, members and counts behind it."""
        cursor, found = self.cursor, self.primary()
        while True:
            if cursor.skip("("):
                found = self.call(found)
            elif cursor.skip("["):
                found = self.over("[]", found.at, found, self.comma())
                cursor.take("]")
            elif cursor.here() in (".", "->"):
                op = cursor.step()
                cursor.word("a member's name is wanted here")
                found = self.over(op, found.at, found)
            elif cursor.here() in ("++", "--"):
                found = self.over("postfix " + cursor.step(), found.at, found)
            else:
                return found

    def call(self, callee):
        """The arguments behind a callee and "("."""
        cursor, arguments = self.cursor, []
        self.callee(callee)
        while not cursor.skip(")"):
            if arguments and not cursor.skip(","):
                cursor.fail("`,` or `)` is wanted here")
            arguments.append(self.assignment())
            rest = self.kind_of(arguments[-1]) == "any_arguments"
            if rest and cursor.here() != ")":
                cursor.fail("a hole of type any_arguments stands last in the list: put it behind the others", arguments[-1].at)
            if not rest:
                self.no_hole(arguments[-1])
        return tree("call", callee.at, callee, *arguments)

    def callee(self, callee):
        """Refuses a hole as a callee that isn't one for callees."""
        kind = self.kind_of(bare(callee))
        if kind and kind != "any_fn_call":
            name = self.cursor.tokens[bare(callee).at].text
            self.cursor.fail(f"a hole that is called has the type any_fn_call: write `decl any_fn_call {name};`", bare(callee).at)

    def primary(self):
        """A name, a constant, strings, or an expression in parentheses."""
        cursor, at = self.cursor, self.cursor.at
        if cursor.skip("("):
            inner = self.comma()
            cursor.take(")", "an operator or `)` is wanted here")
            return tree("()", at, inner)
        if cursor.here() == "...":
            cursor.fail("`...` is no expression: declare `decl any_arguments rest;` and write `rest` last in the list")
        if cursor.here() == "$":
            cursor.fail("a callout stands behind a pattern and not in it: { pattern } && ${ callout }")
        if cursor.here() in ("__builtin_va_arg", "__builtin_offsetof"):
            return self.built_in()
        if cursor.at_literal():
            return self.strings()
        if cursor.here()[:1].isdigit() or cursor.here()[:1] == "." and cursor.here() != ".":
            cursor.step()
            return tree("constant", at)
        cursor.word("an expression of C is wanted here")
        return tree("name", at)

    def strings(self):
        """A character constant, or strings in a row."""
        at = self.cursor.at
        self.cursor.step()
        while self.cursor.at_literal():
            self.cursor.step()
        return tree("constant", at)

    def built_in(self):
        """`__builtin_va_arg(e, T)` or `__builtin_offsetof(T, m)`, whose words aren't looked at."""
        cursor, at, depth = self.cursor, self.cursor.at, 0
        cursor.step()
        while cursor.here():
            depth += {"(": 1, ")": -1}.get(cursor.step(), 0)
            if not depth:
                return tree("constant", at)
        return cursor.fail("`)` is wanted here")


def read_type(cursor):
    """A type as a checker may have one: words of a basic type, or a tag, and stars."""
    if cursor.here() in ("struct", "union"):
        cursor.step()
        cursor.word("a tag is wanted here")
    elif cursor.here() in BASIC:
        while cursor.here() in BASIC:
            cursor.step()
    else:
        cursor.fail("a type is wanted here: words of a basic type, or `struct` or `union` and a tag, and stars")
    while cursor.skip("*"):
        pass
