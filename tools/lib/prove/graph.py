"""The graph of crates: what each crate of crates.txt stands on, the ways that lead down it, and its chains."""
import os
import re

ROOT = os.path.dirname(os.path.dirname(os.path.dirname(os.path.dirname(os.path.realpath(__file__)))))

PROGRAM = "metalcheck"


class BadGraph(Exception):
    """crates.txt names no graph with one program; the text says where and what to do."""


def named_crates(root):
    """What each line of crates.txt names, in the order of the file: the crates of the repository and libraries of the toolchain."""
    path, found = os.path.join(root, "crates.txt"), {}
    try:
        with open(path, encoding="utf-8") as file:
            lines = file.read().split("\n")
    except OSError as error:
        raise BadGraph(f"{path} can't be read ({error.strerror}): call this in a whole checkout of the repository") from error
    for number, line in enumerate(lines, 1):
        line = line.split("#")[0].strip()
        if not line:
            continue
        if not re.fullmatch(r"\w[\w ]*:[\w\s]*", line):
            raise BadGraph(f"{path}:{number}: a line is NAME: LIBRARY LIBRARY .., and this one isn't: {line}")
        head, _, libraries = line.partition(":")
        found[head.split()[0]] = libraries.split()
    return found


def program_of(root, named):
    """The crate of the program that the repository is for; others with a src/main.rt serve tests."""
    if PROGRAM not in named or not os.path.isfile(os.path.join(root, "crates", PROGRAM, "src", "main.rt")):
        raise BadGraph(f"{root}/crates.txt: the crate {PROGRAM} has to be there, with its src/main.rt")
    return PROGRAM


class Graph:
    """The crates on which one crate, the top, stands, the lowest first.

    of[name]        the crates of the repository that its line names
    of_kit[name]    the libraries of the toolchain that its line names
    below[name]     all crates that it stands on
    """

    def __init__(self, named, top):
        self.named, self.top = named, top
        self.order, self.of, self.of_kit, self.below = [], {}, {}, {}
        if top not in named:
            raise BadGraph(f"crates.txt names no crate {top}")
        self.visit(top, ())

    def visit(self, name, above):
        if name in above:
            raise BadGraph(f"crates.txt: {name} stands on itself: {' > '.join([*above, name])}")
        if name in self.of:
            return
        libraries = self.named[name]
        ours = [it for it in libraries if it in self.named]
        for it in ours:
            self.visit(it, (*above, name))
        self.of[name] = ours
        self.of_kit[name] = [it for it in libraries if it not in self.named]
        self.below[name] = sorted({*ours, *(low for it in ours for low in self.below[it])})
        self.order.append(name)

    def above(self, name):
        """All crates that stand on this one, the lowest first."""
        return [it for it in self.order if name in self.below[it]]

    def ways(self):
        """How many ways lead from the top to a crate below it, or to itself."""
        count = {}
        for name in self.order:
            count[name] = 1 + sum(count[it] for it in self.of[name])
        return count[self.top]

    def chain(self):
        """The deepest chain from the top down, each crate named by the one before it."""
        deepest = {}
        for name in self.order:
            deepest[name] = [name, *max((deepest[it] for it in self.of[name]), key=len, default=[])]
        return deepest[self.top]

    def behind(self, weights):
        """For each crate, the weight of the heaviest chain from it up to the top."""
        found = {name: weights[name] for name in self.order}
        for name in reversed(self.order):
            for it in self.of[name]:
                found[it] = max(found[it], weights[it] + found[name])
        return found
